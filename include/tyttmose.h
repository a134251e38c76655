/* tyttmose.h: reads descriptions of a deposit client and a server, judges whether the two may be joined, shows the
 * shortest bad run if not, and keeps sessions of pairs that may. docs/HOST.md has every number; tyttmose(3) is the
 * manual page.
 *
 * Every function takes byte slices (a pointer and a length) and numbers, keeps no state, allocates nothing, and answers
 * one uint64_t: the refusal number times 2^32, plus a value. Number 0 is no refusal. On a refusal the value is the
 * place (a line or a state for numbers 2 to 11, else 0), and no byte of a lent buffer is written. When granted, only the
 * bytes that the function names are written, at the front of the buffer; the bytes after them stay.
 *
 * A pointer may be anything readable for its length; with a length of 0 nothing is read. A lent buffer overlaps no
 * other argument. Calls on different buffers may run at the same time.
 */
#ifndef TYTTMOSE_H
#define TYTTMOSE_H

#include <stddef.h>
#include <stdint.h>

#ifdef __cplusplus
extern "C" {
#endif

/* The limits of a description: states, lines after the first, bytes of a file, bytes of a name. */
#define TYTTMOSE_STATES 10
#define TYTTMOSE_LINES 96
#define TYTTMOSE_FILE_SIZE 4096
#define TYTTMOSE_NAME_SIZE 8

/* A behaviour value passes as exactly this many bytes (982): states, count, a mark and a sign for each of the ten
 * states, then 96 messages of ten bytes: from, to, the name padded with zeros. */
#define TYTTMOSE_VALUE_SIZE (2 + 2 * TYTTMOSE_STATES + TYTTMOSE_LINES * (2 + TYTTMOSE_NAME_SIZE))

/* Buffers of these sizes are never refused with 12: a written text, a run, the text of a verdict. */
#define TYTTMOSE_TEXT_SIZE TYTTMOSE_FILE_SIZE
#define TYTTMOSE_RUN_SIZE 12100
#define TYTTMOSE_REPORT_SIZE 327680

/* A step of a run that is a rollback; any other byte is the rank of a name. */
#define TYTTMOSE_ROLLBACK 255

/* A return point that is none. */
#define TYTTMOSE_NOWHERE 255

enum tyttmose_refusals {
    TYTTMOSE_GRANTED = 0,
    TYTTMOSE_FILE_TOO_LONG = 1,     /* over 4,096 bytes */
    TYTTMOSE_FIRST_LINE = 2,        /* not of the shape; an empty file too. The place is 1 */
    TYTTMOSE_START_STATE = 3,       /* not 0. The place is 1 */
    TYTTMOSE_OUT_OF_RANGE = 4,      /* S or T. The place is 1 */
    TYTTMOSE_LINE = 5,              /* not of the shape, missing, or bytes after the last. The place is that line */
    TYTTMOSE_STATE = 6,             /* a state number not below S. The place is that line */
    TYTTMOSE_LABEL = 7,             /* not one of the three. The place is that line */
    TYTTMOSE_MARK = 8,              /* from one state to another, or a second one. The place is that line */
    TYTTMOSE_TAKES_AND_SENDS = 9,   /* at one state. The place is that line */
    TYTTMOSE_SAME_NAME = 10,        /* again at that state. The place is that line */
    TYTTMOSE_FINISHED_MARKED = 11,  /* The place is the lowest such state */
    TYTTMOSE_TOO_LONG = 12,         /* what is to be written is longer than the lent buffer */
    TYTTMOSE_NO_VALUE = 13,         /* a behaviour value that no accepted file gives */
    TYTTMOSE_NOT_COMPLIANT = 14,    /* a session asked for on such a pair */
    TYTTMOSE_NO_STAND = 15,         /* a state out of range, or a return point not marked */
    TYTTMOSE_NO_MESSAGE = 16,       /* not possible now, or not a name */
    TYTTMOSE_NO_ROLLBACK = 17       /* not possible now */
};

/* Reads a description file. Granted: 982 bytes, the behaviour value, are written to the front of `value`, and the
 * answer's value is 982. Refused: 1 to 11 for the file, else 12 if `value_length` is under 982. */
uint64_t tyttmose_read(const uint8_t *file, size_t file_length, uint8_t *value, size_t value_length);

/* Writes a behaviour value as a description file. Granted: the text is written to the front of `text`; the answer's
 * value is its length, which is at most 4,096. Refused: 13 for a slice that is no value (one that is not 982 bytes long
 * too), then 12. */
uint64_t tyttmose_write(const uint8_t *value, size_t value_length, uint8_t *text, size_t text_length);

/* Judges a pair. Granted: tyttmose_cause of the answer is 0 for a compliant pair, and tyttmose_count the number of
 * reachable stands; or the cause is 1 (no message is possible and the client is not finished) or 2 (.. and exactly one
 * side has a return point), tyttmose_count is the run's length, and the run is written to the front of `run`: a byte a
 * step, the rank of the message's name among the different names of both values in byte order, or TYTTMOSE_ROLLBACK.
 * Refused: 13 (the client is tested first), then 12. */
uint64_t tyttmose_verdict(const uint8_t *client, size_t client_length, const uint8_t *server, size_t server_length,
                          uint8_t *run, size_t run_length);

/* Opens a session. Granted: tyttmose_session of the answer is the session. Refused: 13, then 14. Keep the number, and
 * give it with the same pair to the next call. */
uint64_t tyttmose_open(const uint8_t *client, size_t client_length, const uint8_t *server, size_t server_length);

/* A message call: both sides move by the message whose name is given (its bytes, without the sign, no zeros behind).
 * Granted: tyttmose_session of the answer is the next session. Refused: 13, 15, 16; the session given still holds. */
uint64_t tyttmose_message(const uint8_t *client, size_t client_length, const uint8_t *server, size_t server_length,
                          uint32_t session, const uint8_t *name, size_t name_length);

/* A rollback call: each side goes to its own return point. Granted: tyttmose_session of the answer is the next session.
 * Refused: 13, 15, 17; the session given still holds. */
uint64_t tyttmose_rollback(const uint8_t *client, size_t client_length, const uint8_t *server, size_t server_length,
                           uint32_t session);

/* What the program `judge` prints for two description files. Granted: the text is written to the front of `text`; the
 * answer's value is its length. A file that is refused is told in the text. Refused: 12. */
uint64_t tyttmose_text(const uint8_t *client_file, size_t client_length, const uint8_t *server_file,
                       size_t server_length, uint8_t *text, size_t text_length);

/* The parts of an answer. */
static inline unsigned tyttmose_refusal(uint64_t answer) { return (unsigned)(answer >> 32); }
static inline uint32_t tyttmose_value(uint64_t answer) { return (uint32_t)answer; }
static inline unsigned tyttmose_place(uint64_t answer) { return (unsigned)(uint32_t)answer; }
static inline unsigned tyttmose_cause(uint64_t answer) { return (unsigned)(answer >> 16 & 0xffff); }
static inline unsigned tyttmose_count(uint64_t answer) { return (unsigned)(answer & 0xffff); }
static inline uint32_t tyttmose_session(uint64_t answer) { return (uint32_t)answer; }

/* The parts of a session: where both sides stand. A point is TYTTMOSE_NOWHERE or a state. */
static inline unsigned tyttmose_client_state(uint32_t session) { return session & 0xff; }
static inline unsigned tyttmose_client_point(uint32_t session) { return session >> 8 & 0xff; }
static inline unsigned tyttmose_server_state(uint32_t session) { return session >> 16 & 0xff; }
static inline unsigned tyttmose_server_point(uint32_t session) { return session >> 24 & 0xff; }

#ifdef __cplusplus
}
#endif

#endif
