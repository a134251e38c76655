/* The pairs that are timed, the largest ones too, through every call: held to numbers known without the library, and to the
 * plain reading. */
#include "../../bench/pairs.h"
#include "calls.h"
#include "subjects.h"

#include <string.h>

/* How each is known:
 * - case l: document 01.
 * - ring: each of ten states with no return points, and with those of the state before, by hand.
 * - largest: both sides move alike. Each of ten states with no return points, and one stand for each of the 86 lines, no
 *   two of which go from and to the same states, by hand.
 * - hub, by hand: both at the hub, with no return point, the server's alone (9) or both (81): 91. The server alone away
 *   from it: 9 x 91. Both away, by 69 names: 69 x 91. After a rollback, the 12 pairs of states that no name leads to.
 * - long run: the plain judge says that none is shorter; test_along walks it. */
static const uint64_t known[PAIRS] = {1 << 16 | 3, 10 + 10, 10 + 86, 91 + 9 * 91 + 69 * 91 + 12, 1 << 16 | 262};
static const char *const text_known[PAIRS] = {
    "stuck 1 3\ndes (0,3,4)\n(0,\"!layer\",1)\n(1,\"!prj\",2)\n(2,\"rbk\",3)\n",
    "compliant 20\n",
    "compliant 96\n",
    "compliant 7201\n",
    "stuck 1 262\ndes (0,262,263)\n(0,\"?",
};
enum { LONG_RUN = 4 };

static struct value client, server;

static void on_values(int function, size_t room)
{
    set(function, client.byte, sizeof client.byte, server.byte, sizeof server.byte, room);
}

static void test_files(const char *name, const char *text, const struct value *value)
{
    set(READ, text, strlen(text), NULL, 0, TYTTMOSE_VALUE_SIZE);
    grants(name, TYTTMOSE_VALUE_SIZE, value->byte, sizeof value->byte);
    set(WRITE, value->byte, sizeof value->byte, NULL, 0, TYTTMOSE_TEXT_SIZE);
    size_t length = (size_t)as_plain(name);
    call.room = length;
    grants(name, length, plain_left(), length);
    call.room = length - 1;
    refuses(name, 12, 0);
}

/* The session calls take each step of the long run, and no message after it. Its names are the letters from a on. */
static void test_along(const char *name, const uint8_t *run, size_t length)
{
    uint32_t session = 0xFF00FF00;
    uint8_t letter;
    for (size_t k = 0; k < length; k++) {
        letter = (uint8_t)('a' + run[k]);
        on_values(run[k] == TYTTMOSE_ROLLBACK ? ROLLBACK : MESSAGE, 0);
        set_message(session, &letter, 1);
        uint64_t answer = as_plain(name);
        expect(tyttmose_refusal(answer) == 0, "a step of the run is refused");
        session = tyttmose_session(answer);
    }
    for (letter = 'a'; letter <= 'z'; letter++) {
        on_values(MESSAGE, 0);
        set_message(session, &letter, 1);
        refuses("after the long run", 16, 0);
    }
}

static void test_text(const char *name, const char *client_text, const char *server_text, const char *wanted)
{
    set(TEXT, client_text, strlen(client_text), server_text, strlen(server_text), TYTTMOSE_REPORT_SIZE);
    size_t length = (size_t)as_plain(name);
    expect(memcmp(plain_left(), wanted, strlen(wanted)) == 0, "the text begins otherwise");
    call.room = length;
    grants(name, length, plain_left(), length);
    call.room = length - 1;
    refuses(name, 12, 0);
}

void test_large(void)
{
    static char client_text[PAIR_BYTES], server_text[PAIR_BYTES];
    static uint8_t run[TYTTMOSE_RUN_SIZE];
    for (int k = 0; k < PAIRS; k++) {
        const char *name = pair(k, client_text, server_text);
        client = value_of(client_text);
        server = value_of(server_text);
        test_files(name, client_text, &client);
        test_files(name, server_text, &server);

        size_t length = tyttmose_cause(known[k]) == 0 ? 0 : tyttmose_count(known[k]);
        on_values(VERDICT, TYTTMOSE_RUN_SIZE);
        expect_answer(as_plain(name), known[k]);
        memcpy(run, k == 0 ? (const uint8_t *)"\0\1\xFF" : plain_left(), length);
        call.room = length;
        grants(name, known[k], run, length);
        if (length > 0) {
            call.room = length - 1;
            refuses(name, 12, 0);
        }

        on_values(OPEN, 0);
        current = name;
        expect_answer(make(), length == 0 ? 0xFF00FF00 : refused(14, 0));
        on_values(ROLLBACK, 0);
        set_message(0xFF00FF00, "", 0);
        refuses(name, 17, 0);
        on_values(MESSAGE, 0);
        set_message(0xFF00FF00, "zzzzzzzz", 8);
        refuses(name, 16, 0);
        if (k == LONG_RUN)
            test_along(name, run, length);
        test_text(name, client_text, server_text, text_known[k]);
    }
}
