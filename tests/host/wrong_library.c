/* Wrong libraries, for the scripts of defects: linked by --wrap, each function calls the library's own and does one thing wrong,
 * that which DEFECT in the environment names. With any other name, such as `none`, nothing is wrong. */
#define _GNU_SOURCE
#include <tyttmose.h>

#include <ctype.h>
#include <signal.h>
#include <stdio.h>
#include <stdlib.h>
#include <string.h>
#include <unistd.h>

#define WRAPPED(function, ...) uint64_t __real_tyttmose_##function(__VA_ARGS__), __wrap_tyttmose_##function(__VA_ARGS__)

WRAPPED(read, const uint8_t *, size_t, uint8_t *, size_t);
WRAPPED(write, const uint8_t *, size_t, uint8_t *, size_t);
WRAPPED(verdict, const uint8_t *, size_t, const uint8_t *, size_t, uint8_t *, size_t);
WRAPPED(open, const uint8_t *, size_t, const uint8_t *, size_t);
WRAPPED(message, const uint8_t *, size_t, const uint8_t *, size_t, uint64_t, const uint8_t *, size_t);
WRAPPED(rollback, const uint8_t *, size_t, const uint8_t *, size_t, uint32_t);
WRAPPED(text, const uint8_t *, size_t, const uint8_t *, size_t, uint8_t *, size_t);

static const char *defect = "none";
static long calls;

static int is(const char *name)
{
    return strcmp(defect, name) == 0;
}

__attribute__((constructor)) static void choose(void)
{
    if (getenv("DEFECT") != NULL)
        defect = getenv("DEFECT");
}

/* The example makes few calls, a test many. All that was printed is seen. */
__attribute__((destructor)) static void end(void)
{
    if (is(calls < 100 ? "a program of few calls dies by a signal after its last line"
                       : "a program of many calls dies by a signal after its last line")) {
        fflush(NULL);
        kill(getpid(), SIGKILL);
    }
}

static void count(void)
{
    if (++calls == 1000 && is("the thousandth call ends the process with 0"))
        _exit(0);
}

#define CUT(function, length)                             \
    if (is(#function ": " #length " cut to 32 bits"))     \
        length = (uint32_t)length

#define EXCHANGE(function, one, other)                    \
    if (is(#function ": client and server exchanged")) {  \
        const uint8_t *kept = one;                        \
        size_t kept_length = one##_length;                \
        one = other;                                      \
        one##_length = other##_length;                    \
        other = kept;                                     \
        other##_length = kept_length;                     \
    }

static int granted(uint64_t answer)
{
    return answer >> 32 == 0;
}

static uint64_t read_in_small_letters(const uint8_t *file, size_t file_length, uint8_t *value, size_t value_length)
{
    static uint8_t small[TYTTMOSE_FILE_SIZE];
    for (size_t i = 0; i < file_length; i++)
        small[i] = (uint8_t)tolower(file[i]);
    return __real_tyttmose_read(small, file_length, value, value_length);
}

uint64_t __wrap_tyttmose_read(const uint8_t *file, size_t file_length, uint8_t *value, size_t value_length)
{
    count();
    CUT(read, file_length);
    CUT(read, value_length);
    if (is("read: the byte after the file is looked at"))
        (void)*(volatile const uint8_t *)(file + file_length);
    if (is("read: the byte before the file is looked at"))
        (void)*(volatile const uint8_t *)(file - 1);
    uint64_t answer = __real_tyttmose_read(file, file_length, value, value_length);
    if (is("read: a capital letter is taken") && answer >> 32 == TYTTMOSE_LABEL)
        return read_in_small_letters(file, file_length, value, value_length);
    return answer;
}

uint64_t __wrap_tyttmose_write(const uint8_t *value, size_t value_length, uint8_t *text, size_t text_length)
{
    count();
    CUT(write, value_length);
    CUT(write, text_length);
    if (is("write: the bytes lent decide") && text_length > 0 && text[0] >= 0x80)
        return (uint64_t)TYTTMOSE_TOO_LONG << 32;
    uint8_t below;
    __asm__ volatile("movb -3000(%%rsp), %0" : "=r"(below));
    if (is("write: what is left on the stack decides") && below >= 0x80)
        return (uint64_t)TYTTMOSE_TOO_LONG << 32;
    uint64_t answer = __real_tyttmose_write(value, value_length, text, text_length);
    if (is("write: a byte is written and then refused") && !granted(answer) && text_length > 0)
        text[0] = 'd';
    if (is("write: 12 has a place") && answer >> 32 == TYTTMOSE_TOO_LONG)
        answer++;
    return answer;
}

uint64_t __wrap_tyttmose_verdict(const uint8_t *client, size_t client_length, const uint8_t *server, size_t server_length,
                                 uint8_t *run, size_t run_length)
{
    static uint64_t before;
    count();
    CUT(verdict, client_length);
    CUT(verdict, server_length);
    CUT(verdict, run_length);
    EXCHANGE(verdict, client, server);
    if (is("verdict: a byte lent is written and put back") && run_length > 0) {
        uint8_t kept = run[run_length - 1];
        *(volatile uint8_t *)(run + run_length - 1) = 0;
        *(volatile uint8_t *)(run + run_length - 1) = kept;
    }
    uint64_t answer = __real_tyttmose_verdict(client, client_length, server, server_length, run, run_length);
    unsigned cause = tyttmose_cause(answer), length = tyttmose_count(answer);
    if (!granted(answer))
        return answer;
    if (is("verdict: the causes exchanged") && cause != 0)
        return (uint64_t)(3 - cause) << 16 | length;
    if (is("verdict: a length over 255 is told as 255") && cause != 0 && length > 255)
        return (uint64_t)cause << 16 | 255;
    if (is("verdict: a number of stands over 255 is cut to 8 bits") && cause == 0)
        return answer & 0xFF;
    if (is("verdict: 100 stands for 96") && answer == 96)
        return 100;
    if (is("verdict: a long run has another last step") && cause != 0 && length > 200)
        run[length - 1] ^= 1;
    if (is("verdict: the same answer twice has one more the second time") && answer == before)
        return before = answer + 1;
    return before = answer;
}

uint64_t __wrap_tyttmose_open(const uint8_t *client, size_t client_length, const uint8_t *server, size_t server_length)
{
    static const uint8_t *last_client, *last_server;
    static uint64_t last;
    count();
    CUT(open, client_length);
    CUT(open, server_length);
    EXCHANGE(open, client, server);
    uint64_t answer = __real_tyttmose_open(client, client_length, server, server_length);
    if (is("open: a pair that is not compliant is opened") && answer >> 32 == TYTTMOSE_NOT_COMPLIANT)
        return 0xFF00FF00;
    if (is("open: a pair is known by its addresses") && client == last_client && server == last_server)
        return last;
    last_client = client;
    last_server = server;
    return last = answer;
}

static __attribute__((noinline)) void go_deep(void)
{
    volatile uint8_t deep[8 << 10];
    for (size_t i = 0; i < sizeof deep; i++)
        deep[i] = 1;
}

/* The session is 64 bits wide here: what stands in the whole register. */
uint64_t __wrap_tyttmose_message(const uint8_t *client, size_t client_length, const uint8_t *server, size_t server_length,
                                 uint64_t session, const uint8_t *name, size_t name_length)
{
    count();
    CUT(message, client_length);
    CUT(message, server_length);
    CUT(message, name_length);
    EXCHANGE(message, client, server);
    if (is("message: over 8 KiB of the stack are used"))
        go_deep();
    if (is("message: the whole register of the session counts") && session >> 32 != 0)
        return (uint64_t)TYTTMOSE_NO_STAND << 32;
    return __real_tyttmose_message(client, client_length, server, server_length, (uint32_t)session, name, name_length);
}

/* In assembler, or the compiler would save the register. */
uint64_t rollback_then_change(const uint8_t *, size_t, const uint8_t *, size_t, uint32_t);
__asm__(".text\n"
        "rollback_then_change:\n"
        "    sub $8, %rsp\n"
        "    call __real_tyttmose_rollback\n"
        "    add $8, %rsp\n"
        "    xor %r15d, %r15d\n"
        "    ret\n");

uint64_t __wrap_tyttmose_rollback(const uint8_t *client, size_t client_length, const uint8_t *server, size_t server_length,
                                  uint32_t session)
{
    count();
    CUT(rollback, client_length);
    CUT(rollback, server_length);
    EXCHANGE(rollback, client, server);
    if (is("rollback: a register of the caller is changed"))
        return rollback_then_change(client, client_length, server, server_length, session);
    uint64_t answer = __real_tyttmose_rollback(client, client_length, server, server_length, session);
    if (is("rollback: return points are kept") && granted(answer))
        answer = (answer & 0x00FF00FF) | (session & 0xFF00FF00);
    return answer;
}

uint64_t __wrap_tyttmose_text(const uint8_t *client, size_t client_length, const uint8_t *server, size_t server_length,
                              uint8_t *text, size_t text_length)
{
    count();
    CUT(text, client_length);
    CUT(text, server_length);
    CUT(text, text_length);
    EXCHANGE(text, client, server);
    uint64_t answer = __real_tyttmose_text(client, client_length, server, server_length, text, text_length);
    if (is("text: a byte is written after the named ones") && granted(answer) && answer < text_length)
        text[answer] = 0;
    if (is("text: a long text ends otherwise") && granted(answer) && answer > 1000)
        text[answer - 1] = '\r';
    if (is("text: the last byte of the client's file is changed") && client_length > 0)
        ((uint8_t *)client)[client_length - 1] ^= 1;
    return answer;
}
