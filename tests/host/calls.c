/* Each call is made twice, on different stacks and with other bytes in what is lent: through the header, and by the convention
 * spelled out; with its slices at the start of rooms between closed pages, and at the end. What it may only read is closed
 * to writing, and the second time so is every page that it does not name. */
#define _GNU_SOURCE
#include "calls.h"

#include "../compare/plain_host.h"
#include "convention.h"
#include "room.h"

#include <signal.h>
#include <stdio.h>
#include <stdlib.h>
#include <string.h>
#include <unistd.h>

struct call call;
const char *current = "";

/* The stack of a verdict, a message and a rollback is promised by docs/HOST.md; the other bounds make growth seen. */
static const struct {
    const char *name;
    size_t most_stack;
} functions[CALLS + 1] = {{"read", 20 << 10},   {"write", 8 << 10},    {"verdict", 96 << 10}, {"open", 96 << 10},
                          {"message", 8 << 10}, {"rollback", 8 << 10}, {"text", 128 << 10},   {"no call", 0}};

static size_t deepest[CALLS], harness[2];
static long made, failures;

/* Ten failures are enough to see what is wrong. */
void expect(int holds, const char *what)
{
    if (holds)
        return;
    printf("%s, %s: %s\n", functions[call.function].name, current, what);
    if (++failures == 10) {
        printf("and perhaps more: ten failures\n");
        exit(1);
    }
}

void expect_answer(uint64_t answer, uint64_t wanted)
{
    if (answer != wanted)
        printf("answer %llx, wanted %llx: ", (unsigned long long)answer, (unsigned long long)wanted);
    expect(answer == wanted, "the answer is another");
}

/* A call that does not come back. On a stack of its own: the one in use may be what broke. */
static void stop(int signal)
{
    printf("%s, %s: %s (signal %d)\n", functions[call.function].name, current,
           signal == SIGALRM ? "the time is up" : "the call broke", signal);
    fflush(stdout);
    _exit(1);
}

static void perform_by_header(void)
{
    const uint8_t **in = call.in;
    const size_t *n = call.length;
    switch (call.function) {
    case READ:
        call.answer = tyttmose_read(in[0], n[0], call.lent, call.room);
        break;
    case WRITE:
        call.answer = tyttmose_write(in[0], n[0], call.lent, call.room);
        break;
    case VERDICT:
        call.answer = tyttmose_verdict(in[0], n[0], in[1], n[1], call.lent, call.room);
        break;
    case OPEN:
        call.answer = tyttmose_open(in[0], n[0], in[1], n[1]);
        break;
    case MESSAGE:
        call.answer = tyttmose_message(in[0], n[0], in[1], n[1], call.session, in[2], n[2]);
        break;
    case ROLLBACK:
        call.answer = tyttmose_rollback(in[0], n[0], in[1], n[1], call.session);
        break;
    case TEXT:
        call.answer = tyttmose_text(in[0], n[0], in[1], n[1], call.lent, call.room);
        break;
    default: /* no call: what the harness itself uses of the stack */
        call.answer = 0;
    }
}

static void no_call(void)
{
}

/* The same by the convention: in the order of the header, a session with rubbish in the upper half of its register. */
static void perform_by_convention(void)
{
    static void (*const pointers[CALLS + 1])(void) = {
        (void (*)(void))tyttmose_read,    (void (*)(void))tyttmose_write,    (void (*)(void))tyttmose_verdict,
        (void (*)(void))tyttmose_open,    (void (*)(void))tyttmose_message,  (void (*)(void))tyttmose_rollback,
        (void (*)(void))tyttmose_text,    no_call};
    uint64_t in[3], lent = (uintptr_t)call.lent, session = call.session | 0xDEADBEEF00000000u;
    const size_t *n = call.length;
    for (int k = 0; k < 3; k++)
        in[k] = (uintptr_t)call.in[k];
    uint64_t argument[7] = {in[0], n[0], in[1], n[1], session, in[2], n[2]};
    if (call.function == READ || call.function == WRITE) {
        argument[2] = lent;
        argument[3] = call.room;
    } else if (call.function == VERDICT || call.function == TEXT) {
        argument[4] = lent;
        argument[5] = call.room;
    }
    call.answer = convention_call(pointers[call.function], argument);
}

void perform(int by_hand)
{
    size_t used = room_stack_of(by_hand ? perform_by_convention : perform_by_header);
    if (call.function == CALLS) {
        harness[by_hand] = used;
        return;
    }
    used -= harness[by_hand];
    if (used > deepest[call.function])
        deepest[call.function] = used;
    expect(!by_hand || convention_broken == 0, "a register that must be kept was changed");
}

void calls_start(void)
{
    static const int breaks[] = {SIGSEGV, SIGBUS, SIGILL, SIGFPE, SIGABRT, SIGALRM};
    static uint8_t bytes[1 << 16];
    stack_t stack = {.ss_sp = bytes, .ss_size = sizeof bytes};
    struct sigaction action = {.sa_handler = stop, .sa_flags = SA_ONSTACK};
    int set_up = sigaltstack(&stack, NULL);
    for (size_t k = 0; k < sizeof breaks / sizeof breaks[0]; k++)
        set_up |= sigaction(breaks[k], &action, NULL);
    if (set_up != 0)
        exit(2);
    alarm(600); /* far more than all calls take, under an emulator too */
    call.function = CALLS;
    perform(0);
    perform(1);
}

int calls_hold(void)
{
    return failures == 0;
}

int calls_end(void)
{
    int all_tried = calls_hold();
    current = "its stack";
    for (int k = 0; k < CALLS && all_tried; k++) {
        call.function = k;
        printf("stack of %-8s %6zu bytes, at most %zu\n", functions[k].name, deepest[k], functions[k].most_stack);
        expect(deepest[k] > 0, "was not used: the measure is broken");
        expect(deepest[k] <= functions[k].most_stack, "is too deep");
    }
    printf("%ld calls, each made in two places; %ld failures\n", made, failures);
    return calls_hold();
}

void set(int function, const void *one, size_t one_length, const void *other, size_t other_length, size_t room)
{
    call = (struct call){function, {one, other, NULL}, {one_length, other_length, 0}, NULL, room, 0, 0};
}

void set_message(uint32_t session, const void *name, size_t length)
{
    call.session = session;
    call.in[2] = name;
    call.length[2] = length;
}

size_t named(uint64_t answer)
{
    if (tyttmose_refusal(answer) != 0)
        return 0;
    switch (call.function) {
    case READ:
    case WRITE:
    case TEXT:
        return tyttmose_value(answer);
    case VERDICT:
        return tyttmose_cause(answer) == 0 ? 0 : tyttmose_count(answer);
    default:
        return 0;
    }
}

/* What was lent, as it is after the call in each of the two places. */
static uint8_t after[2][LARGEST];

/* A byte of it before the call; no byte is the same in both places. */
static uint8_t before(size_t i, int place)
{
    return (uint8_t)((i * 5 + 1) ^ (place ? 0xFF : 0));
}

uint64_t make(void)
{
    static struct room rooms[4];
    static uint8_t lent[LARGEST];
    const uint8_t *in[3] = {call.in[0], call.in[1], call.in[2]};
    uint64_t answer = 0;
    size_t written = 0;
    if (rooms[0].start == NULL)
        for (int k = 0; k < 4; k++)
            room_open(&rooms[k], LARGEST);
    for (int place = 0; place < 2; place++) {
        int at_end = (int)(made % 2) ^ place; /* the next call begins where this one ends: same addresses, other bytes */
        for (int k = 0; k < 3; k++) {
            call.in[k] = room_place(&rooms[k], in[k], call.length[k], at_end);
            room_read_only(&rooms[k]);
        }
        for (size_t i = 0; i < call.room; i++)
            lent[i] = before(i, place);
        call.lent = room_place(&rooms[3], lent, call.room, at_end);
        if (place == 1)
            room_read_only_after(&rooms[3], call.lent, written);
        perform(place);
        expect(room_guards_stand(&rooms[3], call.lent, call.room), "wrote outside the lent buffer");
        memcpy(after[place], call.lent, call.room);
        if (place == 0) {
            answer = call.answer;
            written = named(answer) < call.room ? named(answer) : call.room;
        }
    }
    expect(call.answer == answer, "answers differently in another place");
    expect(memcmp(after[0], after[1], written) == 0, "writes differently in another place");
    for (size_t i = written; i < call.room; i++)
        if (after[1][i] != before(i, 1)) {
            expect(0, "changes a byte that it does not name in another place");
            break;
        }
    for (int k = 0; k < 3; k++)
        call.in[k] = in[k];
    made++;
    return answer;
}

void expect_left(const void *wanted, size_t length)
{
    expect(length <= call.room && memcmp(after[0], wanted, length) == 0, "the bytes written are others");
    for (size_t i = length; i < call.room; i++)
        if (after[0][i] != before(i, 0)) {
            expect(0, "a byte after them was changed");
            return;
        }
}

uint64_t refused(uint64_t number, uint64_t place)
{
    return number << 32 | place;
}

void refuses(const char *what, uint64_t number, uint64_t place)
{
    current = what;
    expect_answer(make(), refused(number, place));
    expect_left("", 0);
}

void grants(const char *what, uint64_t value, const void *wanted, size_t length)
{
    current = what;
    expect_answer(make(), value);
    expect_left(wanted, length);
}

static uint64_t plain_answer(uint8_t *lent)
{
    const uint8_t **in = call.in;
    const size_t *n = call.length;
    switch (call.function) {
    case READ:
        return plain_host_read(in[0], n[0], lent, call.room);
    case WRITE:
        return plain_host_write(in[0], n[0], lent, call.room);
    case VERDICT:
        return plain_host_verdict(in[0], n[0], in[1], n[1], lent, call.room);
    case OPEN:
        return plain_host_open(in[0], n[0], in[1], n[1]);
    case MESSAGE:
        return plain_host_message(in[0], n[0], in[1], n[1], call.session, in[2], n[2]);
    case ROLLBACK:
        return plain_host_rollback(in[0], n[0], in[1], n[1], call.session);
    default:
        return plain_host_text(in[0], n[0], in[1], n[1], lent, call.room);
    }
}

static uint8_t plain_lent[LARGEST];

const uint8_t *plain_left(void)
{
    return plain_lent;
}

uint64_t as_plain(const char *what)
{
    uint64_t wanted = plain_answer(plain_lent);
    grants(what, wanted, plain_lent, named(wanted));
    return wanted;
}

struct value value_of(const char *text)
{
    struct value value;
    call.function = READ;
    current = text;
    expect_answer(plain_host_read((const uint8_t *)text, strlen(text), value.byte, sizeof value.byte), TYTTMOSE_VALUE_SIZE);
    return value;
}
