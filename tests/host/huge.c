/* Slices of 2^31 bytes and more, one for each length that a function takes: a length cut to fewer bits would fit again. The pages
 * are mapped and hardly touched, so they cost nothing; all but the first few are closed to writing. */
#define _DEFAULT_SOURCE
#include "calls.h"
#include "subjects.h"

#include <stdio.h>
#include <stdlib.h>
#include <string.h>
#include <sys/mman.h>

enum { FRONT = 1 << 16, LEAST = 32, LENT = 3, BEFORE = 0x33 };

#define CASE_H "stuck 2 1\ndes (0,1,2)\n(0,\"?a\",1)\n"

static uint8_t *front;
static struct value client, server, server_h;

/* Every length of the header, by the slice that it belongs to, and what the call answers and writes when that slice is
 * huge. A lent room that large is granted what it is granted otherwise. */
static const struct length {
    int function, slice;
    const char *name;
    uint64_t answer;
    const void *written;
} lengths[] = {
    {READ, 0, "file", (uint64_t)TYTTMOSE_FILE_TOO_LONG << 32, ""},
    {READ, LENT, "value", TYTTMOSE_VALUE_SIZE, client.byte},
    {WRITE, 0, "value", (uint64_t)TYTTMOSE_NO_VALUE << 32, ""},
    {WRITE, LENT, "text", sizeof CLIENT_G - 1, CLIENT_G},
    {VERDICT, 0, "client", (uint64_t)TYTTMOSE_NO_VALUE << 32, ""},
    {VERDICT, 1, "server", (uint64_t)TYTTMOSE_NO_VALUE << 32, ""},
    {VERDICT, LENT, "run", 2 << 16 | 1, "\0"},
    {OPEN, 0, "client", (uint64_t)TYTTMOSE_NO_VALUE << 32, ""},
    {OPEN, 1, "server", (uint64_t)TYTTMOSE_NO_VALUE << 32, ""},
    {MESSAGE, 0, "client", (uint64_t)TYTTMOSE_NO_VALUE << 32, ""},
    {MESSAGE, 1, "server", (uint64_t)TYTTMOSE_NO_VALUE << 32, ""},
    {MESSAGE, 2, "name", (uint64_t)TYTTMOSE_NO_MESSAGE << 32, ""},
    {ROLLBACK, 0, "client", (uint64_t)TYTTMOSE_NO_VALUE << 32, ""},
    {ROLLBACK, 1, "server", (uint64_t)TYTTMOSE_NO_VALUE << 32, ""},
    {TEXT, 0, "client", sizeof "client 1 0\n" - 1, "client 1 0\n"},
    {TEXT, 1, "server", sizeof "server 1 0\n" - 1, "server 1 0\n"},
    {TEXT, LENT, "text", sizeof CASE_H - 1, CASE_H},
};

/* The call that would be granted, were it not for the huge slice: on case h if a run is to be written, else on case g. */
static void set_granted(int function)
{
    static uint8_t lent[TYTTMOSE_VALUE_SIZE];
    const struct value *other = function == VERDICT ? &server_h : &server;
    if (function == READ || function == TEXT)
        set(function, CLIENT_G, strlen(CLIENT_G), SERVER_H, strlen(SERVER_H), sizeof lent);
    else
        set(function, client.byte, sizeof client.byte, other->byte, sizeof other->byte, sizeof lent);
    set_message(function == ROLLBACK ? 0x00010001 : 0xFF00FF00, "a", 1);
    call.lent = lent;
}

static void protect(int how)
{
    if (mprotect(front, FRONT, how) != 0) {
        perror("mprotect");
        exit(2);
    }
}

/* The slice is at the front of the pages and so many bytes long; or as many longer than it should be, a lent one than one
 * byte too short. */
static void try(const struct length *length, size_t bytes, int longer)
{
    static int by_hand;
    static char what[80];
    set_granted(length->function);
    size_t written = named(length->answer), seen = call.room;
    size_t own = length->slice == LENT ? written - 1 : call.length[length->slice], huge = bytes + (longer ? own : 0);
    snprintf(what, sizeof what, "a %s of %zu bytes", length->name, huge);
    current = what;
    protect(PROT_READ | PROT_WRITE);
    memset(front, 0, FRONT);
    if (length->slice == LENT) {
        call.lent = front;
        call.room = huge;
        seen = FRONT;
    } else {
        memcpy(front, call.in[length->slice], own);
        protect(PROT_READ);
        call.in[length->slice] = front;
        call.length[length->slice] = huge;
    }
    memset(call.lent, BEFORE, seen);
    perform(by_hand = !by_hand);
    expect_answer(call.answer, length->answer);
    expect(memcmp(call.lent, length->written, written) == 0, "the bytes written are others");
    for (size_t i = written; i < seen; i++)
        if (call.lent[i] != BEFORE) {
            expect(0, "a byte after them was changed");
            break;
        }
}

void test_huge(int power)
{
    int asked = power;
    client = value_of(CLIENT_G);
    server = value_of(SERVER_G);
    server_h = value_of(SERVER_H);
    do
        front = mmap(NULL, ((size_t)1 << power) + FRONT, PROT_READ, MAP_NORESERVE | MAP_PRIVATE | MAP_ANONYMOUS, -1, 0);
    while (front == MAP_FAILED && --power >= LEAST);
    if (power < LEAST) {
        current = "2^32 bytes and some";
        expect(0, "no slice of that length can be had");
        return;
    }
    for (size_t k = 0; k < sizeof lengths / sizeof lengths[0]; k++) {
        try(&lengths[k], (size_t)1 << 31, 0);
        try(&lengths[k], ((size_t)1 << 32) - 1, 0);
        try(&lengths[k], (size_t)1 << 32, 0);
        for (int more = LEAST; more <= power; more++)
            try(&lengths[k], (size_t)1 << more, 1);
    }
    printf("slices of 2^31 to 2^%d bytes (2^%d asked for), for each of %zu lengths\n", power, asked,
           sizeof lengths / sizeof lengths[0]);
}
