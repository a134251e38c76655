/* tyttmose_read: what is written, every refusal with its place, and files at the limits. */
#include "calls.h"
#include "subjects.h"

#include <stdio.h>
#include <string.h>

static void read_file(const char *text, size_t room)
{
    set(READ, text, strlen(text), NULL, 0, room);
}

static void test_value(void)
{
    static uint8_t wanted[TYTTMOSE_VALUE_SIZE];
    wanted[0] = 2;                             /* states */
    wanted[1] = 1;                             /* count */
    wanted[2] = 1;                             /* the mark of state 0 */
    wanted[2 + TYTTMOSE_STATES] = 1;           /* its sign: takes */
    wanted[2 + 2 * TYTTMOSE_STATES + 1] = 1;   /* the first message leads to 1 */
    wanted[2 + 2 * TYTTMOSE_STATES + 2] = 'a'; /* its name */
    for (size_t room = TYTTMOSE_VALUE_SIZE; room < 2100; room += 559) {
        read_file(CLIENT_G, room);
        grants("a good file", TYTTMOSE_VALUE_SIZE, wanted, sizeof wanted);
    }
    for (size_t room = 0; room < TYTTMOSE_VALUE_SIZE; room += 109) {
        read_file(CLIENT_G, room);
        refuses("a short buffer", 12, 0);
    }
    read_file(CLIENT_G, TYTTMOSE_VALUE_SIZE - 1);
    refuses("a buffer one too short", 12, 0);
}

static void test_refusals(void)
{
    static const struct {
        const char *text;
        int number, place;
    } refusals[] = {
        {"", 2, 1},
        {"des (0,0,1)", 2, 1},
        {" des (0,0,1)\n", 2, 1},
        {"des (00,0,1)\n", 2, 1},
        {"des (0,0,1)\r\n", 2, 1},
        {"des (1,0,2)\n", 3, 1},
        {"des (1,97,0)\n", 3, 1},
        {"des (0,0,0)\n", 4, 1},
        {"des (0,0,11)\n", 4, 1},
        {"des (0,97,1)\n", 4, 1},
        {"des (0,99999,1)\n", 4, 1},
        {"des (0,2,1)\n(0,\"!a\",0)\n", 5, 3},
        {"des (0,1,1)\n(0,\"!a\",0)", 5, 2},
        {"des (0,1,1)\n(0,!a,0)\n", 5, 2},
        {"des (0,0,1)\n\n", 5, 2},
        {"des (0,1,1)\n(0,\"!a\",1)\n", 6, 2},
        {"des (0,1,1)\n(1,\"A\",0)\n", 6, 2},
        {"des (0,1,1)\n(0,\"rbk\",0)\n", 7, 2},
        {"des (0,1,1)\n(0,\"Ckp\",0)\n", 7, 2},
        {"des (0,1,1)\n(0,\"?A\",0)\n", 7, 2},
        {"des (0,1,1)\n(0,\"?aZ\",0)\n", 7, 2},
        {"des (0,1,1)\n(0,\"?\",0)\n", 7, 2},
        {"des (0,1,1)\n(0,\"!abcdefghi\",0)\n", 7, 2},
        {"des (0,1,1)\n(0,\"!a\t\",0)\n", 7, 2},
        {"des (0,1,2)\n(0,\"ckp\",1)\n", 8, 2},
        {"des (0,3,1)\n(0,\"ckp\",0)\n(0,\"!a\",0)\n(0,\"ckp\",0)\n", 8, 4},
        {"des (0,2,1)\n(0,\"?a\",0)\n(0,\"!b\",0)\n", 9, 3},
        {"des (0,2,1)\n(0,\"?a\",0)\n(0,\"!a\",0)\n", 9, 3},
        {"des (0,2,1)\n(0,\"?a\",0)\n(0,\"?a\",0)\n", 10, 3},
        {"des (0,1,1)\n(0,\"ckp\",0)\n", 11, 0},
        {"des (0,2,3)\n(2,\"ckp\",2)\n(0,\"!a\",1)\n", 11, 2},
    };
    for (size_t k = 0; k < sizeof refusals / sizeof refusals[0]; k++)
        for (size_t room = 0; room <= 2 * TYTTMOSE_VALUE_SIZE; room += TYTTMOSE_VALUE_SIZE) {
            read_file(refusals[k].text, room);
            refuses(refusals[k].text, (uint64_t)refusals[k].number, (uint64_t)refusals[k].place);
        }
}

/* 96 lines, all messages, and one line after them. */
static void test_lines(void)
{
    char text[TYTTMOSE_FILE_SIZE] = "des (0,96,10)\n";
    for (int k = 0; k < TYTTMOSE_LINES; k++)
        sprintf(text + strlen(text), "(%d,\"!n%02d\",%d)\n", k % 10, TYTTMOSE_LINES - k, k / 10);
    read_file(text, TYTTMOSE_VALUE_SIZE);
    expect(as_plain("96 messages") == TYTTMOSE_VALUE_SIZE, "is granted");
    strcat(text, "x");
    read_file(text, TYTTMOSE_VALUE_SIZE);
    refuses("a byte after 96 lines", 5, 98);
}

/* Spaces fill a file up to the limit and over it. */
static void test_lengths(void)
{
    static uint8_t big[LARGEST];
    memset(big, ' ', sizeof big);
    memcpy(big, "des (0,0,1)", 11);
    big[4095] = '\n';
    set(READ, big, 4096, NULL, 0, TYTTMOSE_VALUE_SIZE);
    grants("4,096 bytes", TYTTMOSE_VALUE_SIZE, value_of("des (0,0,1)\n").byte, TYTTMOSE_VALUE_SIZE);
    set(READ, big, 4097, NULL, 0, TYTTMOSE_VALUE_SIZE);
    refuses("4,097 bytes", 1, 0);
    set(READ, big, 65536 + 4096, NULL, 0, TYTTMOSE_VALUE_SIZE);
    refuses("65,536 bytes more", 1, 0);
    set(READ, big, sizeof big, NULL, 0, TYTTMOSE_VALUE_SIZE);
    refuses("a megabyte", 1, 0);
    memset(big, 0xFF, 4096);
    set(READ, big, 4096, NULL, 0, TYTTMOSE_VALUE_SIZE);
    refuses("4,096 bytes of 255", 2, 1);
}

void test_reading(void)
{
    test_value();
    test_refusals();
    test_lines();
    test_lengths();
}
