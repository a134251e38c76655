/* The pairs that are timed: case l, a ring with its dual, the largest with its dual, a hub, a long run. */
#include "pairs.h"

#include "../tests/compare/long_pairs.h"

#include <stdarg.h>
#include <stdio.h>
#include <string.h>

static void add(char *text, const char *form, ...)
{
    size_t length = strlen(text);
    va_list rest;
    va_start(rest, form);
    vsnprintf(text + length, PAIR_BYTES - length, form, rest);
    va_end(rest);
}

/* Ten marked states in a ring, one name. */
static void ring(char *text, char sign)
{
    add(text, "des (0,20,10)\n");
    for (int state = 0; state < 10; state++)
        add(text, "(%d,\"ckp\",%d)\n(%d,\"%ca\",%d)\n", state, state, state, sign, (state + 1) % 10);
}

/* Ten marked states, 86 messages of eight bytes, spread over the targets. */
static void largest(char *text, char even, char odd)
{
    add(text, "des (0,96,10)\n");
    for (int state = 0; state < 10; state++)
        add(text, "(%d,\"ckp\",%d)\n", state, state);
    for (int k = 0; k < 86; k++)
        add(text, "(%d,\"%cname%02d%02d\",%d)\n", k % 10, k % 2 ? odd : even, k / 10, k % 10, (k * 7 + k / 10 * 3 + 1) % 10);
}

/* One unmarked hub, nine marked states. Names b1..b9 take the server alone away, 69 names take both, b1 leads back
 * from every marked state. The 69 leave out 12 of the 81 pairs of marked states. 7,201 stands. */
static void hub(char *text, char sign, int is_client)
{
    add(text, "des (0,96,10)\n");
    for (int j = 1; j <= 9; j++)
        add(text, "(0,\"%cb%d\",%d)\n", sign, j, is_client ? 0 : j);
    for (int k = 1; k <= 9; k++)
        for (int j = 1; j <= 8; j++)
            if (j < 8 || k > 3)
                add(text, "(0,\"%cc%d%d\",%d)\n", sign, k, j, is_client ? k : j);
    for (int k = 1; k <= 9; k++)
        add(text, "(%d,\"ckp\",%d)\n(%d,\"%cb1\",0)\n", k, k, k, sign);
}

/* The first of the pairs with a long run. */
static void long_run(char *text, const char *const *rows, char sign)
{
    char lines[PAIR_BYTES] = "";
    int count = 0;
    for (int state = 0; state < 10; state++) {
        if (rows[state][0] == '^') {
            add(lines, "(%d,\"ckp\",%d)\n", state, state);
            count++;
        }
        for (const char *row = rows[state] + 1; row[0] != 0; row += 2) {
            add(lines, "(%d,\"%c%c\",%c)\n", state, sign, row[0], row[1]);
            count++;
        }
    }
    add(text, "des (0,%d,10)\n%s", count, lines);
}

const char *pair(int k, char *client, char *server)
{
    client[0] = server[0] = 0;
    switch (k) {
    case 0:
        add(client, "des (0,3,3)\n(0,\"ckp\",0)\n(0,\"!layer\",1)\n(1,\"!prj\",2)\n");
        add(server, "des (0,4,3)\n(0,\"ckp\",0)\n(0,\"?layer\",1)\n(1,\"ckp\",1)\n(1,\"?prj\",2)\n");
        return "case l";
    case 1:
        ring(client, '?');
        ring(server, '!');
        return "ring";
    case 2:
        largest(client, '?', '!');
        largest(server, '!', '?');
        return "largest";
    case 3:
        hub(client, '?', 1);
        hub(server, '!', 0);
        return "hub";
    default:
        long_run(client, long_pairs[0][0], '?');
        long_run(server, long_pairs[0][1], '!');
        return "long run";
    }
}
