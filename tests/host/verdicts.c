/* tyttmose_verdict: cases of document 01, runs that are equally short, and slices that are no value. */
#include "calls.h"
#include "subjects.h"

#include <string.h>

#define FINISHED "des (0,0,1)\n"
#define TAKES_A "des (0,1,2)\n(0,\"?a\",1)\n"
#define SENDS_A_OR_B "des (0,2,2)\n(0,\"!a\",1)\n(0,\"!b\",1)\n"

static const struct {
    const char *name, *client, *server;
    unsigned cause, count;
    const char *run;
} cases[] = {
    {"case a", FINISHED, FINISHED, 0, 1, ""},
    {"case b", FINISHED, SERVER_H, 0, 1, ""},
    {"case c", TAKES_A, FINISHED, 1, 0, ""},
    {"case d", TAKES_A, SENDS_A_OR_B, 1, 0, ""},
    {"case e", "des (0,2,2)\n(0,\"?a\",1)\n(0,\"?b\",1)\n", SERVER_H, 0, 2, ""},
    {"case f", SERVER_H, SERVER_H, 1, 0, ""},
    {"case g", CLIENT_G, SERVER_G, 0, 2, ""},
    {"case h", CLIENT_G, SERVER_H, 2, 1, "\0"},
    {"case i", "des (0,1,1)\n(0,\"?a\",0)\n", "des (0,2,1)\n(0,\"ckp\",0)\n(0,\"!a\",0)\n", 0, 2, ""},
    {"case j", "des (0,4,3)\n(0,\"ckp\",0)\n(0,\"?a\",1)\n(1,\"ckp\",1)\n(1,\"?b\",2)\n",
     "des (0,3,3)\n(0,\"!a\",1)\n(1,\"ckp\",1)\n(1,\"!b\",2)\n", 0, 4, ""},
    {"case k", "des (0,3,3)\n(0,\"?a\",1)\n(0,\"?b\",1)\n(1,\"?c\",2)\n", SENDS_A_OR_B, 1, 1, "\0"},
    {"case m", "des (0,4,5)\n(0,\"?sea\",1)\n(1,\"?house\",2)\n(2,\"?mount\",3)\n(3,\"?house\",4)\n",
     "des (0,5,5)\n(0,\"!sea\",1)\n(1,\"ckp\",1)\n(1,\"!house\",2)\n(2,\"!mount\",3)\n(3,\"!house\",4)\n", 2, 4, "\2\0\1\0"},
    /* a b and b a are equally short, and lead to one stand */
    {"two orders", "des (0,5,5)\n(0,\"?a\",1)\n(0,\"?b\",2)\n(1,\"?b\",3)\n(2,\"?a\",3)\n(3,\"?c\",4)\n",
     "des (0,4,4)\n(0,\"!a\",1)\n(0,\"!b\",2)\n(1,\"!b\",3)\n(2,\"!a\",3)\n", 1, 2, "\0\1"},
    /* a and b lead to stands of different cause: the first run decides */
    {"two causes, 2 first", "des (0,4,4)\n(0,\"ckp\",0)\n(0,\"?a\",1)\n(0,\"?b\",2)\n(2,\"?c\",3)\n", SENDS_A_OR_B, 2, 1, "\0"},
    {"two causes, 1 first", "des (0,4,4)\n(0,\"ckp\",0)\n(0,\"?b\",1)\n(0,\"?a\",2)\n(2,\"?c\",3)\n", SENDS_A_OR_B, 1, 1, "\0"},
    {"both causes at one stand", "des (0,3,3)\n(0,\"ckp\",0)\n(0,\"?a\",1)\n(1,\"?b\",2)\n", SERVER_H, 1, 1, "\0"},
};

static void judge(const struct value *client, const struct value *server, size_t room)
{
    set(VERDICT, client->byte, sizeof client->byte, server->byte, sizeof server->byte, room);
}

void test_verdicts(void)
{
    for (size_t k = 0; k < sizeof cases / sizeof cases[0]; k++) {
        struct value client = value_of(cases[k].client), server = value_of(cases[k].server);
        uint64_t wanted = (uint64_t)cases[k].cause << 16 | cases[k].count;
        size_t length = cases[k].cause == 0 ? 0 : cases[k].count, rooms[] = {length, length + 40, TYTTMOSE_RUN_SIZE};
        for (size_t room = 0; room < 3; room++) {
            judge(&client, &server, rooms[room]);
            grants(cases[k].name, wanted, cases[k].run, length);
        }
        if (length > 0) {
            judge(&client, &server, length - 1);
            refuses(cases[k].name, 12, 0);
        }
        set(OPEN, client.byte, sizeof client.byte, server.byte, sizeof server.byte, 0);
        current = cases[k].name;
        expect_answer(make(), cases[k].cause == 0 ? 0xFF00FF00 : refused(14, 0));
    }

    struct value client = value_of(CLIENT_G), server = value_of(SERVER_H), none;
    memset(&none, 0, sizeof none);
    for (size_t room = 0; room < 20; room += 19) {
        judge(&none, &server, room);
        refuses("no client", 13, 0);
        judge(&client, &none, room);
        refuses("no server", 13, 0);
        set(VERDICT, client.byte, 981, server.byte, 982, room);
        refuses("a short client", 13, 0);
        set(VERDICT, client.byte, 982, server.byte, 0, room);
        refuses("an empty server", 13, 0);
    }
}
