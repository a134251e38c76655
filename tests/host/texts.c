/* tyttmose_text: what the program `judge` prints, in every room around its length. */
#include "calls.h"
#include "subjects.h"

#include <string.h>

static void text_of(const char *client, const char *server, size_t room)
{
    set(TEXT, client, strlen(client), server, strlen(server), room);
}

static void expect_text(const char *client, const char *server, const char *wanted)
{
    size_t length = strlen(wanted);
    for (size_t room = length > 2 ? length - 2 : 0; room < length + 3; room++) {
        text_of(client, server, room);
        if (room < length)
            refuses("a short buffer", 12, 0);
        else
            grants("a text", length, wanted, length);
    }
    text_of(client, server, 0);
    refuses("no buffer", 12, 0);
    text_of(client, server, TYTTMOSE_REPORT_SIZE);
    grants("a large buffer", length, wanted, length);
}

void test_texts(void)
{
    expect_text(CLIENT_G, SERVER_G, "compliant 2\n");
    expect_text(CLIENT_G, SERVER_H, "stuck 2 1\ndes (0,1,2)\n(0,\"?a\",1)\n");
    expect_text(SERVER_H, CLIENT_G, "stuck 2 1\ndes (0,1,2)\n(0,\"!a\",1)\n");
    expect_text(CLIENT_G, CLIENT_G, "stuck 1 0\ndes (0,0,1)\n");
    expect_text("des (0,3,3)\n(0,\"ckp\",0)\n(0,\"!layer\",1)\n(1,\"!prj\",2)\n",
                "des (0,4,3)\n(0,\"ckp\",0)\n(0,\"?layer\",1)\n(1,\"ckp\",1)\n(1,\"?prj\",2)\n",
                "stuck 1 3\ndes (0,3,4)\n(0,\"!layer\",1)\n(1,\"!prj\",2)\n(2,\"rbk\",3)\n");
    expect_text("", "", "client 2 1\n");
    expect_text("", SERVER_G, "client 2 1\n");
    expect_text("des (0,1,1)\n(0,\"!A\",0)\n", "", "client 7 2\n");
    expect_text(CLIENT_G, "des (0,0,0)\n", "server 4 1\n");
    expect_text(CLIENT_G, "des (0,2,2)\n(0,\"?a\",1)\n(0,\"?a\",1)\n", "server 10 3\n");
}
