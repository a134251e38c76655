/* The session calls: case g, a pair whose sides have different return points, names that are none, and numbers that are
 * no stand. */
#include "calls.h"
#include "subjects.h"

#include <string.h>

static void session_call(int function, const struct value *client, const struct value *server, uint32_t session,
                         const char *name, size_t length)
{
    set(function, client->byte, sizeof client->byte, server->byte, sizeof server->byte, 0);
    set_message(session, name, length);
}

/* a, rollback, rollback. Calls on case h between them change nothing: no call but the last knows of another. */
static void test_case_g(void)
{
    struct value client = value_of(CLIENT_G), server = value_of(SERVER_G), server_h = value_of(SERVER_H);
    session_call(OPEN, &client, &server, 0, "", 0);
    grants("case g", 0xFF00FF00, "", 0);
    session_call(OPEN, &client, &server_h, 0, "", 0);
    refuses("case h", 14, 0);
    session_call(MESSAGE, &client, &server, 0xFF00FF00, "a", 1);
    grants("a", 0x00010001, "", 0);
    session_call(MESSAGE, &client, &server_h, 0xFF00FF00, "a", 1);
    grants("a on case h", 0xFF010001, "", 0);
    session_call(ROLLBACK, &client, &server, 0x00010001, "", 0);
    grants("rollback", 0xFF00FF00, "", 0);
    session_call(ROLLBACK, &client, &server, 0xFF00FF00, "", 0);
    refuses("rollback again", 17, 0);
    session_call(MESSAGE, &client, &server, 0x00010001, "a", 1);
    refuses("a again", 16, 0);
    session_call(MESSAGE, &client, &server, 0x00000000, "a", 1);
    grants("a stand that is not reached", 0x00010001, "", 0);
}

/* The client is marked at 0 and the server at 1: nothing is the same on both sides. */
static void test_two_points(void)
{
    struct value client = value_of("des (0,4,4)\n(0,\"ckp\",0)\n(0,\"?a\",2)\n(2,\"?b\",1)\n(1,\"?b\",3)\n");
    struct value server = value_of("des (0,3,3)\n(0,\"!a\",1)\n(1,\"ckp\",1)\n(1,\"!b\",2)\n");
    session_call(MESSAGE, &client, &server, 0xFF00FF00, "a", 1);
    grants("a", 0xFF010002, "", 0);
    session_call(ROLLBACK, &client, &server, 0xFF010002, "", 0);
    refuses("one return point", 17, 0);
    session_call(MESSAGE, &client, &server, 0xFF010002, "b", 1);
    grants("b", 0x01020001, "", 0);
    session_call(ROLLBACK, &client, &server, 0x01020001, "", 0);
    grants("rollback to two states", 0xFF01FF00, "", 0);
    session_call(MESSAGE, &client, &server, 0xFF01FF00, "b", 1);
    refuses("a name that only the sender has", 16, 0);
    session_call(MESSAGE, &client, &server, 0xFF01FF00, "a", 1);
    refuses("a name that only the taker has", 16, 0);
    session_call(ROLLBACK, &client, &server, 0x00020001, "", 0);
    refuses("a return point that only the client has", 15, 0);
    session_call(ROLLBACK, &client, &server, 0x01020101, "", 0);
    refuses("a return point that only the server has", 15, 0);
    session_call(MESSAGE, &client, &server, 0xFF03FF00, "a", 1);
    refuses("a state that only the client has", 15, 0);
    session_call(MESSAGE, &client, &server, 0xFF00FF03, "a", 1);
    refuses("finished", 16, 0);
}

static void test_names(void)
{
    static char long_name[LARGEST];
    static const struct {
        const char *name;
        size_t length;
    } names[] = {{"", 0}, {"b", 1}, {"aa", 2}, {"A", 1}, {"?a", 2}, {"a\0", 2}, {"\0", 1}, {"a\0\0\0\0\0\0\0", 8}, {"\xFF", 1}};
    struct value client = value_of(CLIENT_G), server = value_of(SERVER_G);
    memset(long_name, 'a', sizeof long_name);
    for (size_t k = 0; k < sizeof names / sizeof names[0]; k++) {
        session_call(MESSAGE, &client, &server, 0xFF00FF00, names[k].name, names[k].length);
        refuses("a name that is none", 16, 0);
    }
    for (size_t length = 2; length <= sizeof long_name; length *= 2) {
        session_call(MESSAGE, &client, &server, 0xFF00FF00, long_name, length);
        refuses("a long name", 16, 0);
        session_call(MESSAGE, &client, &server, 0xFF00FF00, long_name, length - 1);
        if (length > 2)
            refuses("a long name", 16, 0);
    }
    struct value taker = value_of("des (0,1,1)\n(0,\"?abcdefgh\",0)\n"), sender = value_of("des (0,1,1)\n(0,\"!abcdefgh\",0)\n");
    static const char *const near[] = {"abcdefg", "abcdefgi", "bbcdefgh", "abcdefghi", "Abcdefgh", "abcdefgH"};
    session_call(MESSAGE, &taker, &sender, 0xFF00FF00, "abcdefgh", 8);
    grants("a name of eight bytes", 0xFF00FF00, "", 0);
    for (size_t k = 0; k < sizeof near / sizeof near[0]; k++) {
        session_call(MESSAGE, &taker, &sender, 0xFF00FF00, near[k], strlen(near[k]));
        refuses("a name near it", 16, 0);
    }
    session_call(MESSAGE, &client, &server, 0xFF00FF00, long_name, 257);
    refuses("256 bytes more", 16, 0);
    session_call(MESSAGE, &client, &server, 0xFF00FF00, long_name, 65537);
    refuses("65,536 bytes more", 16, 0);
}

static void test_no_stands(void)
{
    static const uint32_t nowhere[] = {0xFFFFFFFF, 0xFF00FF02, 0xFF02FF00, 0xFF0001FF, 0xFF000100, 0x0100FF00,
                                       0xFF00FE00, 0xFE00FF00, 0x0A0A0A0A, 0xFF0AFF00, 0xFF00FF0A, 0xFF80FF00,
                                       0xFF00FF80, 0x8000FF00, 0xFF008000};
    struct value client = value_of(CLIENT_G), server = value_of(SERVER_G), none;
    memset(&none, 0, sizeof none);
    for (size_t k = 0; k < sizeof nowhere / sizeof nowhere[0]; k++) {
        session_call(MESSAGE, &client, &server, nowhere[k], "a", 1);
        refuses("no stand", 15, 0);
        session_call(MESSAGE, &client, &server, nowhere[k], "", 0);
        refuses("no stand and no name", 15, 0);
        session_call(ROLLBACK, &client, &server, nowhere[k], "", 0);
        refuses("no stand", 15, 0);
        session_call(MESSAGE, &client, &none, nowhere[k], "", 0);
        refuses("no server and no stand", 13, 0);
        session_call(ROLLBACK, &none, &server, nowhere[k], "", 0);
        refuses("no client and no stand", 13, 0);
    }
    for (int function = OPEN; function <= ROLLBACK; function++) {
        session_call(function, &none, &server, 0xFF00FF00, "a", 1);
        refuses("no client", 13, 0);
        session_call(function, &client, &none, 0xFF00FF00, "a", 1);
        refuses("no server", 13, 0);
        session_call(function, &client, &server, 0xFF00FF00, "a", 1);
        call.length[0]--;
        refuses("a short client", 13, 0);
        session_call(function, &client, &server, 0xFF00FF00, "a", 1);
        call.length[1]--;
        refuses("a short server", 13, 0);
    }
}

void test_sessions(void)
{
    test_case_g();
    test_two_points();
    test_names();
    test_no_stands();
}
