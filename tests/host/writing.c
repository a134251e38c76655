/* tyttmose_write: the text in every room around its length, and slices that are no value. */
#include "calls.h"
#include "subjects.h"

#include <string.h>

void test_writing(void)
{
    static uint8_t bytes[LARGEST];
    struct value value = value_of("des ( 0 , 2 , 2 )\n(0,\"?a\",1)\n(0,\"ckp\",0)\n");
    size_t length = strlen(CLIENT_G);
    for (size_t room = 0; room < 2 * length; room++) {
        set(WRITE, value.byte, sizeof value.byte, NULL, 0, room);
        if (room < length)
            refuses("a short buffer", 12, 0);
        else
            grants("a good value", length, CLIENT_G, length);
    }
    set(WRITE, value.byte, 0, NULL, 0, 100);
    refuses("no bytes", 13, 0);
    set(WRITE, value.byte, sizeof value.byte - 1, NULL, 0, 100);
    refuses("981 bytes", 13, 0);
    memcpy(bytes, value.byte, sizeof value.byte);
    set(WRITE, bytes, sizeof value.byte + 1, NULL, 0, 100);
    refuses("983 bytes", 13, 0);
    set(WRITE, bytes, 65536 + sizeof value.byte, NULL, 0, 100);
    refuses("65,536 bytes more", 13, 0);
    memset(bytes, 0xFF, TYTTMOSE_VALUE_SIZE);
    set(WRITE, bytes, TYTTMOSE_VALUE_SIZE, NULL, 0, 100);
    refuses("982 bytes of 255", 13, 0);
    memset(bytes, 0, TYTTMOSE_VALUE_SIZE);
    set(WRITE, bytes, TYTTMOSE_VALUE_SIZE, NULL, 0, 100);
    refuses("zero states", 13, 0);
    /* one byte of the value changed: its last place, the count, a name that is none */
    static const struct {
        size_t at;
        uint8_t byte;
    } changes[] = {{981, 'a'}, {1, 2}, {1, 0}, {1, 96}, {1, 255}, {0, 1}, {0, 11}, {0, 255}, {2, 2}, {12, 0}, {12, 3},
                   {21, 1},    {22, 1}, {22, 255}, {23, 2}, {23, 255}, {24, 0}, {24, 'A'}, {25, 'A'}, {26, 'b'}};
    for (size_t k = 0; k < sizeof changes / sizeof changes[0]; k++) {
        memcpy(bytes, value.byte, sizeof value.byte);
        bytes[changes[k].at] = changes[k].byte;
        set(WRITE, bytes, TYTTMOSE_VALUE_SIZE, NULL, 0, 100);
        refuses("a changed value", 13, 0);
    }
}
