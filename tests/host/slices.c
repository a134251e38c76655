/* Slices as such: none at all, one given twice, other bytes in the same place, and any bytes of any lengths. */
#include "calls.h"
#include "subjects.h"

#include <string.h>

/* A length of 0 with no pointer behind it: everywhere, and for what is lent alone. */
static void test_nothing(void)
{
    const uint8_t *file = (const uint8_t *)CLIENT_G, name = 'a';
    size_t length = strlen(CLIENT_G), size = TYTTMOSE_VALUE_SIZE;
    struct value client = value_of(CLIENT_G), server = value_of(SERVER_G), server_h = value_of(SERVER_H);
    const uint8_t *one = client.byte, *other = server.byte;
    current = "no slices";
    call.function = READ;
    expect_answer(tyttmose_read(NULL, 0, NULL, 0), refused(2, 1));
    expect_answer(tyttmose_read(file, length, NULL, 0), refused(12, 0));
    call.function = WRITE;
    expect_answer(tyttmose_write(NULL, 0, NULL, 0), refused(13, 0));
    expect_answer(tyttmose_write(one, size, NULL, 0), refused(12, 0));
    call.function = VERDICT;
    expect_answer(tyttmose_verdict(NULL, 0, NULL, 0, NULL, 0), refused(13, 0));
    expect_answer(tyttmose_verdict(one, size, NULL, 0, NULL, 0), refused(13, 0));
    expect_answer(tyttmose_verdict(one, size, other, size, NULL, 0), 2);
    expect_answer(tyttmose_verdict(one, size, server_h.byte, size, NULL, 0), refused(12, 0));
    call.function = OPEN;
    expect_answer(tyttmose_open(NULL, 0, NULL, 0), refused(13, 0));
    expect_answer(tyttmose_open(one, size, NULL, 0), refused(13, 0));
    call.function = MESSAGE;
    expect_answer(tyttmose_message(NULL, 0, NULL, 0, 0xFF00FF00, NULL, 0), refused(13, 0));
    expect_answer(tyttmose_message(one, size, NULL, 0, 0xFF00FF00, &name, 1), refused(13, 0));
    expect_answer(tyttmose_message(one, size, other, size, 0xFF00FF00, NULL, 0), refused(16, 0));
    call.function = ROLLBACK;
    expect_answer(tyttmose_rollback(NULL, 0, NULL, 0, 0xFF00FF00), refused(13, 0));
    expect_answer(tyttmose_rollback(one, size, NULL, 0, 0xFF00FF00), refused(13, 0));
    call.function = TEXT;
    expect_answer(tyttmose_text(NULL, 0, NULL, 0, NULL, 0), refused(12, 0));
    expect_answer(tyttmose_text(file, length, NULL, 0, NULL, 0), refused(12, 0));
}

/* Slices that are only read may be one and the same, or lie in each other. */
static void test_same(void)
{
    const uint8_t *file = (const uint8_t *)CLIENT_G;
    struct value client = value_of(CLIENT_G), loop = value_of("des (0,1,1)\n(0,\"!a\",0)\n");
    size_t size = TYTTMOSE_VALUE_SIZE, name = 2 + 2 * TYTTMOSE_STATES + 2;
    uint8_t text[64];
    current = "the same slice twice";
    call.function = VERDICT;
    expect_answer(tyttmose_verdict(client.byte, size, client.byte, size, text, sizeof text), 1 << 16);
    call.function = OPEN;
    expect_answer(tyttmose_open(client.byte, size, client.byte, size), refused(14, 0));
    call.function = TEXT;
    expect_answer(tyttmose_text(file, strlen(CLIENT_G), file, strlen(CLIENT_G), text, sizeof text), 22);
    expect(memcmp(text, "stuck 1 0\ndes (0,0,1)\n", 22) == 0, "the bytes written are others");
    current = "a name inside a value";
    call.function = MESSAGE;
    expect_answer(tyttmose_message(client.byte, size, loop.byte, size, 0xFF00FF00, loop.byte + name, 1), 0xFF000001);
}

/* The same slices with other bytes in them, in turns: a call that knows a slice by its address answers the last one's. */
static void test_other_bytes(void)
{
    static const char *const files[2] = {CLIENT_G, SERVER_G}, *const texts[2] = {CLIENT_G, SERVER_H};
    static const char *const said[2] = {"compliant 2\n", "stuck 1 0\ndes (0,0,1)\n"};
    static struct value client, server, value;
    static uint8_t file[2][sizeof CLIENT_G - 1], name, text[64];
    const size_t size = TYTTMOSE_VALUE_SIZE, length = sizeof file[0];
    current = "other bytes in the same slices";
    for (int turn = 0; turn < 6; turn++) {
        int k = turn % 2; /* case g, and case f */
        client = value_of(texts[k]);
        server = value_of(k == 0 ? SERVER_G : SERVER_H);
        memcpy(file[0], files[k], length);
        memcpy(file[1], SERVER_G, length);
        current = "other bytes in the same slices";
        call.function = READ;
        expect_answer(tyttmose_read(file[0], length, value.byte, size), size);
        expect(value.byte[2 + TYTTMOSE_STATES] == k + 1, "the sign is another");
        call.function = WRITE;
        expect_answer(tyttmose_write(client.byte, size, text, sizeof text), strlen(texts[k]));
        expect(memcmp(text, texts[k], strlen(texts[k])) == 0, "the bytes written are others");
        call.function = VERDICT;
        expect_answer(tyttmose_verdict(client.byte, size, server.byte, size, text, sizeof text), k == 0 ? 2 : 1 << 16);
        call.function = OPEN;
        expect_answer(tyttmose_open(client.byte, size, server.byte, size), k == 0 ? 0xFF00FF00 : refused(14, 0));
        call.function = MESSAGE;
        for (name = 'a'; name <= 'b'; name++)
            expect_answer(tyttmose_message(client.byte, size, server.byte, size, 0xFF00FF00, &name, 1),
                          k == 0 && name == 'a' ? 0x00010001 : refused(16, 0));
        call.function = ROLLBACK;
        expect_answer(tyttmose_rollback(client.byte, size, server.byte, size, 0x00010001),
                      k == 0 ? 0xFF00FF00 : refused(15, 0));
        call.function = TEXT;
        expect_answer(tyttmose_text(file[0], length, file[1], length, text, sizeof text), strlen(said[k]));
        expect(memcmp(text, said[k], strlen(said[k])) == 0, "the bytes written are others");
    }
}

/* Any bytes of any lengths, half of them small numbers: the answers of the plain reading, and no byte but those lent. */
static void test_anything(void)
{
    static uint8_t bytes[3][4200];
    uint64_t random = 20;
    for (int k = 0; k < 3000; k++) {
        size_t lengths[4];
        for (int side = 0; side < 4; side++) {
            random = random * 6364136223846793005u + 1442695040888963407u;
            lengths[side] = random >> 60 < 8 ? TYTTMOSE_VALUE_SIZE : (size_t)(random >> 40) % 4200;
        }
        for (int side = 0; side < 3; side++)
            for (size_t i = 0; i < lengths[side]; i++) {
                random = random * 6364136223846793005u + 1442695040888963407u;
                bytes[side][i] = (uint8_t)(random >> 33 & (k % 2 ? 0xFF : 0x03));
            }
        set(k % CALLS, bytes[0], lengths[0], bytes[1], lengths[1], k % CALLS < OPEN || k % CALLS == TEXT ? lengths[3] : 0);
        set_message((uint32_t)(random >> 32), bytes[2], lengths[2]);
        as_plain("any bytes");
    }
}

void test_slices(void)
{
    test_nothing();
    test_same();
    test_other_bytes();
    test_anything();
}
