/* A behaviour from its bytes, and the test for refusal 13, as both searches make it first. */
#include "behaviour.h"

#include <string.h>

enum { VALUE = 2 + 2 * STATES + LINES * (2 + NAME) };

static int is_name_byte(uint8_t byte) { return (byte >= 'a' && byte <= 'z') || (byte >= '0' && byte <= '9'); }

/* One to eight bytes of a name, zeros after them. */
static int is_name(const uint8_t *byte)
{
    int length = 0;
    while (length < NAME && is_name_byte(byte[length]))
        length++;
    for (int i = length; i < NAME; i++)
        if (byte[i] != 0)
            return 0;
    return length > 0;
}

static uint64_t number(const uint8_t *byte)
{
    uint64_t name = 0;
    for (int i = 0; i < NAME; i++)
        name = name << 8 | byte[i];
    return name;
}

/* 0 if no accepted file gives the value. */
static int take(const uint8_t *value, size_t length, behaviour *side)
{
    if (length != VALUE)
        return 0;
    side->states = value[0];
    side->count = value[1];
    memcpy(side->marked, value + 2, STATES);
    memcpy(side->sign, value + 2 + STATES, STATES);
    int marks = 0;
    for (int state = 0; state < STATES; state++)
        marks += side->marked[state];
    if (side->states < 1 || side->states > STATES || side->count + marks > LINES)
        return 0;
    uint8_t speaks[STATES] = {0};
    for (int i = 0; i < LINES; i++) {
        const uint8_t *byte = value + 2 + 2 * STATES + i * (2 + NAME);
        message *message = &side->messages[i];
        message->from = byte[0];
        message->to = byte[1];
        message->name = number(byte + 2);
        if (i >= side->count) {
            if (message->from != 0 || message->to != 0 || message->name != 0)
                return 0;
            continue;
        }
        if (message->from >= side->states || message->to >= side->states || !is_name(byte + 2))
            return 0;
        if (i > 0 && (message->from < message[-1].from ||
                      (message->from == message[-1].from && message->name <= message[-1].name)))
            return 0;
        speaks[message->from] = 1;
    }
    for (int state = 0; state < STATES; state++)
        if (side->marked[state] > speaks[state] || side->sign[state] > 2 || (side->sign[state] != 0) != speaks[state])
            return 0;
    return 1;
}

uint64_t taken(judgement *judge, const uint8_t *client, size_t client_length, const uint8_t *server,
               size_t server_length, uint8_t *run, size_t run_length)
{
    behaviour c, s;
    if (!take(client, client_length, &c) || !take(server, server_length, &s))
        return refused(13);
    return judge(&c, &s, run, run_length);
}
