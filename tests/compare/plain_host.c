/* The plain reading behind the numbers and bytes of docs/HOST.md. */
#include "plain_host.h"

#include "../plain/plain.h"

#include <stdlib.h>
#include <string.h>

enum { MESSAGE = 2 + PLAIN_NAME, VALUE = 2 + 2 * PLAIN_STATES + PLAIN_LINES * MESSAGE, NOWHERE = 255 };

static uint64_t refused(struct plain_refusal refusal)
{
    return (uint64_t)refusal.number << 32 | (uint64_t)refusal.place;
}

static uint64_t refused_with(int number)
{
    return (uint64_t)number << 32;
}

static void pack(const struct plain_behaviour *behaviour, uint8_t *value)
{
    uint8_t *at = value;
    *at++ = (uint8_t)behaviour->states;
    *at++ = (uint8_t)behaviour->count;
    for (int state = 0; state < PLAIN_STATES; state++)
        *at++ = (uint8_t)behaviour->marked[state];
    for (int state = 0; state < PLAIN_STATES; state++)
        *at++ = behaviour->sign[state] == '?' ? 1 : behaviour->sign[state] == '!' ? 2 : 0;
    for (int i = 0; i < PLAIN_LINES; i++, at += MESSAGE) {
        at[0] = (uint8_t)behaviour->message[i].from;
        at[1] = (uint8_t)behaviour->message[i].to;
        memcpy(at + 2, behaviour->message[i].name, PLAIN_NAME);
    }
}

/* Any bytes; what is not 982 of them is the value of zero states. */
static void unpack(const uint8_t *value, size_t length, struct plain_behaviour *behaviour)
{
    static const char signs[] = {0, '?', '!', 'x'};
    memset(behaviour, 0, sizeof *behaviour);
    if (length != VALUE)
        return;
    behaviour->states = value[0];
    behaviour->count = value[1];
    for (int state = 0; state < PLAIN_STATES; state++) {
        behaviour->marked[state] = (char)value[2 + state];
        behaviour->sign[state] = signs[value[2 + PLAIN_STATES + state] < 3 ? value[2 + PLAIN_STATES + state] : 3];
    }
    for (int i = 0; i < PLAIN_LINES; i++) {
        const uint8_t *at = value + 2 + 2 * PLAIN_STATES + MESSAGE * i;
        behaviour->message[i].from = at[0];
        behaviour->message[i].to = at[1];
        memcpy(behaviour->message[i].name, at + 2, PLAIN_NAME);
    }
}

static uint32_t point_number(int return_point)
{
    return return_point == PLAIN_NONE ? NOWHERE : (uint32_t)return_point;
}

static int point_of(uint32_t number)
{
    return number == NOWHERE ? PLAIN_NONE : (int)number;
}

static uint64_t session_of(struct plain_stand stand)
{
    return (uint32_t)stand.client | point_number(stand.client_return) << 8 | (uint32_t)stand.server << 16 |
           point_number(stand.server_return) << 24;
}

static struct plain_stand stand_of(uint32_t session)
{
    return (struct plain_stand){(int)(session & 255), point_of(session >> 8 & 255), (int)(session >> 16 & 255),
                                point_of(session >> 24)};
}

uint64_t HOST(read)(const uint8_t *file, size_t file_length, uint8_t *value, size_t value_length)
{
    struct plain_behaviour behaviour;
    struct plain_refusal refusal = plain_read(file, file_length, &behaviour);
    if (refusal.number != 0)
        return refused(refusal);
    if (value_length < VALUE)
        return refused_with(12);
    pack(&behaviour, value);
    return VALUE;
}

uint64_t HOST(write)(const uint8_t *value, size_t value_length, uint8_t *text, size_t text_length)
{
    struct plain_behaviour behaviour;
    size_t length = 0;
    unpack(value, value_length, &behaviour);
    struct plain_refusal refusal = plain_write(&behaviour, text, text_length, &length);
    return refusal.number != 0 ? refused(refusal) : length;
}

uint64_t HOST(verdict)(const uint8_t *client, size_t client_length, const uint8_t *server, size_t server_length,
                       uint8_t *run, size_t run_length)
{
    struct plain_behaviour c, s;
    struct plain_verdict verdict;
    unpack(client, client_length, &c);
    unpack(server, server_length, &s);
    struct plain_refusal refusal = plain_verdict(&c, &s, run, run_length, &verdict);
    if (refusal.number != 0)
        return refused(refusal);
    return verdict.compliant ? (uint64_t)verdict.stands : (uint64_t)verdict.cause << 16 | (uint64_t)verdict.length;
}

uint64_t HOST(open)(const uint8_t *client, size_t client_length, const uint8_t *server, size_t server_length)
{
    struct plain_behaviour c, s;
    struct plain_stand stand;
    unpack(client, client_length, &c);
    unpack(server, server_length, &s);
    struct plain_refusal refusal = plain_open(&c, &s, &stand);
    return refusal.number != 0 ? refused(refusal) : session_of(stand);
}

uint64_t HOST(message)(const uint8_t *client, size_t client_length, const uint8_t *server, size_t server_length,
                       uint32_t session, const uint8_t *name, size_t name_length)
{
    struct plain_behaviour c, s;
    struct plain_stand stand = stand_of(session);
    unpack(client, client_length, &c);
    unpack(server, server_length, &s);
    struct plain_refusal refusal = plain_message(&c, &s, stand, name, name_length, &stand);
    return refusal.number != 0 ? refused(refusal) : session_of(stand);
}

uint64_t HOST(rollback)(const uint8_t *client, size_t client_length, const uint8_t *server, size_t server_length,
                        uint32_t session)
{
    struct plain_behaviour c, s;
    struct plain_stand stand = stand_of(session);
    unpack(client, client_length, &c);
    unpack(server, server_length, &s);
    struct plain_refusal refusal = plain_rollback(&c, &s, stand, &stand);
    return refusal.number != 0 ? refused(refusal) : session_of(stand);
}

uint64_t HOST(text)(const uint8_t *client_file, size_t client_length, const uint8_t *server_file, size_t server_length,
                    uint8_t *text, size_t text_length)
{
    char *all = plain_judge(client_file, client_length, server_file, server_length);
    size_t length = strlen(all);
    uint64_t answer = refused_with(12);
    if (length <= text_length) {
        memcpy(text, all, length);
        answer = length;
    }
    free(all);
    return answer;
}
