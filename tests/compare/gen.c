/* Sound pairs of behaviours by seed. Damage is in damage.c. */
#include "gen.h"

#include <stdbool.h>
#include <stdio.h>
#include <stdlib.h>
#include <string.h>

enum { STATES = 10, LINES = 96, POOL = 192, NAME = 8 };

uint64_t gen_next(uint64_t *random)
{
    uint64_t z = (*random += 0x9E3779B97F4A7C15u);
    z = (z ^ (z >> 30)) * 0xBF58476D1CE4E5B9u;
    z = (z ^ (z >> 27)) * 0x94D049BB133111EBu;
    return z ^ (z >> 31);
}

int gen_below(uint64_t *random, int limit)
{
    return (int)(gen_next(random) % (uint64_t)limit);
}

static bool chance(uint64_t *random, int percent)
{
    return gen_below(random, 100) < percent;
}

/* One side before it is written: names by their number in the pool. */
struct side {
    int states;
    bool marked[STATES];
    char sign[STATES];
    bool has[STATES][POOL];
    int to[STATES][POOL];
};

struct pool {
    int count;
    char name[POOL][NAME + 1];
};

static bool in_pool(const struct pool *pool, const char *name)
{
    for (int i = 0; i < pool->count; i++)
        if (strcmp(pool->name[i], name) == 0)
            return true;
    return false;
}

/* Different names of several styles: letters, families where one begins another, eight bytes that
 * differ late, digits, and the words of the layout itself. */
static void fill_pool(uint64_t *random, struct pool *pool, int count)
{
    static const char *words[] = {"ckp", "rbk", "des", "a", "z", "0", "9", "zzzzzzzz", "00000000", "layer", "prj"};
    int style = gen_below(random, 6);
    pool->count = 0;
    while (pool->count < count) {
        char name[NAME + 1] = {0};
        int length;
        switch (count > 20 ? 2 + gen_below(random, 3) : style) {
        case 0:
            name[0] = (char)('a' + gen_below(random, 26));
            break;
        case 1:
            length = 1 + gen_below(random, NAME);
            for (int i = 0; i < length; i++)
                name[i] = "aab0"[gen_below(random, 4)];
            break;
        case 2:
            snprintf(name, sizeof name, "%s%c%c", "prefix", 'a' + gen_below(random, 26), '0' + gen_below(random, 10));
            break;
        case 3:
            length = 1 + gen_below(random, NAME);
            for (int i = 0; i < length; i++)
                name[i] = "abcdefghijklmnopqrstuvwxyz0123456789"[gen_below(random, 36)];
            break;
        case 4:
            snprintf(name, sizeof name, "%d", gen_below(random, 1000));
            break;
        default:
            strcpy(name, words[gen_below(random, 11)]);
            if (in_pool(pool, name))
                name[0] = (char)('a' + gen_below(random, 26));
        }
        if (!in_pool(pool, name))
            strcpy(pool->name[pool->count++], name);
    }
}

static int messages_at(const struct side *side, int state)
{
    int count = 0;
    for (int name = 0; name < POOL; name++)
        count += side->has[state][name];
    return count;
}

static int lines_of(const struct side *side)
{
    int count = 0;
    for (int state = 0; state < side->states; state++)
        count += messages_at(side, state) + side->marked[state];
    return count;
}

/* Makes a side sound: finished states have neither sign nor mark, a state with messages has a sign, at
 * most 96 lines. */
static void settle(uint64_t *random, struct side *side)
{
    while (lines_of(side) > LINES)
        side->has[gen_below(random, side->states)][gen_below(random, POOL)] = false;
    for (int state = 0; state < side->states; state++) {
        if (messages_at(side, state) == 0) {
            side->sign[state] = 0;
            side->marked[state] = false;
        } else if (side->sign[state] == 0) {
            side->sign[state] = chance(random, 50) ? '?' : '!';
        }
    }
}

/* A side with random signs (or one sign for all), names and targets. */
static void random_side(uint64_t *random, struct side *side, int states, int names, int finished, int dense, int marks,
                        char sign)
{
    memset(side, 0, sizeof *side);
    side->states = states;
    for (int state = 0; state < states; state++) {
        if (chance(random, finished))
            continue;
        side->sign[state] = sign != 0 ? sign : chance(random, 50) ? '?' : '!';
        side->marked[state] = chance(random, marks);
        for (int name = 0; name < names; name++) {
            side->has[state][name] = chance(random, dense);
            side->to[state][name] = gen_below(random, states);
        }
        int one = gen_below(random, names);
        side->has[state][one] = true;
        side->to[state][one] = gen_below(random, states);
    }
    settle(random, side);
}

/* "obtained by exchanging actions by the respective co-actions" (source 001): same marks. */
static void dual(const struct side *side, struct side *other)
{
    *other = *side;
    for (int state = 0; state < side->states; state++)
        other->sign[state] = side->sign[state] == '?' ? '!' : side->sign[state] == '!' ? '?' : 0;
}

/* One change to a sound side: marks moved, added, removed; names, targets and signs changed. */
static void change(uint64_t *random, struct side *side, int names)
{
    int state = gen_below(random, side->states), other = gen_below(random, side->states);
    int name = gen_below(random, names), another = gen_below(random, names);
    switch (gen_below(random, 8)) {
    case 0: /* a mark moved */
        if (side->marked[state] && !side->marked[other]) {
            side->marked[state] = false;
            side->marked[other] = true;
        }
        break;
    case 1:
        side->marked[state] = true;
        break;
    case 2:
        side->marked[state] = false;
        break;
    case 3:
        side->has[state][name] = true;
        side->to[state][name] = other;
        break;
    case 4:
        side->has[state][name] = false;
        break;
    case 5:
        side->to[state][name] = other;
        break;
    case 6: /* renamed */
        if (side->has[state][name] && !side->has[state][another]) {
            side->has[state][name] = false;
            side->has[state][another] = true;
            side->to[state][another] = side->to[state][name];
        }
        break;
    default:
        side->sign[state] = chance(random, 50) ? '?' : '!';
    }
    settle(random, side);
}

/* Everything a side can use: ten states, all marked, 96 lines. */
static void largest_side(uint64_t *random, struct side *side, int names)
{
    random_side(random, side, STATES, names, 0, 0, 100, 0);
    for (int tries = 0; lines_of(side) < LINES && tries < 5000; tries++) {
        int state = gen_below(random, STATES), name = gen_below(random, names);
        if (!side->has[state][name])
            side->to[state][name] = gen_below(random, STATES);
        side->has[state][name] = true;
    }
}

/* One unmarked hub and nine marked states a side: names that take the server alone away from the hub,
 * names that take both, and one name back, which the hub has too. 7,201 stands if all is used. */
static void hub_sides(uint64_t *random, struct side *client, struct side *server, int names)
{
    memset(client, 0, sizeof *client);
    memset(server, 0, sizeof *server);
    client->states = server->states = STATES;
    int turn = gen_below(random, 81);
    for (int name = 0; name < names; name++) {
        client->has[0][name] = server->has[0][name] = true;
        int pair = (name + turn) * 10 % 81;
        client->to[0][name] = name < 9 ? 0 : 1 + pair / 9;
        server->to[0][name] = name < 9 ? 1 + name : 1 + pair % 9;
    }
    client->sign[0] = '?';
    server->sign[0] = '!';
    for (int state = 1; state < STATES; state++) {
        client->marked[state] = server->marked[state] = true;
        client->has[state][0] = server->has[state][0] = true;
        client->sign[state] = '?';
        server->sign[state] = '!';
    }
}

/* A side and its dual that go forward to a finish, marks each for itself, the start's more often: after a rollback
 * the sides may stand apart, and few names let them go on all the same. */
static void marks_apart(uint64_t *random, struct side *client, struct side *server, int names)
{
    int states = 3 + gen_below(random, STATES - 2);
    memset(client, 0, sizeof *client);
    client->states = states;
    for (int state = 0; state + 1 < states; state++) {
        client->sign[state] = '?';
        for (int times = 1 + gen_below(random, 2); times > 0; times--) {
            int name = gen_below(random, names);
            client->has[state][name] = true;
            client->to[state][name] = chance(random, 85) ? state + 1 : gen_below(random, states);
        }
    }
    dual(client, server);
    for (int state = 0; state + 1 < states; state++) {
        client->marked[state] = chance(random, state == 0 ? 70 : 30);
        server->marked[state] = chance(random, state == 0 ? 70 : 30);
    }
    if (chance(random, 75))
        for (int state = 0; state + 1 < states; state++)
            for (int name = 0; name < names; name++)
                if (!client->has[state][name]) {
                    client->has[state][name] = true;
                    client->to[state][name] = gen_below(random, states);
                }
}

/* Two rings of different lengths that fit each other at all stands but one, with few marks. */
static void rings(uint64_t *random, struct side *client, struct side *server)
{
    memset(client, 0, sizeof *client);
    memset(server, 0, sizeof *server);
    client->states = 2 + gen_below(random, STATES - 1);
    server->states = 2 + gen_below(random, STATES - 1);
    for (int state = 0; state < client->states; state++) {
        client->sign[state] = '?';
        client->has[state][0] = client->has[state][1] = true;
        client->to[state][0] = client->to[state][1] = (state + 1) % client->states;
        client->marked[state] = chance(random, 15);
    }
    for (int state = 0; state < server->states; state++) {
        server->sign[state] = '!';
        server->has[state][0] = true;
        server->to[state][0] = server->to[state][1] = (state + 1) % server->states;
        server->marked[state] = chance(random, 15);
    }
    client->has[gen_below(random, client->states)][1] = false;
    int odd = gen_below(random, server->states);
    server->has[odd][0] = false;
    server->has[odd][1] = true;
}

/* Pairs whose shortest run is long, found by search from two rings. A line: mark, then name and target
 * for each message. The client takes, the server sends. */
#include "long_pairs.h"

static void long_side(const char *const *rows, struct side *side, char sign)
{
    memset(side, 0, sizeof *side);
    side->states = STATES;
    for (int state = 0; state < STATES; state++) {
        const char *row = rows[state];
        side->marked[state] = *row == '^';
        for (row++; row[0] != 0; row += 2) {
            side->has[state][row[0] - 'a'] = true;
            side->to[state][row[0] - 'a'] = row[1] - '0';
            side->sign[state] = sign;
        }
    }
}

static void long_sides(uint64_t *random, struct side *client, struct side *server)
{
    int which = gen_below(random, LONG_PAIRS);
    long_side(long_pairs[which][0], client, '?');
    long_side(long_pairs[which][1], server, '!');
}

/* The same behaviour with states numbered otherwise; the start stays 0. */
static void renumber(uint64_t *random, struct side *side)
{
    int place[STATES];
    struct side old = *side;
    for (int state = 0; state < side->states; state++)
        place[state] = state;
    for (int state = side->states - 1; state > 1; state--) {
        int other = 1 + gen_below(random, state), keep = place[state];
        place[state] = place[other];
        place[other] = keep;
    }
    for (int state = 0; state < old.states; state++) {
        int at = place[state];
        side->marked[at] = old.marked[state];
        side->sign[at] = old.sign[state];
        for (int name = 0; name < POOL; name++) {
            side->has[at][name] = old.has[state][name];
            side->to[at][name] = place[old.to[state][name]];
        }
    }
}

static void put(struct gen_text *text, const char *bytes)
{
    size_t length = strlen(bytes);
    if (text->length + length <= sizeof text->byte) {
        memcpy(text->byte + text->length, bytes, length);
        text->length += length;
    }
}

/* Spaces where they are allowed, if this text is written with any. */
static void gap(uint64_t *random, struct gen_text *text, int percent)
{
    while (percent > 0 && chance(random, percent))
        put(text, " ");
}

static void put_token(uint64_t *random, struct gen_text *text, int percent, const char *token)
{
    gap(random, text, percent);
    put(text, token);
}

static void put_number(uint64_t *random, struct gen_text *text, int percent, int number)
{
    char digits[12];
    snprintf(digits, sizeof digits, "%d", number);
    put_token(random, text, percent, digits);
}

struct line {
    int from;
    int to;
    char label[NAME + 4];
};

/* The file of a side: lines in any order, spaces between tokens on some files. */
static void write_side(uint64_t *random, const struct side *side, const struct pool *pool, struct gen_text *text)
{
    struct line lines[LINES];
    int count = 0, percent = chance(random, 20) ? 15 : 0;
    for (int state = 0; state < side->states; state++) {
        if (side->marked[state])
            lines[count++] = (struct line){state, state, "\"ckp\""};
        for (int name = 0; name < pool->count; name++)
            if (side->has[state][name]) {
                lines[count] = (struct line){state, side->to[state][name], ""};
                snprintf(lines[count++].label, sizeof lines[0].label, "\"%c%s\"", side->sign[state], pool->name[name]);
            }
    }
    if (chance(random, 70))
        for (int i = count - 1; i > 0; i--) {
            int other = gen_below(random, i + 1);
            struct line keep = lines[i];
            lines[i] = lines[other];
            lines[other] = keep;
        }
    text->length = 0;
    put(text, "des");
    put(text, chance(random, 90) ? " " : "");
    put_token(random, text, percent, "(");
    put_number(random, text, percent, 0);
    put_token(random, text, percent, ",");
    put_number(random, text, percent, count);
    put_token(random, text, percent, ",");
    put_number(random, text, percent, side->states);
    put_token(random, text, percent, ")");
    put_token(random, text, percent, "\n");
    for (int i = 0; i < count; i++) {
        put(text, "(");
        put_number(random, text, percent, lines[i].from);
        put_token(random, text, percent, ",");
        put_token(random, text, percent, lines[i].label);
        put_token(random, text, percent, ",");
        put_number(random, text, percent, lines[i].to);
        put_token(random, text, percent, ")");
        put_token(random, text, percent, "\n");
    }
}

const char *gen_kind_name(int kind)
{
    static const char *names[GEN_KINDS] = {"tiny",    "random", "dual",     "changed dual", "wider taker", "one way",
                                           "largest", "hub",    "long run", "many names",   "marks apart", "rings"};
    return names[kind];
}

/* The taker takes more names than the sender sends: still compliant if nothing else changes. */
static void widen(uint64_t *random, struct side *side, int names)
{
    for (int times = 0; times < 5; times++) {
        int state = gen_below(random, side->states), name = gen_below(random, names);
        if (side->sign[state] == '?' && !side->has[state][name] && lines_of(side) < LINES) {
            side->has[state][name] = true;
            side->to[state][name] = gen_below(random, side->states);
        }
    }
}

void gen_sound_pair(uint64_t *random, int kind, struct gen_pair *pair)
{
    static struct pool pool;
    static struct side client, server;
    int states = 1 + gen_below(random, STATES), names = 1 + gen_below(random, 6), finished = 5 + gen_below(random, 25);
    int marks = gen_below(random, 101), dense = 10 + gen_below(random, 60);
    bool one_sign = chance(random, 50);

    switch (kind) {
    case 0:
        names = 1 + gen_below(random, 2);
        finished = 40;
        random_side(random, &client, 1 + gen_below(random, 3), names, finished, dense, marks, one_sign ? '?' : 0);
        random_side(random, &server, 1 + gen_below(random, 3), names, finished, dense, gen_below(random, 101),
                    one_sign ? '!' : 0);
        break;
    case 1:
        random_side(random, &client, states, names, finished, dense, marks, one_sign ? '?' : 0);
        random_side(random, &server, 1 + gen_below(random, STATES), names, finished, dense, marks, one_sign ? '!' : 0);
        break;
    case 2:
        random_side(random, &client, states, names, finished, dense, marks, 0);
        dual(&client, &server);
        break;
    case 3:
        random_side(random, &client, states, names, finished, dense, marks, 0);
        dual(&client, &server);
        for (int times = 1 + gen_below(random, 3); times > 0; times--)
            change(random, chance(random, 50) ? &client : &server, names);
        break;
    case 4:
        random_side(random, &client, states, names, finished, dense, marks, 0);
        dual(&client, &server);
        widen(random, &client, names);
        widen(random, &server, names);
        break;
    case 5: /* every message fits at nearly every stand, so that stands are many and bad ones far */
        names = 2 + gen_below(random, 4);
        states = 4 + gen_below(random, 7);
        random_side(random, &client, states, names, 0, 100, marks / 2, '?');
        random_side(random, &server, 4 + gen_below(random, 7), names, 0, 20, marks / 2, '!');
        for (int times = gen_below(random, 3); times > 0; times--)
            client.has[gen_below(random, states)][gen_below(random, names)] = false;
        settle(random, &client);
        break;
    case 6:
        names = chance(random, 50) ? 10 + gen_below(random, 5) : 40 + gen_below(random, 56);
        largest_side(random, &client, names);
        dual(&client, &server);
        if (chance(random, 50))
            change(random, chance(random, 50) ? &client : &server, names);
        break;
    case 7:
        names = chance(random, 50) ? 78 : 20 + gen_below(random, 58);
        hub_sides(random, &client, &server, names);
        if (chance(random, 30))
            change(random, chance(random, 50) ? &client : &server, names);
        break;
    case 8:
        names = 6;
        long_sides(random, &client, &server);
        for (int times = gen_below(random, 5); times > 1; times--)
            change(random, chance(random, 50) ? &client : &server, names);
        break;
    case 10:
        names = 1 + gen_below(random, 3);
        marks_apart(random, &client, &server, names);
        break;
    case 11:
        names = 2;
        rings(random, &client, &server);
        break;
    default: /* ranks up to 191: names of unreachable states count */
        names = 150 + gen_below(random, 43);
        random_side(random, &client, 1 + gen_below(random, 4), 2, finished, 100, marks, '?');
        random_side(random, &server, 1 + gen_below(random, 4), 2, finished, 60, marks, '!');
        client.states = server.states = STATES;
        for (int name = 2; name < names; name++) {
            struct side *side = name % 2 ? &client : &server;
            if (lines_of(side) < LINES) {
                int state = 5 + gen_below(random, 5);
                side->has[state][name] = true;
                side->to[state][name] = gen_below(random, STATES);
            }
        }
        settle(random, &client);
        settle(random, &server);
    }
    fill_pool(random, &pool, names);
    if (chance(random, 50))
        renumber(random, &client);
    if (chance(random, 50))
        renumber(random, &server);
    /* Half of the pairs with roles exchanged, so that clients send too. */
    bool exchanged = chance(random, 50);
    write_side(random, exchanged ? &server : &client, &pool, &pair->client);
    write_side(random, exchanged ? &client : &server, &pool, &pair->server);
    pair->kind = kind;
    pair->client_damages = pair->server_damages = 0;
}

void gen_pair(uint64_t seed, struct gen_pair *pair)
{
    /* Large kinds are slow to judge, so they come less often. */
    static const int kinds[] = {0, 0, 0, 1, 1, 1, 1, 2,  2,  3,  3,  3,  3,  3,  4,  4,
                                5, 5, 5, 5, 6, 7, 8, 9,  9,  10, 10, 10, 10, 11, 11, 11};
    uint64_t random = seed;
    int kind = kinds[gen_below(&random, (int)(sizeof kinds / sizeof kinds[0]))];
    gen_sound_pair(&random, kind, pair);
    if (chance(&random, 50))
        return;
    int which = gen_below(&random, 5); /* client, client, server, server, both */
    if (which != 2 && which != 3)
        for (int times = 1 + gen_below(&random, 2) * gen_below(&random, 3); times > 0; times--) {
            gen_damage(&random, &pair->client);
            pair->client_damages++;
        }
    if (which >= 2)
        for (int times = 1 + gen_below(&random, 2) * gen_below(&random, 3); times > 0; times--) {
            gen_damage(&random, &pair->server);
            pair->server_damages++;
        }
}

size_t gen_name(uint64_t *random, const struct gen_pair *pair, uint8_t name[16])
{
    const struct gen_text *text = chance(random, 50) ? &pair->client : &pair->server;
    size_t length = 0;
    if (text->length > 0 && chance(random, 90)) {
        /* the first label after a random place, without quote and sign */
        size_t at = (size_t)gen_below(random, (int)text->length);
        for (size_t tries = 0; tries < text->length; tries++, at = (at + 1) % text->length)
            if (text->byte[at] == '?' || text->byte[at] == '!')
                break;
        for (at++; at < text->length && text->byte[at] != '"' && length < 10; at++)
            name[length++] = text->byte[at];
    }
    if (length == 0 || chance(random, 10)) {
        switch (gen_below(random, 5)) {
        case 0:
            length = 0;
            break;
        case 1:
            name[length++] = (uint8_t)gen_next(random);
            break;
        case 2:
            if (length > 0)
                name[gen_below(random, (int)length)] = (uint8_t)gen_next(random);
            break;
        case 3:
            while (length < 9)
                name[length++] = 'a';
            break;
        default:
            if (length > 0)
                length--;
        }
    }
    return length;
}
