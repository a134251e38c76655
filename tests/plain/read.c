/* The reader and the writer of description files, from 01 "The description file" and
 * "Refusal numbers" and readings 1 to 5. */
#include "plain.h"

#include <stdio.h>
#include <string.h>

struct cursor {
    const uint8_t *text;
    size_t length;
    size_t at;
};

static bool one_byte(struct cursor *cursor, uint8_t wanted)
{
    if (cursor->at >= cursor->length || cursor->text[cursor->at] != wanted)
        return false;
    cursor->at++;
    return true;
}

/* "Any number of spaces may stand between two tokens": called before every token
 * but a line's first, the LF token included. */
static void spaces(struct cursor *cursor)
{
    while (one_byte(cursor, ' '))
        ;
}

static bool spaced_byte(struct cursor *cursor, uint8_t wanted)
{
    spaces(cursor);
    return one_byte(cursor, wanted);
}

static bool digit_here(const struct cursor *cursor)
{
    return cursor->at < cursor->length && cursor->text[cursor->at] >= '0' && cursor->text[cursor->at] <= '9';
}

/* "A number is 0, or one to five digits not beginning with 0." A digit left over
 * makes the next token fail, so 00 and 123456 are not of the shape. */
static bool spaced_number(struct cursor *cursor, int *value)
{
    spaces(cursor);
    if (!digit_here(cursor))
        return false;
    *value = 0;
    if (cursor->text[cursor->at] == '0') {
        cursor->at++;
        return true;
    }
    for (int digits = 0; digits < 5 && digit_here(cursor); digits++)
        *value = *value * 10 + (cursor->text[cursor->at++] - '0');
    return true;
}

/* "A quoted label is one or more bytes, none of them a quote or LF." */
static bool spaced_label(struct cursor *cursor, const uint8_t **label, size_t *label_length)
{
    if (!spaced_byte(cursor, '"'))
        return false;
    size_t first = cursor->at;
    while (cursor->at < cursor->length && cursor->text[cursor->at] != '"' && cursor->text[cursor->at] != '\n')
        cursor->at++;
    *label = cursor->text + first;
    *label_length = cursor->at - first;
    return *label_length > 0 && one_byte(cursor, '"');
}

/* "A line `des (0,T,S)`", ended by LF. */
static bool first_line(struct cursor *cursor, int *start, int *lines, int *states)
{
    return one_byte(cursor, 'd') && one_byte(cursor, 'e') && one_byte(cursor, 's') && spaced_byte(cursor, '(') &&
           spaced_number(cursor, start) && spaced_byte(cursor, ',') && spaced_number(cursor, lines) &&
           spaced_byte(cursor, ',') && spaced_number(cursor, states) && spaced_byte(cursor, ')') &&
           spaced_byte(cursor, '\n');
}

/* "T lines `(F,"L",G)`, each ended by LF": no space before the line's first token. */
static bool next_line(struct cursor *cursor, int *from, const uint8_t **label, size_t *label_length, int *to)
{
    return one_byte(cursor, '(') && spaced_number(cursor, from) && spaced_byte(cursor, ',') &&
           spaced_label(cursor, label, label_length) && spaced_byte(cursor, ',') && spaced_number(cursor, to) &&
           spaced_byte(cursor, ')') && spaced_byte(cursor, '\n');
}

/* "A name is 1 to 8 bytes of a-z and 0-9." */
static bool is_name(const uint8_t *bytes, size_t length)
{
    if (length < 1 || length > PLAIN_NAME)
        return false;
    for (size_t i = 0; i < length; i++)
        if (!((bytes[i] >= 'a' && bytes[i] <= 'z') || (bytes[i] >= '0' && bytes[i] <= '9')))
            return false;
    return true;
}

static bool is_mark(const uint8_t *label, size_t length)
{
    return length == 3 && memcmp(label, "ckp", 3) == 0;
}

/* "`?name` (takes a message), `!name` (sends one)" */
static bool is_message(const uint8_t *label, size_t length)
{
    return length >= 1 && (label[0] == '?' || label[0] == '!') && is_name(label + 1, length - 1);
}

static bool comes_before(const struct plain_message *one, const struct plain_message *other)
{
    if (one->from != other->from)
        return one->from < other->from;
    return memcmp(one->name, other->name, sizeof one->name) < 0;
}

/* Keeps the messages "sorted by state and then by name in byte order". */
static void put_in_order(struct plain_behaviour *behaviour, struct plain_message message)
{
    int place = behaviour->count++;
    while (place > 0 && comes_before(&message, &behaviour->message[place - 1])) {
        behaviour->message[place] = behaviour->message[place - 1];
        place--;
    }
    behaviour->message[place] = message;
}

/* Refusals 8 to 10 for a line of the shape with states in range and a label allowed. */
static int take_line(struct plain_behaviour *behaviour, int from, const uint8_t *label, size_t length, int to)
{
    if (is_mark(label, length)) {
        /* 8: "mark from one state to another, or a second mark" */
        if (from != to || behaviour->marked[from])
            return 8;
        behaviour->marked[from] = 1;
        return 0;
    }
    struct plain_message message;
    memset(&message, 0, sizeof message);
    message.from = from;
    message.to = to;
    memcpy(message.name, label + 1, length - 1);
    /* 9: "taking and sending at one state" */
    if (behaviour->sign[from] != 0 && behaviour->sign[from] != (char)label[0])
        return 9;
    /* 10: "same name again at that state, same sign" */
    for (int i = 0; i < behaviour->count; i++)
        if (behaviour->message[i].from == from && strcmp(behaviour->message[i].name, message.name) == 0)
            return 10;
    behaviour->sign[from] = (char)label[0];
    put_in_order(behaviour, message);
    return 0;
}

static struct plain_refusal refusal(int number, int place)
{
    return (struct plain_refusal){number, place};
}

static struct plain_refusal read_into(const uint8_t *text, size_t length, struct plain_behaviour *behaviour)
{
    struct cursor cursor = {text, length, 0};
    int start, lines, states;

    /* "Files: 1 to 4 in order" */
    if (length > PLAIN_BYTES)
        return refusal(1, 0);
    if (!first_line(&cursor, &start, &lines, &states))
        return refusal(2, 1);
    if (start != 0)
        return refusal(3, 1);
    if (states < 1 || states > PLAIN_STATES || lines > PLAIN_LINES)
        return refusal(4, 1);
    behaviour->states = states;

    /* "then line by line, on each line 5 to 10 in order"; "the first line being 1" */
    for (int place = 2; place < lines + 2; place++) {
        int from, to;
        const uint8_t *label;
        size_t label_length;
        if (!next_line(&cursor, &from, &label, &label_length, &to))
            return refusal(5, place);
        if (from >= states || to >= states)
            return refusal(6, place);
        if (!is_mark(label, label_length) && !is_message(label, label_length))
            return refusal(7, place);
        int number = take_line(behaviour, from, label, label_length, to);
        if (number != 0)
            return refusal(number, place);
    }

    /* "then 5 for what follows the last line" */
    if (cursor.at != length)
        return refusal(5, lines + 2);

    /* "then 11": "a finished state is marked", place "lowest such state" */
    for (int state = 0; state < states; state++)
        if (behaviour->marked[state] && behaviour->sign[state] == 0)
            return refusal(11, state);
    return refusal(0, 0);
}

struct plain_refusal plain_read(const uint8_t *text, size_t length, struct plain_behaviour *behaviour)
{
    memset(behaviour, 0, sizeof *behaviour);
    struct plain_refusal answer = read_into(text, length, behaviour);
    /* "A refused read gives a behaviour of zero states" */
    if (answer.number != 0)
        memset(behaviour, 0, sizeof *behaviour);
    return answer;
}

bool plain_same(const struct plain_behaviour *one, const struct plain_behaviour *other)
{
    if (one->states != other->states || one->count != other->count ||
        memcmp(one->marked, other->marked, sizeof one->marked) != 0 ||
        memcmp(one->sign, other->sign, sizeof one->sign) != 0)
        return false;
    for (int i = 0; i < PLAIN_LINES; i++)
        if (one->message[i].from != other->message[i].from || one->message[i].to != other->message[i].to ||
            memcmp(one->message[i].name, other->message[i].name, sizeof one->message[i].name) != 0)
            return false;
    return true;
}

/* "no space but the one after `des`; lines by state, the mark first, then messages by
 * name. T counts mark lines too." Relies only on count and name ends being in range. */
static size_t text_of(const struct plain_behaviour *behaviour, char *text, size_t capacity)
{
    int lines = behaviour->count;
    for (int state = 0; state < PLAIN_STATES; state++)
        lines += behaviour->marked[state] != 0;
    size_t at = (size_t)snprintf(text, capacity, "des (0,%d,%d)\n", lines, behaviour->states);
    for (int state = 0; state < PLAIN_STATES; state++) {
        if (behaviour->marked[state])
            at += (size_t)snprintf(text + at, capacity - at, "(%d,\"ckp\",%d)\n", state, state);
        for (int i = 0; i < behaviour->count; i++) {
            const struct plain_message *message = &behaviour->message[i];
            if (message->from == state)
                at += (size_t)snprintf(text + at, capacity - at, "(%d,\"%c%s\",%d)\n", state, behaviour->sign[state],
                                       message->name, message->to);
        }
    }
    return at;
}

/* 13: "a behaviour value that no accepted file gives". If any accepted file gives the
 * value then its written text does, so the text is read back and compared. */
bool plain_sound(const struct plain_behaviour *behaviour)
{
    char text[2 * PLAIN_BYTES];
    struct plain_behaviour again;

    if (behaviour->count < 0 || behaviour->count > PLAIN_LINES)
        return false;
    for (int i = 0; i < PLAIN_LINES; i++)
        if (behaviour->message[i].name[PLAIN_NAME] != 0)
            return false;
    size_t length = text_of(behaviour, text, sizeof text);
    if (plain_read((const uint8_t *)text, length, &again).number != 0)
        return false;
    return plain_same(behaviour, &again);
}

struct plain_refusal plain_write(const struct plain_behaviour *behaviour, uint8_t *buffer, size_t capacity,
                                 size_t *length)
{
    char text[2 * PLAIN_BYTES];

    if (!plain_sound(behaviour))
        return refusal(13, 0);
    size_t needed = text_of(behaviour, text, sizeof text);
    /* 12: "text or run longer than the lent buffer"; "No refusal writes to a lent buffer" */
    if (needed > capacity)
        return refusal(12, 0);
    memcpy(buffer, text, needed);
    *length = needed;
    return refusal(0, 0);
}
