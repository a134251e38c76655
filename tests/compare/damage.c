/* Damage to description files: bytes, lines, counts, labels, spaces, and length. */
#include "gen.h"

#include <stdbool.h>
#include <stdio.h>
#include <string.h>

static void cut(struct gen_text *text, size_t at, size_t length)
{
    memmove(text->byte + at, text->byte + at + length, text->length - at - length);
    text->length -= length;
}

static void insert(struct gen_text *text, size_t at, const void *bytes, size_t length)
{
    if (text->length + length > sizeof text->byte)
        return;
    memmove(text->byte + at + length, text->byte + at, text->length - at);
    memcpy(text->byte + at, bytes, length);
    text->length += length;
}

/* Where line number k starts (0 is the first) and how long it is, its LF included. */
static bool line_at(const struct gen_text *text, int k, size_t *start, size_t *length)
{
    size_t at = 0;
    for (; at < text->length && k > 0; at++)
        if (text->byte[at] == '\n')
            k--;
    if (k > 0 || at >= text->length)
        return false;
    *start = at;
    while (at < text->length && text->byte[at] != '\n')
        at++;
    *length = at - *start + (at < text->length);
    return true;
}

static int lines_of(const struct gen_text *text)
{
    int count = 0;
    for (size_t at = 0; at < text->length; at++)
        count += text->byte[at] == '\n';
    return count;
}

/* The k-th run of digits of the first line, if there is one. */
static bool count_at(const struct gen_text *text, int k, size_t *start, size_t *length)
{
    size_t at = 0;
    while (at < text->length && text->byte[at] != '\n') {
        size_t first = at;
        while (at < text->length && text->byte[at] >= '0' && text->byte[at] <= '9')
            at++;
        if (at > first && k-- == 0) {
            *start = first;
            *length = at - first;
            return true;
        }
        at += at == first;
    }
    return false;
}

static void set_count(struct gen_text *text, int k, const char *digits)
{
    size_t start, length;
    if (count_at(text, k, &start, &length)) {
        cut(text, start, length);
        insert(text, start, digits, strlen(digits));
    }
}

static int count_value(const struct gen_text *text, int k)
{
    size_t start, length;
    int value = 0;
    if (count_at(text, k, &start, &length))
        for (size_t i = 0; i < length && i < 5; i++)
            value = value * 10 + (text->byte[start + i] - '0');
    return value;
}

static void add_to_count(struct gen_text *text, int k, int more)
{
    char digits[16];
    int value = count_value(text, k) + more;
    snprintf(digits, sizeof digits, "%d", value < 0 ? 0 : value);
    set_count(text, k, digits);
}

/* A line put in at a random place after the first; T is made to fit most often. */
static void insert_line(uint64_t *random, struct gen_text *text, const char *line, size_t line_length)
{
    size_t start = text->length, length;
    int lines = lines_of(text);
    if (lines > 0 && !line_at(text, 1 + gen_below(random, lines), &start, &length))
        start = text->length;
    insert(text, start, line, line_length);
    if (gen_below(random, 10) > 0)
        add_to_count(text, 1, 1);
}

static void random_state(uint64_t *random, const struct gen_text *text, char *digits, size_t size)
{
    static const char *odd[] = {"00", "01", "99999", "100000", "10", "9", "", "-1", "a"};
    int states = count_value(text, 2);
    if (gen_below(random, 8) == 0)
        snprintf(digits, size, "%s", odd[gen_below(random, 9)]);
    else
        snprintf(digits, size, "%d", gen_below(random, states + 1 + (gen_below(random, 4) == 0)));
}

static const char *odd_label(uint64_t *random)
{
    static const char *odd[] = {"rbk",   "Ckp", "ckpp",       "ck",   "?",  "!",  "a",   "?A",    "?a-b", "?a ",  " ?a",
                                "??a",   "?!a", "?abcdefghi", "!a\r", "?\t", "",  "?a\"", "?\xff", "ckp ", "?a\n", "(0,a)",
                                "?a,?b", "?_"};
    return odd[gen_below(random, (int)(sizeof odd / sizeof odd[0]))];
}

/* A new line of the shape: mark or message at a random state, now and then a label not allowed. */
static void add_line(uint64_t *random, struct gen_text *text)
{
    char from[16], to[16], line[80];
    random_state(random, text, from, sizeof from);
    random_state(random, text, to, sizeof to);
    switch (gen_below(random, 5)) {
    case 0:
        snprintf(line, sizeof line, "(%s,\"ckp\",%s)\n", from, gen_below(random, 2) ? from : to);
        break;
    case 1:
        snprintf(line, sizeof line, "(%s,\"%s\",%s)\n", from, odd_label(random), to);
        break;
    default:
        snprintf(line, sizeof line, "(%s,\"%c%c\",%s)\n", from, "?!"[gen_below(random, 2)], 'a' + gen_below(random, 26), to);
    }
    insert_line(random, text, line, strlen(line));
}

/* The label of a random line replaced, or its sign turned. */
static void change_label(uint64_t *random, struct gen_text *text)
{
    size_t start, length;
    int lines = lines_of(text);
    if (lines < 2 || !line_at(text, 1 + gen_below(random, lines - 1), &start, &length))
        return;
    uint8_t *open = memchr(text->byte + start, '"', length);
    if (open == NULL)
        return;
    size_t first = (size_t)(open - text->byte) + 1;
    uint8_t *close = memchr(text->byte + first, '"', start + length - first);
    if (close == NULL)
        return;
    if (gen_below(random, 2) == 0 && (text->byte[first] == '?' || text->byte[first] == '!')) {
        text->byte[first] ^= '?' ^ '!';
        return;
    }
    const char *label = odd_label(random);
    cut(text, first, (size_t)(close - text->byte) - first);
    insert(text, first, label, strlen(label));
}

static void repeat_line(uint64_t *random, struct gen_text *text)
{
    size_t start, length;
    char line[256];
    int lines = lines_of(text);
    if (lines < 1 || !line_at(text, gen_below(random, lines), &start, &length) || length > sizeof line)
        return;
    memcpy(line, text->byte + start, length);
    insert_line(random, text, line, length);
}

static void swap_lines(uint64_t *random, struct gen_text *text)
{
    size_t start, length, other_start, other_length;
    char line[256];
    int lines = lines_of(text);
    if (lines < 2)
        return;
    int one = gen_below(random, lines), other = gen_below(random, lines);
    if (one >= other || !line_at(text, one, &start, &length) || length > sizeof line ||
        !line_at(text, other, &other_start, &other_length))
        return;
    memcpy(line, text->byte + start, length);
    insert(text, other_start + other_length, line, length);
    cut(text, start, length);
}

static void remove_line(uint64_t *random, struct gen_text *text)
{
    size_t start, length;
    int lines = lines_of(text);
    if (lines < 1 || !line_at(text, gen_below(random, lines), &start, &length))
        return;
    cut(text, start, length);
    if (gen_below(random, 2))
        add_to_count(text, 1, -1);
}

/* A mark at every other state or so that has none: those that are finished are refused with 11. */
static void add_marks(uint64_t *random, struct gen_text *text)
{
    for (int state = count_value(text, 2); state-- > 0;) {
        char line[32], start[16];
        size_t length = (size_t)snprintf(line, sizeof line, "(%d,\"ckp\",%d)\n", state, state), at = 0;
        size_t begins = (size_t)snprintf(start, sizeof start, "(%d,\"ckp\"", state);
        while (at + begins < text->length && memcmp(text->byte + at, start, begins) != 0)
            at++;
        if (at + begins >= text->length && state < 10 && gen_below(random, 2))
            insert_line(random, text, line, length);
    }
}

/* "none before a line's first": a space, a tab or a CR there. */
static void blank_before_line(uint64_t *random, struct gen_text *text)
{
    size_t start, length;
    int lines = lines_of(text);
    if (lines > 0 && line_at(text, gen_below(random, lines), &start, &length))
        insert(text, start, &" \t\r"[gen_below(random, 3)], 1);
}

static void change_count(uint64_t *random, struct gen_text *text)
{
    static const char *odd[] = {"0", "1", "2", "9", "10", "11", "96", "97", "99999", "100000", "00", "01", "", "-1"};
    int k = gen_below(random, 3);
    if (gen_below(random, 2))
        add_to_count(text, k, gen_below(random, 5) - 2);
    else
        set_count(text, k, odd[gen_below(random, (int)(sizeof odd / sizeof odd[0]))]);
}

/* Longer than the limit, at it, or just under: spaces before an LF, LFs, or any bytes at the end. */
static void lengthen(uint64_t *random, struct gen_text *text)
{
    size_t wanted = 4096;
    switch (gen_below(random, 4)) {
    case 0:
        wanted = 4095 + (size_t)gen_below(random, 3);
        break;
    case 1:
        wanted = 4097;
        break;
    case 2:
        wanted = 4098 + (size_t)gen_below(random, GEN_BYTES - 4098);
    }
    uint8_t *end = memchr(text->byte, '\n', text->length);
    size_t at = end == NULL ? text->length : (size_t)(end - text->byte);
    int how = gen_below(random, 4);
    while (text->length < wanted) {
        uint8_t byte = how < 2 ? ' ' : how == 2 ? '\n' : (uint8_t)gen_next(random);
        if (how < 2)
            insert(text, at, &byte, 1);
        else
            text->byte[text->length++] = byte;
    }
}

static void all_random(uint64_t *random, struct gen_text *text, const char *bytes)
{
    text->length = (size_t)gen_below(random, gen_below(random, 10) ? 60 : 5000);
    for (size_t at = 0; at < text->length; at++)
        text->byte[at] = bytes == NULL ? (uint8_t)gen_next(random) : (uint8_t)bytes[gen_below(random, (int)strlen(bytes))];
}

static void to_crlf(struct gen_text *text)
{
    for (size_t at = 0; at < text->length; at++)
        if (text->byte[at] == '\n')
            insert(text, at++, "\r", 1);
}

void gen_damage(uint64_t *random, struct gen_text *text)
{
    static const char special[] = "\r\t\0\"\n ()0,1dec?!p\xff\x80";
    uint8_t byte = gen_below(random, 3) ? (uint8_t)special[gen_below(random, (int)sizeof special - 1)]
                                        : (uint8_t)gen_next(random);
    size_t at = text->length == 0 ? 0 : (size_t)gen_below(random, (int)text->length);
    switch (gen_below(random, 21)) {
    case 0:
        if (text->length > 0)
            text->byte[at] ^= (uint8_t)(1u << gen_below(random, 8));
        break;
    case 1:
        if (text->length > 0)
            text->byte[at] = byte;
        break;
    case 2:
        if (gen_below(random, 2)) /* anywhere, or the last few bytes only */
            text->length = at;
        else
            text->length -= text->length > 4 ? (size_t)gen_below(random, 4) : 0;
        break;
    case 3:
        insert(text, at, &byte, 1);
        break;
    case 4:
        if (text->length > 0)
            cut(text, at, 1);
        break;
    case 5:
        insert(text, text->length, &byte, 1);
        break;
    case 6:
        if (gen_below(random, 2))
            insert(text, at, " ", 1);
        else
            blank_before_line(random, text);
        break;
    case 7:
        repeat_line(random, text);
        break;
    case 8:
        swap_lines(random, text);
        break;
    case 9:
        remove_line(random, text);
        break;
    case 10:
    case 11:
        change_count(random, text);
        break;
    case 12:
        lengthen(random, text);
        break;
    case 13:
        if (gen_below(random, 4) == 0)
            to_crlf(text);
        else
            insert(text, 0, "\xef\xbb\xbf", 3);
        break;
    case 14:
        if (gen_below(random, 2))
            all_random(random, text, gen_below(random, 2) ? NULL : "des (0,1)\n\"?ackp");
        else
            text->length = 0;
        break;
    case 15:
    case 16:
        change_label(random, text);
        break;
    case 17:
        add_marks(random, text);
        break;
    default:
        add_line(random, text);
    }
}
