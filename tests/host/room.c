/* Rooms between closed pages (mmap, mprotect), and painted stacks. */
#define _DEFAULT_SOURCE
#include "room.h"

#include <stdio.h>
#include <stdlib.h>
#include <string.h>
#include <sys/mman.h>
#include <ucontext.h>
#include <unistd.h>

/* What is closed before and after a room: a slice missed by less than this is missed into a closed page. */
enum { CLOSED = 1 << 24 };

static void protect(uint8_t *start, uint8_t *end, int how)
{
    if (start < end && mprotect(start, (size_t)(end - start), how) != 0) {
        perror("mprotect");
        exit(2);
    }
}

static size_t page_size(void)
{
    static size_t size;
    if (size == 0)
        size = (size_t)sysconf(_SC_PAGESIZE);
    return size;
}

static uint8_t *page_of(const struct room *room, const uint8_t *at)
{
    return room->start + (size_t)(at - room->start) / page_size() * page_size();
}

/* The first page that holds nothing before this byte. */
static uint8_t *page_from(const struct room *room, const uint8_t *at)
{
    return room->start + ((size_t)(at - room->start) + page_size() - 1) / page_size() * page_size();
}

void room_open(struct room *room, size_t least)
{
    room->size = (least / page_size() + 1) * page_size();
    uint8_t *pages = mmap(NULL, room->size + 2 * CLOSED, PROT_NONE, MAP_NORESERVE | MAP_PRIVATE | MAP_ANONYMOUS, -1, 0);
    if (pages == MAP_FAILED) {
        perror("mmap");
        exit(2);
    }
    room->open = room->start = pages + CLOSED;
    room->open_end = room->start + room->size;
    protect(room->open, room->open_end, PROT_READ | PROT_WRITE);
}

uint8_t *room_place(struct room *room, const uint8_t *bytes, size_t length, int at_end)
{
    uint8_t *slice = at_end ? room->start + room->size - length : room->start;
    uint8_t *open = page_of(room, slice), *open_end = page_from(room, slice + length);
    protect(room->open, room->open_end, PROT_NONE);
    protect(open, open_end, PROT_READ | PROT_WRITE);
    memset(open, GUARD, (size_t)(slice - open));
    memset(slice + length, GUARD, (size_t)(open_end - slice) - length);
    if (length > 0)
        memcpy(slice, bytes, length);
    room->open = open;
    room->open_end = open_end;
    return slice;
}

void room_read_only(struct room *room)
{
    protect(room->open, room->open_end, PROT_READ);
}

void room_read_only_after(struct room *room, uint8_t *slice, size_t length)
{
    protect(length == 0 ? room->open : page_from(room, slice + length), room->open_end, PROT_READ);
}

int room_guards_stand(const struct room *room, const uint8_t *slice, size_t length)
{
    for (const uint8_t *at = room->open; at < slice; at++)
        if (*at != GUARD)
            return 0;
    for (const uint8_t *at = slice + length; at < room->open_end; at++)
        if (*at != GUARD)
            return 0;
    return 1;
}

/* The stacks: paint above closed pages, a byte of its own on each, so that a call that answers by what it finds there
 * answers differently on the other. */
enum { STACK = 1 << 18, STACKS = 2 };

size_t room_stack_of(void (*call)(void))
{
    static const uint8_t paint[STACKS] = {0x5E, 0xA1};
    static struct room stacks[STACKS];
    static size_t used[STACKS];
    static ucontext_t here, there;
    static int k;
    k = (k + 1) % STACKS;
    struct room *stack = &stacks[k];
    if (stack->start == NULL) {
        room_open(stack, STACK);
        used[k] = stack->size;
    }
    memset(stack->start + stack->size - used[k], paint[k], used[k]);
    if (getcontext(&there) != 0)
        exit(2);
    there.uc_stack.ss_sp = stack->start;
    there.uc_stack.ss_size = stack->size;
    there.uc_link = &here;
    makecontext(&there, call, 0);
    if (swapcontext(&here, &there) != 0)
        exit(2);
    /* a painted byte that is followed by its like all the way: memcmp is quick */
    size_t untouched = 0, step = page_size();
    while (untouched + step < stack->size && stack->start[untouched] == paint[k] &&
           memcmp(stack->start + untouched, stack->start + untouched + 1, step) == 0)
        untouched += step;
    while (untouched < stack->size && stack->start[untouched] == paint[k])
        untouched++;
    return used[k] = stack->size - untouched;
}
