/* Slices that stand against closed pages, and calls made on a stack that is measured. */
#ifndef ROOM_H
#define ROOM_H

#include <stddef.h>
#include <stdint.h>

enum { GUARD = 0xC7 };

/* Pages that may be used, with closed ones before and after. */
struct room {
    uint8_t *start;
    size_t size;
    uint8_t *open, *open_end; /* the pages that are not closed now */
};

/* All pages are open at first. */
void room_open(struct room *room, size_t least);

/* The slice of so many bytes at the start or at the end of the room. The pages that hold none of it are closed; what is beside it
 * on its own pages are guards. */
uint8_t *room_place(struct room *room, const uint8_t *bytes, size_t length, int at_end);

/* Only reading is allowed from now on: everywhere, or on all pages after the first so many bytes of the slice. */
void room_read_only(struct room *room);
void room_read_only_after(struct room *room, uint8_t *slice, size_t length);

/* Do the guards before and after the slice still stand? */
int room_guards_stand(const struct room *room, const uint8_t *slice, size_t length);

/* Makes the call on a stack of its own, and answers how many bytes of that stack it used. Every second call finds other
 * bytes on it. */
size_t room_stack_of(void (*call)(void));

#endif
