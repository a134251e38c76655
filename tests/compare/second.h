/* A second opinion on the verdict, from source 001 and not from the plain search: name sets as in Definition 2.3,
 * the greatest relation of Definition 3.1 by removing stands, and all short runs one by one. */
#ifndef SECOND_H
#define SECOND_H

#include "../plain/plain.h"

/* Is the start in the greatest relation? Also the number of stands reachable from it. */
bool second_compliant(const struct plain_behaviour *client, const struct plain_behaviour *server, int *reachable);

/* Tries all runs of length 0, 1, ... up to the limit in dictionary order. Answers -1 if none is bad, -2 if there
 * were too many to try, else the length; the run and its cause are filled in. */
int second_shortest(const struct plain_behaviour *client, const struct plain_behaviour *server, int limit, uint8_t *run,
                    int *cause);

/* Refusal 13 by reading 11's list instead of by writing and reading back. */
bool second_sound(const struct plain_behaviour *behaviour);

#endif
