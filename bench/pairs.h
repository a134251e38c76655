/* The pairs that are timed, as description files. */
#ifndef PAIRS_H
#define PAIRS_H

#include <stddef.h>

enum { PAIRS = 5, PAIR_BYTES = 4096 };

/* Writes the texts of pair number k, both ended by a zero byte, and answers its name. */
const char *pair(int k, char *client, char *server);

#endif
