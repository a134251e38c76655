/* A behaviour from a file of a folder, as the drivers of the tables read it: "one that can't be read counts as
 * empty". */
#ifndef FOLDER_H
#define FOLDER_H

#include "plain.h"

struct plain_refusal folder_read(const char *folder, const char *name, struct plain_behaviour *behaviour);

#endif
