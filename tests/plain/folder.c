/* A behaviour from a file of a folder (folder.h). */
#include "folder.h"

#include <stdio.h>

struct plain_refusal folder_read(const char *folder, const char *name, struct plain_behaviour *behaviour)
{
    char path[1024];
    uint8_t bytes[PLAIN_BYTES + 1];
    snprintf(path, sizeof path, "%s/%s", folder, name);
    FILE *file = fopen(path, "rb");
    size_t length = file == NULL ? 0 : fread(bytes, 1, sizeof bytes, file);
    if (file != NULL)
        fclose(file);
    return plain_read(bytes, length, behaviour);
}
