/* The verdict program on top of the plain reading: "takes the names of a client file and a
 * server file as its two arguments (one that can't be read counts as empty)". */
#include "plain.h"

#include <stdio.h>
#include <stdlib.h>

/* One byte over the limit is enough: refusal 1 asks nothing more of the file. */
static size_t bytes_of(const char *name, uint8_t *bytes)
{
    FILE *file = name == NULL ? NULL : fopen(name, "rb");
    if (file == NULL)
        return 0;
    size_t length = fread(bytes, 1, PLAIN_BYTES + 1, file);
    if (ferror(file))
        length = 0;
    fclose(file);
    return length;
}

int main(int count, char **arguments)
{
    static uint8_t client[PLAIN_BYTES + 1], server[PLAIN_BYTES + 1];
    size_t client_length = bytes_of(count > 1 ? arguments[1] : NULL, client);
    size_t server_length = bytes_of(count > 2 ? arguments[2] : NULL, server);
    char *text = plain_judge(client, client_length, server, server_length);
    fputs(text, stdout);
    free(text);
    return 0;
}
