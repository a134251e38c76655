/* runs FOLDER <INDEX: prints the ID and the run's bytes of every stuck pair of an index like
 * cases/data/index, and checks that bytes after the run and on "compliant" all bytes stay. */
#include "folder.h"
#include "plain.h"

#include <stdio.h>
#include <string.h>

int main(int count, char **arguments)
{
    char line[1024], id[256], one[256], other[256];
    static uint8_t run[PLAIN_STANDS];
    if (count != 2)
        return 2;
    while (fgets(line, sizeof line, stdin) != NULL) {
        struct plain_behaviour client, server;
        struct plain_verdict verdict;
        if (sscanf(line, "%255s %255s %255s", id, one, other) != 3)
            continue;
        folder_read(arguments[1], one, &client);
        folder_read(arguments[1], other, &server);
        memset(run, 200, sizeof run);
        if (plain_verdict(&client, &server, run, sizeof run, &verdict).number != 0)
            return 1;
        for (int i = verdict.length; i < PLAIN_STANDS; i++)
            if (run[i] != 200)
                return 1;
        if (verdict.compliant)
            continue;
        fputs(id, stdout);
        for (int i = 0; i < verdict.length; i++)
            printf(" %d", run[i]);
        putchar('\n');
    }
    return 0;
}
