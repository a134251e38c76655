/* sessions FOLDER <TABLE: makes the session calls of a table like cases/sessions.expected and prints the
 * table with the answers given. A granted call's session is the next call's; a refused one changes nothing. */
#include "folder.h"
#include "plain.h"

#include <stdio.h>
#include <stdlib.h>
#include <string.h>

static int return_point(const char *word)
{
    return strcmp(word, "-") == 0 ? PLAIN_NONE : atoi(word);
}

static void show_return(int return_point, char end)
{
    if (return_point == PLAIN_NONE)
        printf("-%c", end);
    else
        printf("%d%c", return_point, end);
}

int main(int count, char **arguments)
{
    char line[512], one[256], other[256], third[16], fourth[16];
    struct plain_behaviour client, server;
    struct plain_stand stand = plain_start();
    if (count != 2)
        return 2;
    memset(&client, 0, sizeof client);
    memset(&server, 0, sizeof server);
    while (fgets(line, sizeof line, stdin) != NULL) {
        char *arrow = strstr(line, " -> ");
        struct plain_refusal refused;
        if (arrow == NULL) {
            fputs(line, stdout);
            if (sscanf(line, "pair %255s %255s", one, other) == 2) {
                folder_read(arguments[1], one, &client);
                folder_read(arguments[1], other, &server);
            } else if (sscanf(line, "at %255s %15s %255s %15s", one, third, other, fourth) == 4) {
                stand = (struct plain_stand){atoi(one), return_point(third), atoi(other), return_point(fourth)};
            }
            continue;
        }
        *arrow = 0;
        if (strcmp(line, "open") == 0)
            refused = plain_open(&client, &server, &stand);
        else if (strcmp(line, "rollback") == 0)
            refused = plain_rollback(&client, &server, stand, &stand);
        else /* "message " and the name's bytes */
            refused = plain_message(&client, &server, stand, (const uint8_t *)line + 8, strlen(line + 8), &stand);
        printf("%s -> ", line);
        if (refused.number != 0) {
            printf("refused %d %d\n", refused.number, refused.place);
            continue;
        }
        printf("%d ", stand.client);
        show_return(stand.client_return, ' ');
        printf("%d ", stand.server);
        show_return(stand.server_return, '\n');
    }
    return 0;
}
