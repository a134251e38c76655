/* deposit CLIENT SERVER NAME..: keeps a deposit session over one pair. Each NAME is a message to pass, `-` a rollback.
 * Prints where both sides stand after every call; a refused call leaves them where they were, and the session goes on.
 * Ends with 1 if a file or the pair is refused. */
#include <tyttmose.h>

#include <stdio.h>
#include <string.h>

/* One byte over the limit is enough to be refused as too long. A file that can't be read counts as empty. */
static size_t bytes_of(const char *path, uint8_t bytes[TYTTMOSE_FILE_SIZE + 1])
{
    FILE *file = fopen(path, "rb");
    size_t length = 0;
    if (file != NULL) {
        length = fread(bytes, 1, TYTTMOSE_FILE_SIZE + 1, file);
        fclose(file);
    }
    return length;
}

/* The value of a description file. */
static int read_value(const char *who, const char *path, uint8_t value[TYTTMOSE_VALUE_SIZE])
{
    static uint8_t bytes[TYTTMOSE_FILE_SIZE + 1];
    uint64_t answer = tyttmose_read(bytes, bytes_of(path, bytes), value, TYTTMOSE_VALUE_SIZE);
    if (tyttmose_refusal(answer) != TYTTMOSE_GRANTED)
        printf("%s %u %u\n", who, tyttmose_refusal(answer), tyttmose_place(answer));
    return tyttmose_refusal(answer) == TYTTMOSE_GRANTED;
}

static void show_point(unsigned point)
{
    if (point == TYTTMOSE_NOWHERE)
        printf(" none");
    else
        printf(" %u", point);
}

static void show(const char *call, uint32_t session)
{
    printf("%s: client %u", call, tyttmose_client_state(session));
    show_point(tyttmose_client_point(session));
    printf(", server %u", tyttmose_server_state(session));
    show_point(tyttmose_server_point(session));
    printf("\n");
}

int main(int count, char **arguments)
{
    uint8_t client[TYTTMOSE_VALUE_SIZE], server[TYTTMOSE_VALUE_SIZE];
    if (count < 3) {
        fprintf(stderr, "usage: deposit CLIENT SERVER NAME..\n");
        return 2;
    }
    if (!read_value("client", arguments[1], client) || !read_value("server", arguments[2], server))
        return 1;

    uint64_t answer = tyttmose_open(client, sizeof client, server, sizeof server);
    if (tyttmose_refusal(answer) != TYTTMOSE_GRANTED) {
        printf("refused %u\n", tyttmose_refusal(answer));
        return 1;
    }
    uint32_t session = tyttmose_session(answer);
    show("open", session);

    for (int k = 3; k < count; k++) {
        const char *name = arguments[k];
        if (strcmp(name, "-") == 0)
            answer = tyttmose_rollback(client, sizeof client, server, sizeof server, session);
        else
            answer = tyttmose_message(client, sizeof client, server, sizeof server, session, (const uint8_t *)name,
                                      strlen(name));
        if (tyttmose_refusal(answer) != TYTTMOSE_GRANTED) {
            printf("%s: refused %u\n", name, tyttmose_refusal(answer)); /* the session given still holds */
            continue;
        }
        session = tyttmose_session(answer);
        show(name, session);
    }
    return 0;
}
