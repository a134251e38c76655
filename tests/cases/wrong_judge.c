/* The plain judge with one thing wrong, which DEFECT in the environment names; without DEFECT nothing is wrong. The scripts `defects` put
 * it in the place of the verdict program. */
#include "plain.h"

#include <signal.h>
#include <stdio.h>
#include <stdlib.h>
#include <string.h>

static const char *defect;

static bool is(const char *name)
{
    return strcmp(defect, name) == 0;
}

static bool begins(const char *text, const char *words)
{
    return strncmp(text, words, strlen(words)) == 0;
}

static size_t bytes_of(const char *name, uint8_t *bytes)
{
    FILE *file = fopen(name, "rb");
    size_t length = file == NULL ? 0 : fread(bytes, 1, PLAIN_BYTES + 1, file);
    if (file != NULL)
        fclose(file);
    return length;
}

/* The defects of what is printed. False if this is none of them. */
static bool spoil(char **text, const char *client_name, const char *server_name)
{
    char *last = *text + strlen(*text) - 1;
    bool refused = begins(*text, "client") || begins(*text, "server");
    if (is("count")) { /* an invented number of stands for every single file that is taken as client beside a.server; pair a is right */
        if (strcmp(client_name, "a.client") != 0 && strcmp(server_name, "a.server") == 0 && !refused)
            *text = "compliant 99999\n";
    } else if (is("silent")) { /* nothing at all of a refused server */
        if (begins(*text, "server"))
            **text = 0;
    } else if (is("cause")) { /* cause 2 for cause 1 */
        if (begins(*text, "stuck 1"))
            (*text)[strlen("stuck ")] = '2';
    } else if (is("signs")) { /* labels as the server sees them; the first line is right */
        for (char *byte = *text; *byte != 0; byte++)
            *byte = *byte == '?' ? '!' : *byte == '!' ? '?' : *byte;
    } else if (is("place")) { /* the place is 0; the number is right */
        if (refused)
            strcpy(strrchr(*text, ' '), " 0\n");
    } else if (is("unended")) { /* no LF after the last line */
        *last = 0;
    } else {
        return false;
    }
    return true;
}

int main(int count, char **arguments)
{
    static uint8_t client[PLAIN_BYTES + 1], server[PLAIN_BYTES + 1];
    defect = getenv("DEFECT");
    if (defect == NULL)
        defect = "";
    if (count != 3)
        return 2;
    size_t client_length = bytes_of(arguments[1], client);
    size_t server_length = bytes_of(arguments[2], server);
    char *text = plain_judge(client, client_length, server, server_length);
    bool spoilt = spoil(&text, arguments[1], arguments[2]);
    fputs(text, stdout);
    if (spoilt || is(""))
        return 0;

    /* The defects of how it ends, after the right bytes. */
    if (is("byte")) { /* a byte more */
        putchar(' ');
        return 0;
    }
    if (is("words")) { /* words on standard error */
        fputs("judged\n", stderr);
        return 0;
    }
    fflush(stdout);
    if (is("signal")) /* death by a signal */
        raise(SIGSEGV);
    return is("status") ? 1 : 2; /* status 1; 2 is a defect that has no name here */
}
