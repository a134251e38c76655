/* Ranks of names, for the bytes of a run. */
#include "behaviour.h"

/* The rank of a name: how many different names of both sides are below it. */
static uint8_t rank_of(uint64_t name, const uint64_t *sorted, int count)
{
    int rank = 0;
    while (rank < count && sorted[rank] < name)
        rank++;
    return (uint8_t)rank;
}

static int put_in_order(uint64_t name, uint64_t *sorted, int count)
{
    int place = count;
    while (place > 0 && sorted[place - 1] > name)
        place--;
    if (place > 0 && sorted[place - 1] == name)
        return count;
    for (int i = count; i > place; i--)
        sorted[i] = sorted[i - 1];
    sorted[place] = name;
    return count + 1;
}

void ranks(const behaviour *client, const behaviour *server, uint8_t *client_rank, uint8_t *server_rank)
{
    uint64_t sorted[2 * LINES];
    int count = 0;
    for (int i = 0; i < client->count; i++)
        count = put_in_order(client->messages[i].name, sorted, count);
    for (int i = 0; i < server->count; i++)
        count = put_in_order(server->messages[i].name, sorted, count);
    for (int i = 0; i < client->count; i++)
        client_rank[i] = rank_of(client->messages[i].name, sorted, count);
    for (int i = 0; i < server->count; i++)
        server_rank[i] = rank_of(server->messages[i].name, sorted, count);
}
