/* The functions of tyttmose.h made from the plain reading, under other names: what the library is compared with.
 * Compiled with PLAIN_AS_LIBRARY they have the library's own names, so that a test of hosts can be tried on them. */
#ifndef PLAIN_HOST_H
#define PLAIN_HOST_H

#include <stddef.h>
#include <stdint.h>

#ifdef PLAIN_AS_LIBRARY
#define HOST(name) tyttmose_##name
#else
#define HOST(name) plain_host_##name
#endif

uint64_t HOST(read)(const uint8_t *file, size_t file_length, uint8_t *value, size_t value_length);
uint64_t HOST(write)(const uint8_t *value, size_t value_length, uint8_t *text, size_t text_length);
uint64_t HOST(verdict)(const uint8_t *client, size_t client_length, const uint8_t *server, size_t server_length,
                       uint8_t *run, size_t run_length);
uint64_t HOST(open)(const uint8_t *client, size_t client_length, const uint8_t *server, size_t server_length);
uint64_t HOST(message)(const uint8_t *client, size_t client_length, const uint8_t *server, size_t server_length,
                       uint32_t session, const uint8_t *name, size_t name_length);
uint64_t HOST(rollback)(const uint8_t *client, size_t client_length, const uint8_t *server, size_t server_length,
                        uint32_t session);
uint64_t HOST(text)(const uint8_t *client_file, size_t client_length, const uint8_t *server_file, size_t server_length,
                    uint8_t *text, size_t text_length);

#endif
