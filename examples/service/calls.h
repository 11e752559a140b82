/* The calls of this node: its clients have the group's client numbers 60 * (I - 1) to 60 * I - 1, one open call each. */
#ifndef SERVICE_CALLS_H
#define SERVICE_CALLS_H

#include <stddef.h>
#include <stdint.h>

enum { CLIENTS = 60 };

struct connection;

extern struct call_counts {
    uint64_t answered, refused;
    unsigned unsettled; /* without an answer, and nobody waits for one any more */
} call_counts;

/* Submits an operation for a connection. Returns 0 where each client has an open call. */
int submit_call(struct connection *asker, const unsigned char *operation, size_t length);

/* Nobody waits for the connection's call any more. It may still take effect, and its client has no other call until it is answered. */
void abandon_call(const struct connection *asker);
#endif
