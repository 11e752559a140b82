#include "calls.h"

#include "../common/bytes.h"
#include "../common/group.h"
#include "../common/node.h"
#include "connections.h"

#include <string.h>

/* A client of the group. `number` is that of its open call, or of its last one. */
struct client {
    enum { FREE, OPEN, RETIRED } state;
    uint64_t number, ticket;
    struct connection *asker; /* who waits for the open call's answer, or NULL */
};

struct call_counts call_counts;
static struct client clients[CLIENTS];

static struct client *find_client(void) {
    static unsigned last;
    for (unsigned i = 0; i < CLIENTS; i++) {
        last = (last + 1) % CLIENTS;
        if (clients[last].state == FREE) return &clients[last];
    }
    return NULL;
}

int submit_call(struct connection *asker, const unsigned char *operation, size_t length) {
    unsigned char bytes[12 + OPERATION_BYTES];
    struct client *client = find_client();
    if (!client) return 0;
    put_bytes(bytes, (uint64_t)(CLIENTS * (group.me - 1) + (client - clients)), 4);
    put_bytes(bytes + 4, ++client->number, 8);
    memcpy(bytes + 12, operation, length);
    give_call(bytes, 12 + length, client);
    client->state = OPEN;
    client->asker = asker;
    return 1;
}

void note_ticket(void *call, const uint64_t *ticket) {
    struct client *client = call;
    if (ticket) {
        client->ticket = *ticket;
        return;
    }
    client->state = FREE;
    client->number--;
    if (client->asker) resume_connection(client->asker);
    else call_counts.unsettled--;
}

void abandon_call(const struct connection *asker) {
    for (struct client *client = clients; client < clients + CLIENTS; client++) {
        if (client->state != OPEN || client->asker != asker) continue;
        client->asker = NULL;
        call_counts.unsettled++;
    }
}

/* A call that the sessions refused shows that its client is known to the group by calls of another program, or is one too many:
 * it makes no other. */
static void settle_call(uint64_t ticket, unsigned char kind, const unsigned char *reply, size_t length) {
    for (struct client *client = clients; client < clients + CLIENTS; client++) {
        if (client->state != OPEN || client->ticket != ticket) continue;
        client->state = kind == 'R' ? RETIRED : FREE;
        if (kind == 'R') call_counts.refused++;
        else call_counts.answered++;
        if (client->asker) answer_connection(client->asker, kind, reply, length);
        else call_counts.unsettled--;
    }
}

void handle_record(unsigned char kind, const unsigned char *bytes, size_t length) {
    if (kind == 'D' || kind == 'K' || kind == 'R') settle_call(number_at(bytes, 8), kind, bytes + 8, length - 8);
}
