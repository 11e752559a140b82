/* The node is in this program: the library for C. */
#include "totem.h"

static struct totem_node node;

/* Takes a whole record; then its report can be read. */
static void write_record(const unsigned char *record, size_t length) {
    if (totem_node_take(&node, record[0], record + 3, length - 3) != TOTEM_DONE) end("the node takes no records any more");
}

/* One read may move fewer bytes than there are. */
static void read_bytes(unsigned char *bytes, size_t length) {
    while (length > 0) {
        size_t count = totem_node_read(&node, bytes, length);
        if (count == 0) end("the node has ended");
        bytes += count;
        length -= count;
    }
}

static void start_node(void) {
    static const uint8_t ONE_EACH[MAX_NODES] = {1, 1, 1, 1, 1, 1, 1, 1, 1, 1, 1, 1, 1, 1, 1, 1};
    const uint32_t *times = group.periods;
    struct totem_periods periods = {times[JOIN], times[RETRANSMIT], times[CONSENSUS], times[LOSS]};
    if (totem_node_open_timed(&node, (uint32_t)group.me, ONE_EACH, (size_t)group.of, periods) != TOTEM_DONE) end("no node");
}

static void end_node(void) { totem_node_close(&node); }
