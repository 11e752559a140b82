#include "info.h"

#include "../common/group.h"
#include "../common/node.h"
#include "calls.h"
#include "connections.h"
#include "options.h"
#include "peers.h"

#include <inttypes.h>
#include <stdarg.h>
#include <stdio.h>

struct text {
    size_t length;
    char bytes[1536];
};

static void add(struct text *text, const char *format, ...) {
    va_list values;
    va_start(values, format);
    int length = vsnprintf(text->bytes + text->length, sizeof text->bytes - text->length, format, values);
    va_end(values);
    if (length > 0 && (size_t)length < sizeof text->bytes - text->length) text->length += (size_t)length;
}

static void add_members(struct text *text) {
    const char *separator = "members:";
    for (int i = 1; i <= group.of; i++) {
        if (!(node_view.members >> (i - 1) & 1)) continue;
        add(text, "%s%d", separator, i);
        separator = ",";
    }
    if (node_view.members) add(text, "\r\n");
}

/* The ring is the last that the node installed, and the node is in it where it is operational. */
void put_info(struct output *output) {
    struct text text = {0};
    refresh_view();
    add(&text, "# Node\r\nprocessor:%d\r\nprocessors:%d\r\n", group.me, group.of);
    add(&text, "operational:%s\r\n", node_view.is_operational ? "yes" : "no");
    add(&text, "ring:%" PRIu64 ".%u\r\n", node_view.ring_number, node_view.representative);
    add_members(&text);
    add(&text, "primary:%s\r\n", node_view.is_primary ? "yes" : "no");
    add(&text, "committed:%" PRIu64 "\r\ndropped:%" PRIu64 "\r\n\r\n", node_view.committed, node_view.dropped);
    add(&text, "# Calls\r\nanswered:%" PRIu64 "\r\nrefused:%" PRIu64 "\r\n", call_counts.answered, call_counts.refused);
    add(&text, "waiting:%u\r\nunsettled:%u\r\nconnections:%u\r\n\r\n", count_waiting(), call_counts.unsettled, connection_count);
    add(&text, "# Network\r\nframes_in:%" PRIu64 "\r\nframes_out:%" PRIu64 "\r\n", peer_counts.received, peer_counts.sent);
    add(&text, "datagrams_refused:%" PRIu64 "\r\n", peer_counts.refused);
    add(&text, "retransmits:%" PRIu64 "\r\nauthenticated:%s\r\n", node_view.retransmits, options.key ? "yes" : "no");
    put_bulk(output, text.bytes, text.length);
}
