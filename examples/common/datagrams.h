/* The node's UDP socket. As many datagrams as wait cross it by one system call. */
#ifndef COMMON_DATAGRAMS_H
#define COMMON_DATAGRAMS_H

#include "node.h"

enum { DATAGRAM_BYTES = FRAME_BYTES + 64, MOST_DATAGRAMS = 32 }; /* a frame and an envelope */

struct datagram {
    size_t length;
    unsigned char bytes[DATAGRAM_BYTES];
};

/* Opens the socket at this node's address. Returns it. */
int open_socket(void);

/* Receives the first datagrams that wait. Returns how many, MOST_DATAGRAMS at most; they stay until the next call. */
size_t receive_datagrams(const struct datagram **first);

/* Drops all that waits. */
void drop_datagrams(void);

/* Sends a datagram to each receiver, at the latest at the next `flush_datagrams`: bit i - 1 stands for processor i. The network may
 * lose it. */
void send_datagram(uint64_t receivers, const unsigned char *bytes, size_t length);
void flush_datagrams(void);

/* The receivers that are all processors but this one. */
uint64_t all_others(void);
#endif
