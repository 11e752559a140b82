/* The datagrams between the nodes of a group. Each is frames in an envelope:
 *
 *     version u8 (2), sender u8, group (16 bytes), frames, hash (32 bytes; only with --key)
 *
 * A frame tells its own length. The group is a hash of the group's name and the number of its processors, and of whether there is a
 * key; the last part is a keyed hash of all before it, by BLAKE2b, so that only who has the key can send to the group. What doesn't
 * fit is dropped. Frames are sent by `send_frame` and `wake_others` of node.h: those of one round that go to the same processors
 * share a datagram, as long as it fits a packet of Ethernet. A token goes with the messages before it. */
#ifndef SERVICE_PEERS_H
#define SERVICE_PEERS_H

#include <stdint.h>

extern struct peer_counts {
    uint64_t received, sent;
    uint64_t refused; /* datagrams that didn't fit */
} peer_counts;

/* Opens the node's socket and reads the key. Returns the socket. */
int open_peers(void);

/* Gives the node the frames that wait and fit, but not without end: timeouts may be due. */
void take_frames(void);

/* Sends the frames that `send_frame` was given. */
void flush_frames(void);
#endif
