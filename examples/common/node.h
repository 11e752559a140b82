/* One node of a group: `totem node` as a program beside this one, or the library for C within it. It is driven by records
 * (docs/FORMATS.md, Records), keeps its timeouts itself, and is brought the time. */
#ifndef COMMON_NODE_H
#define COMMON_NODE_H

#include <stddef.h>
#include <stdint.h>

enum { FRAME_BYTES = 8192 }; /* the longest frame */

/* What is known of the node. The ring is the last that it installed; bit i - 1 of `members` stands for processor i. */
extern struct node_view {
    int is_operational;
    int is_primary; /* it is operational in a ring with most of the votes */
    uint64_t ring_number;
    unsigned representative, members;
    uint64_t committed, dropped; /* places of its log, at the last `refresh_view` */
    uint64_t retransmits;        /* tokens that it sent again */
} node_view;

void open_node(void);

/* Ends the node, and this program where the node failed. */
void close_node(void);

/* Each of these gives the node an input. What comes of it is handled at the next `finish_inputs`, or before. */
void take_frame(const unsigned char *frame, size_t length);            /* from the network; an empty one is of `wake_others` */
void give_call(const unsigned char *bytes, size_t length, void *call); /* client u32, number u64, operation */
void bring_time(void);                                                 /* where the node wants it */
void finish_inputs(void);

/* The time at which `bring_time` has something to do. The program waits for frames and calls no longer. */
uint64_t next_due_time(void);

/* Returns whether this process was stopped, or had no processor, for more than half of the loss timeout since the last call. Then
 * what waits in the socket is old, and the others have gone on. */
int end_pause(void);

/* Whether the node is in a ring whose last tokens brought nothing. Then the token rests at times. */
int is_ring_idle(void);

/* Asks the node for the lengths of its log. */
void refresh_view(void);

/* What the program does, which defines these. They give the node no input. */
void send_frame(uint64_t receivers, const unsigned char *frame, size_t length); /* bit i - 1 stands for processor i */
void wake_others(void); /* sends all others an empty frame, which ends a token's rest */
void note_ticket(void *call, const uint64_t *ticket); /* the call as `give_call` had it; NULL where the node refused it */
void handle_record(unsigned char kind, const unsigned char *bytes, size_t length); /* D, K, R, G or C */
#endif
