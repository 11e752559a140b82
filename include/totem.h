/* One node of Totem's objects within a C program: a proved library, and this header, which is not proved.
 *
 * A node knows no network and measures no time. It takes input records (received frames, the time, calls) and puts out output
 * records (frames to send, tickets, answers, members). docs/FORMATS.md, Records, has their bytes; `totem_node_take` takes a
 * record's kind and bytes, without the three bytes of kind and length in front.
 *
 *     struct totem_node node = {0};                        an empty handle
 *     totem_node_open(&node, 1, 3);                        processor 1 of three
 *     totem_node_take(&node, 'F', frame, length);          a received frame
 *     totem_node_time(&node, now);                         the time in milliseconds: its timeouts come as they are due
 *     while ((count = totem_node_read(&node, room, sizeof room)) > 0) ..   the bytes of its output records
 *     totem_node_close(&node);                             an empty handle again
 *
 * Duties of the program, which nothing checks:
 *
 * - A pointer that is not null points to as many bytes as its length says. No two arguments of a call overlap.
 * - A handle is all zeros, or holds what the library left in it. It may be moved; of two copies one is never used again.
 * - A handle stays on the thread that opened it. It has one call at a time, none in a signal handler or a forked child.
 * - malloc, realloc and free are of one allocator.
 * - The one order depends on the conditions of docs/FORMATS.md, Records, "What must be so outside".
 *
 * Build: cc PROGRAM.c -Iinclude crates/totem_c/out/libtotem_c.a KIT/c/liblibc_c.a, where KIT is the toolchain's folder. */
#ifndef TOTEM_H
#define TOTEM_H

#include <stdbool.h>
#include <stddef.h>
#include <stdint.h>

#ifdef __cplusplus
extern "C" {
#endif

/* A handle. Only the library uses its fields. */
struct totem_node {
    void *at;
    bool made;
};

/* The status that a call returns: 0, the number of a refusal (docs/FORMATS.md, The command line), or 255. */
enum totem_status {
    TOTEM_DONE = 0,
    TOTEM_NOT_MEMBER = 1,     /* not 1 to 16 processors, a vote of 0, or `me` is none of them; the handle stays empty */
    TOTEM_STOPPED = 8,        /* the node is gone, since memory was refused for its output */
    TOTEM_OUT_OF_MEMORY = 11, /* at opening, or for a record's output: then node and unread bytes are gone; close the handle */
    TOTEM_BAD_FRAME = 12,     /* the kind is unknown, or the bytes don't fit it; nothing was done */
    TOTEM_MISUSED = 255       /* a null pointer, a period of 0, a handle that must be empty or must not; nothing was done */
};

/* The library's own functions, for callers that can't include this header. None of their pointers may be null, not even to
 * bytes of length 0. */
uint8_t totem_c_open(struct totem_node *node, uint32_t me, const uint8_t *votes, size_t of);
uint8_t totem_c_open_timed(struct totem_node *node, uint32_t me, const uint8_t *votes, size_t of, uint32_t join,
                           uint32_t retransmit, uint32_t consensus, uint32_t loss);
uint8_t totem_c_take(struct totem_node *node, uint8_t kind, const uint8_t *bytes, size_t length);
size_t totem_c_read(struct totem_node *node, uint8_t *into, size_t room);
void totem_c_close(struct totem_node *node);

/* Opens processor `me` of a group of `of` processors with these votes, 1 to 255 each, behind an empty handle. Returns TOTEM_DONE,
 * TOTEM_NOT_MEMBER, TOTEM_OUT_OF_MEMORY or TOTEM_MISUSED. */
static inline enum totem_status totem_node_open_with_votes(struct totem_node *node, uint32_t me, const uint8_t *votes, size_t of) {
    if (node == NULL || votes == NULL) return TOTEM_MISUSED;
    return (enum totem_status)totem_c_open(node, me, votes, of);
}

/* The periods of a node's timeouts, in milliseconds, each at least 1. */
struct totem_periods {
    uint32_t join, retransmit, consensus, loss;
};

/* Opens a processor with these votes and these periods; otherwise the same. Without them the periods are 10, 20, 100 and 300. */
static inline enum totem_status totem_node_open_timed(struct totem_node *node, uint32_t me, const uint8_t *votes, size_t of,
                                                      struct totem_periods periods) {
    if (node == NULL || votes == NULL) return TOTEM_MISUSED;
    return (enum totem_status)totem_c_open_timed(node, me, votes, of, periods.join, periods.retransmit, periods.consensus,
                                                 periods.loss);
}

/* Opens processor `me` of a group of `of` processors with one vote each. */
static inline enum totem_status totem_node_open(struct totem_node *node, uint32_t me, size_t of) {
    /* One vote more than a group may have; the library refuses them all together. */
    static const uint8_t one_each[17] = {1, 1, 1, 1, 1, 1, 1, 1, 1, 1, 1, 1, 1, 1, 1, 1, 1};
    return totem_node_open_with_votes(node, me, one_each, of < sizeof one_each ? of : sizeof one_each);
}

/* Does the record of this kind, a letter, and these bytes. Its output records follow the bytes that are unread. Returns
 * TOTEM_DONE, TOTEM_STOPPED, TOTEM_OUT_OF_MEMORY, TOTEM_BAD_FRAME or TOTEM_MISUSED. No record has more than 65,535 bytes; more are
 * taken as those of a frame or a call: noise, or an operation that is too long. */
static inline enum totem_status totem_node_take(struct totem_node *node, uint8_t kind, const uint8_t *bytes, size_t length) {
    static const uint8_t none = 0;
    if (node == NULL || (bytes == NULL && length > 0)) return TOTEM_MISUSED;
    return (enum totem_status)totem_c_take(node, kind, bytes == NULL ? &none : bytes, length);
}

/* Brings the time, in milliseconds: does the record `N`. From the first time on the node keeps its timeouts itself; its records
 * `E` have the time at which it wants the next one, `M` and `Q` the members of its ring and whether they are primary. */
static inline enum totem_status totem_node_time(struct totem_node *node, uint64_t now) {
    uint8_t bytes[8];
    for (int i = 0; i < 8; i++) bytes[i] = (uint8_t)(now >> (56 - 8 * i));
    return totem_node_take(node, 'N', bytes, sizeof bytes);
}

/* Moves the first unread bytes to `into` and returns their number: 0 only where none are left, there is no room, a pointer is
 * null or the handle is empty. As with read(2), more bytes may be unread even where there was room for them. */
static inline size_t totem_node_read(struct totem_node *node, uint8_t *into, size_t room) {
    return node == NULL || into == NULL ? 0 : totem_c_read(node, into, room);
}

/* Frees the node, if there is one, and leaves the handle empty. */
static inline void totem_node_close(struct totem_node *node) {
    if (node != NULL) totem_c_close(node);
}

#ifdef __cplusplus
}
#endif

#endif
