/* One node within this program, by the library for C (include/totem.h): a group of one, which forms its ring, counts from 0 to 5,
 * and is asked where it stands. Before that come calls that must be refused, and records whose answers docs/FORMATS.md has byte
 * by byte. It prints the counter, or on standard error what isn't as it must be.
 *
 * It is an example, and no part of what is proved. Build and run: README.md, beside it. */
#include "totem.h"

#include <stdio.h>
#include <stdlib.h>
#include <string.h>

enum { ROOM = 1 << 16, MOST_STEPS = 1000 };

static struct totem_node node;
static unsigned char told[ROOM], frames[ROOM]; /* what was read; frames that the node sent to itself, as records */
static size_t told_length, frames_length;

static void want(int holds, const char *what) {
    if (holds) return;
    fprintf(stderr, "counter: not so: %s\n", what);
    exit(1);
}

/* Hands the node a record, and reads all that it tells of it. */
static void take(unsigned char kind, const void *bytes, size_t length) {
    want(totem_node_take(&node, kind, bytes, length) == TOTEM_DONE, "a record is taken");
    told_length = 0;
    for (size_t count; (count = totem_node_read(&node, told + told_length, sizeof told - told_length)) > 0;) told_length += count;
}

static int tells(const void *bytes, size_t length) { return told_length == length && memcmp(told, bytes, length) == 0; }

/* The bytes of a call: client 7, this number, add 5 to counter 0 of the shelf's counters, which are object 1. */
static size_t put_call(unsigned char *bytes, unsigned char number) {
    static const unsigned char CALL[] = {0, 0, 0, 7, 0, 0, 0, 0, 0, 0, 0, 0, 1, 1, 0, 0, 0, 0, 0, 0, 0, 0, 5};
    memcpy(bytes, CALL, sizeof CALL);
    bytes[11] = number;
    return sizeof CALL;
}

/* Of what the node told: frames to itself are kept, and the answer to ticket 0 is the counter, -1 where there is none. */
static int look_through(void) {
    int counter = -1;
    for (size_t at = 0; at < told_length;) {
        size_t length = (size_t)told[at + 1] << 8 | told[at + 2];
        if (told[at] == 'F') {
            want(frames_length + length <= sizeof frames, "there is room for the frames");
            memcpy(frames + frames_length, told + at, 3 + length);
            frames_length += 3 + length;
        }
        if (told[at] == 'D' && told[at + 10] == 0) counter = told[at + 3 + length - 1];
        at += 3 + length;
    }
    return counter;
}

/* The oldest frame that the node sent to itself comes: behind the record's head and the receivers. */
static void hear_itself(void) {
    static unsigned char frame[ROOM];
    size_t length = (size_t)frames[1] << 8 | frames[2];
    memcpy(frame, frames + 5, length - 2);
    frames_length -= 3 + length;
    memmove(frames, frames + 3 + length, frames_length);
    take('F', frame, length - 2);
}

static void try_what_is_refused(void) {
    want(totem_node_take(&node, 'Q', NULL, 0) == TOTEM_MISUSED, "an empty handle takes no record");
    want(totem_node_read(&node, told, sizeof told) == 0, "an empty handle tells nothing");
    want(totem_node_open(NULL, 1, 1) == TOTEM_MISUSED, "a null handle is told so");
    want(totem_node_open(&node, 1, 0) == TOTEM_NOT_MEMBER && totem_node_open(&node, 1, 17) == TOTEM_NOT_MEMBER, "groups are of 1 to 16");
    want(totem_node_open(&node, 4, 3) == TOTEM_NOT_MEMBER && totem_node_open(&node, 257, 1) == TOTEM_NOT_MEMBER, "4 is none of three, nor 257 of one");
    want(totem_node_open_with_votes(&node, 1, (const uint8_t[]){1, 0}, 2) == TOTEM_NOT_MEMBER, "each has a vote at least");
    totem_node_close(&node);
    want(totem_node_open(&node, 1, 1) == TOTEM_DONE, "a group of one is opened");
    want(totem_node_open(&node, 1, 1) == TOTEM_MISUSED && totem_node_open(&node, 1, 17) == TOTEM_MISUSED, "a handle with a node takes no other");
    want(totem_node_take(&node, 'F', NULL, 1) == TOTEM_MISUSED, "null bytes are told so");
    want(totem_node_take(&node, 'Z', NULL, 0) == TOTEM_BAD_FRAME, "no record is of this kind");
    want(totem_node_take(&node, 'T', (const uint8_t[]){4}, 1) == TOTEM_BAD_FRAME, "there is no fifth timeout");
    want(totem_node_read(&node, told, sizeof told) == 0, "nothing is told of these");
}

static void try_worked_records(void) {
    static const unsigned char STANDS[] = {'Q', 0, 34, 0, 0, 0, 0, 0, 0, 0, 0, 0, 1, 0, 0, 0, 0, 0, 0, 0, 0, 0, 0, 0, 0, 0, 0, 0, 0, 0, 0, 0, 0, 0, 0, 0, 0, 'E', 0, 2, 0, 0};
    unsigned char call[32];
    take('Q', NULL, 0);
    want(tells(STANDS, sizeof STANDS), "a node at its opening stands at ring 0.1");
    take('F', "", 1);
    want(tells("E\0\2\0", 5), "a byte 0 is noise");
    take('C', call, put_call(call, 0));
    want(tells("X\0\1\6E\0\2\0", 9), "number 0 is refused with 6");
    take('C', call, put_call(call, 1));
    want(tells("T\0\10\0\0\0\0\0\0\0\0E\0\2\0", 16), "the first call has ticket 0");
}

int main(void) {
    try_what_is_refused();
    try_worked_records();
    take('T', (const uint8_t[]){1}, 1); /* the join timeout */
    int counter = look_through();
    for (int steps = 0; counter < 0 && steps < MOST_STEPS && frames_length > 0; steps++) {
        hear_itself();
        counter = look_through();
    }
    want(counter == 5, "the counter is at 5");
    take('S', NULL, 0);
    want(told[told_length - 2] == 4, "a node that is asked to stop has stopped");
    totem_node_close(&node);
    totem_node_close(&node);
    printf("counter %d\n", counter);
    return 0;
}
