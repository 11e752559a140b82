#define _GNU_SOURCE
#include "node.h"

#include "bytes.h"
#include "clock.h"
#include "group.h"

#include <stdio.h>
#include <string.h>

/* How the node is reached: `start_node`, `write_record`, `read_bytes` of its records, and `end_node`. */
#ifdef TOTEM_LIBRARY
#include "by_library.h"
#else
#include "by_pipes.h"
#endif

enum { KIND_AT = 3, TOKEN = 2, COMMIT_TOKEN = 4 }; /* the place of a frame's kind, and kinds */
enum { OPERATIONAL = 3, STOPPED = 4, RECORD_BYTES = 65535, REPLY_BYTES = 64 };
/* What is written before it is read. A pipe holds more, so that node and program never wait for each other's reading. */
enum { MOST_UNREAD = 64, UNREAD_BYTES = 1 << 15 };
/* A ring is idle after so many tokens in a row that brought nothing. Its token rests for so long at most. */
enum { IDLE_TOKENS = 8, MOST_REST = 5 * MILLISECOND };

struct input {
    unsigned char kind;
    void *call;
};

struct node_view node_view;
static struct {
    unsigned count; /* of the inputs that were written, and whose reports were not read */
    size_t length;
    struct input inputs[MOST_UNREAD];
} unread;
static struct {
    size_t length; /* 0 where no token rests */
    uint64_t until;
    unsigned char bytes[FRAME_BYTES];
} resting;
static unsigned quiet_tokens;
static uint64_t brought, wanted;  /* the last time that the node was brought, and the next that it wants, in milliseconds */
static uint64_t taken_at;         /* the time at which it took its last token */
static uint64_t seen_at, not_run; /* when this process was last seen to run, and for how long it didn't */
static int has_paused;

int is_ring_idle(void) { return node_view.is_operational && quiet_tokens > IDLE_TOKENS; }

/* While the ring is idle, the node is brought the time up to so many milliseconds later than it wants it: mostly with the token
 * then, so that both cost one wake-up. */
static uint64_t lateness(void) { return is_ring_idle() ? group.periods[RETRANSMIT] : 0; }

/* The node wants the time within join, and reports come more often. So what passes above that between two looks, this process was
 * stopped, or waited for a processor. */
static void watch_pause(void) {
    uint64_t time = now(), passed = seen_at > 0 ? time - seen_at : 0, most = (group.periods[JOIN] + lateness()) * MILLISECOND;
    if (passed > most) not_run += passed - most;
    if (passed > (uint64_t)group.periods[LOSS] * MILLISECOND / 2) has_paused = 1;
    seen_at = time;
}

/* The node's time, in milliseconds. It stands still while this process doesn't run: what the node waits for may be there. */
static uint64_t node_time(void) {
    watch_pause();
    return (seen_at - not_run) / MILLISECOND;
}

int end_pause(void) {
    watch_pause();
    int had_paused = has_paused;
    has_paused = 0;
    return had_paused;
}

static void note_ring(const unsigned char *bytes) {
    node_view.ring_number = number_at(bytes, 8);
    node_view.representative = bytes[8];
    node_view.members = (unsigned)number_at(bytes + 9, 2);
    node_view.is_primary = bytes[11];
    printf("node %d is operational in ring %llu.%u of", group.me, (unsigned long long)node_view.ring_number, node_view.representative);
    for (int member = 1; member <= MAX_NODES; member++)
        if (node_view.members >> (member - 1) & 1) printf(" %d", member);
    puts(node_view.is_primary ? ", primary" : ", not primary");
}

/* The end of a report: the state; whether a token was taken, and brought anything; when the node wants the time. */
static void note_end(const unsigned char *bytes) {
    if (bytes[0] == STOPPED) end("the node has stopped");
    if (node_view.is_operational && bytes[0] != OPERATIONAL) printf("node %d is forming a ring\n", group.me);
    node_view.is_operational = bytes[0] == OPERATIONAL;
    if (!node_view.is_operational) node_view.is_primary = 0;
    if (bytes[1] == 1) {
        quiet_tokens = bytes[2] ? 0 : quiet_tokens + 1;
        taken_at = brought;
    }
    wanted = number_at(bytes + 3, 8);
    watch_pause();
}

/* Ends the program where a record is shorter than the fields that are read of it, or longer than the room for it. */
static void check_length(unsigned char kind, size_t length) {
    static const size_t LEAST[256] = {['F'] = 2 + KIND_AT + 1, ['D'] = 8, ['K'] = 8,  ['R'] = 9,  ['G'] = 8,
                                      ['C'] = 12,              ['T'] = 8, ['M'] = 12, ['Q'] = 37, ['E'] = 11};
    size_t most = kind == 'F' ? 2 + FRAME_BYTES : kind == 'D' || kind == 'K' || kind == 'R' ? 8 + REPLY_BYTES : RECORD_BYTES;
    if (length < LEAST[kind] || length > most) end("a record of the node has a wrong length");
}

/* Handles a record of the report on an input. */
static void note_record(const struct input *input, unsigned char kind, const unsigned char *bytes, size_t length) {
    if (kind == 'F') {
        unsigned char frame_kind = bytes[2 + KIND_AT];
        if (input->kind == 'N' && (frame_kind == TOKEN || frame_kind == COMMIT_TOKEN)) node_view.retransmits++;
        send_frame(number_at(bytes, 2), bytes + 2, length - 2);
    } else if (kind == 'T') {
        note_ticket(input->call, &(uint64_t){number_at(bytes, 8)});
    } else if (kind == 'X') {
        if (input->kind == 'C') note_ticket(input->call, NULL);
    } else if (kind == 'M') {
        note_ring(bytes);
    } else if (kind == 'Q') {
        node_view.committed = number_at(bytes + 10, 8);
        node_view.dropped = number_at(bytes + 26, 8);
    } else {
        handle_record(kind, bytes, length);
    }
}

/* Handles all records that an input gave, up to the one that ends them. */
static void read_report(const struct input *input) {
    static unsigned char out[RECORD_BYTES];
    for (;;) {
        unsigned char head[3];
        read_bytes(head, sizeof head);
        size_t length = (size_t)number_at(head + 1, 2);
        read_bytes(out, length);
        check_length(head[0], length);
        if (head[0] == 'E') break;
        note_record(input, head[0], out, length);
    }
    note_end(out);
}

void finish_inputs(void) {
    for (unsigned i = 0; i < unread.count; i++) read_report(&unread.inputs[i]);
    unread.count = 0;
    unread.length = 0;
}

static void give_input(struct input input, const unsigned char *bytes, size_t length) {
    static unsigned char record[3 + FRAME_BYTES];
    if (length > FRAME_BYTES) return; /* no frame of the group has so many bytes */
    if (unread.count == MOST_UNREAD || unread.length + 3 + length > UNREAD_BYTES) finish_inputs();
    record[0] = input.kind;
    put_bytes(record + 1, length, 2);
    memcpy(record + 3, bytes, length);
    write_record(record, 3 + length);
    unread.inputs[unread.count++] = input;
    unread.length += 3 + length;
}

static void give_time(uint64_t time) {
    unsigned char bytes[8];
    brought = time;
    put_bytes(bytes, time, 8);
    give_input((struct input){.kind = 'N'}, bytes, sizeof bytes);
}

/* The first time opens the node's clock, and shows that the node runs. */
void open_node(void) {
    start_node();
    give_time(node_time());
    finish_inputs();
}

void close_node(void) { end_node(); }

void refresh_view(void) {
    give_input((struct input){.kind = 'Q'}, (const unsigned char *)"", 0);
    finish_inputs();
}

/* The timeouts that a frame begins anew begin at the last time that the node was brought. So the time comes first, but none at
 * which a timeout is due that the frame may be what it waits for: within retransmit of a token only join is due. */
static void give_frame(const unsigned char *frame, size_t length) {
    uint64_t time = node_time(), most = taken_at + group.periods[RETRANSMIT] - 1;
    if (most < wanted - 1) most = wanted - 1;
    if (time > most) time = most;
    if (time > brought) give_time(time);
    give_input((struct input){.kind = 'F'}, frame, length);
}

static void release_token(void) {
    size_t length = resting.length;
    resting.length = 0;
    if (length > 0) give_frame(resting.bytes, length);
}

/* The token of an idle ring rests, until anything else comes. A round of rests takes at most three quarters of retransmit. */
void take_frame(const unsigned char *frame, size_t length) {
    uint64_t rest = (uint64_t)group.periods[RETRANSMIT] * MILLISECOND * 3 / 4 / (uint64_t)group.of;
    int is_token = length > KIND_AT && length <= FRAME_BYTES && frame[KIND_AT] == TOKEN;
    release_token();
    if (!is_token) quiet_tokens = 0;
    if (length == 0) return;
    if (!is_token || !is_ring_idle()) {
        give_frame(frame, length);
        return;
    }
    memcpy(resting.bytes, frame, length);
    resting.length = length;
    resting.until = now() + (rest < MOST_REST ? rest : MOST_REST);
}

void give_call(const unsigned char *bytes, size_t length, void *call) {
    if (quiet_tokens > IDLE_TOKENS) wake_others();
    quiet_tokens = 0;
    give_input((struct input){'C', call}, bytes, length);
    release_token();
}

void bring_time(void) {
    if (resting.length > 0 && now() >= resting.until) release_token();
    finish_inputs();
    uint64_t time = node_time();
    if (time >= wanted + lateness()) give_time(time);
}

uint64_t next_due_time(void) {
    uint64_t time = (wanted + lateness()) * MILLISECOND + not_run;
    return resting.length > 0 && resting.until < time ? resting.until : time;
}
