/* One node of a group over UDP, with clients that count: each adds 1 to counter 0, and every tenth call reads it. A client that has
 * waited for half a second tries its call again, under its number, at another process. What every node over UDP needs is in
 * examples/common: the node itself, the socket, the group's options.
 *
 * It is an example, and no part of what is proved. README.md says how to build and run it, and what it relies on. */
#define _GNU_SOURCE
#include "../common/bytes.h"
#include "../common/clock.h"
#include "../common/datagrams.h"
#include "../common/group.h"
#include "../common/node.h"

#include <poll.h>
#include <signal.h>
#include <stdio.h>
#include <stdlib.h>
#include <string.h>

enum { MAX_CLIENTS = 60, MAX_CALLS = 128 };
enum { ENVELOPE = 14, REPLY_BYTES = 64 }; /* the head of a call or answer between processes: below */
enum { PATIENCE = 500 * MILLISECOND };    /* how long a client waits before it tries its call again */

/* A call at this node: of a client here, or of another process whose own node is late. A client has at most one call open,
 * so that it knows which number comes next. */
struct call {
    int is_waiting;
    int other;                       /* the processor that asked, or at which the client here tried it last */
    uint64_t client, number, ticket; /* the ticket of the last try at this node */
    uint64_t asked_at;
};

static struct options {
    int seconds, clients, lose, repeat, swap, seed;
    const char *log;
} options = {.clients = 1, .seed = 1, .seconds = 30};

static const struct option OPTIONS[] = {
    {"--seconds", 0, &options.seconds, 1, 1000000}, {"--clients", 0, &options.clients, 0, MAX_CLIENTS},
    {"--lose", 0, &options.lose, 0, 100},           {"--repeat", 0, &options.repeat, 0, 100},
    {"--swap", 0, &options.swap, 0, 100},           {"--seed", 0, &options.seed, 0, 1000000},
    {"--log", &options.log, 0, 0, 0},
};

const struct program program = {
    .name = "udp_node",
    .usage = "usage: udp_node --me I (--of N [--port P] | --peers HOST:PORT,..) [--totem FILE]\n"
             "                [--periods JOIN,RETRANSMIT,CONSENSUS,LOSS] [--fresh DIR [--group NAME]] [--seconds S] [--clients C]\n"
             "                [--log FILE] [--lose PERCENT] [--repeat PERCENT] [--swap PERCENT] [--seed X] [--help]\n"
             "README.md says what each option means.\n",
    .options = OPTIONS,
    .option_count = sizeof OPTIONS / sizeof *OPTIONS,
    .port = 47100,
};

static struct call calls[MAX_CALLS];    /* those of the clients here come first */
static unsigned long answered, refused; /* calls that were answered, and those of them that took no effect */
static uint64_t counter;

static void take_datagram(const unsigned char *bytes, size_t length);
#include "trial.h"

void send_frame(uint64_t receivers, const unsigned char *frame, size_t length) { send_datagram(receivers, frame, length); }

void wake_others(void) { send_datagram(all_others(), (const unsigned char *)"", 0); }

static void send_to(int processor, const unsigned char *bytes, size_t length) { send_datagram((uint64_t)1 << (processor - 1), bytes, length); }

/* A client's call was answered, by the node here or by another process. */
static void finish_call(struct call *call, unsigned char kind, const unsigned char *reply, size_t length) {
    call->is_waiting = 0;
    if (kind == 'R') refused++;
    else answered++;
    if (kind != 'R' && length == 9 && reply[0] == 0) counter = number_at(reply + 1, 8);
    log_call("answer", call->client, call->number++, (const char[]){(char)kind, ' ', 0}, reply, length);
}

/* The node answered a ticket. The call of another process is answered by a datagram: `A`, the answer's kind, the client u32,
 * the number u64, and the reply. */
static void handle_answer(unsigned char kind, const unsigned char *bytes, size_t length) {
    uint64_t ticket = number_at(bytes, 8);
    for (struct call *call = calls; call < calls + MAX_CALLS; call++) {
        if (!call->is_waiting || call->ticket != ticket) continue;
        if (call < calls + options.clients) {
            finish_call(call, kind, bytes + 8, length - 8);
            continue;
        }
        unsigned char answer[ENVELOPE + REPLY_BYTES] = {'A', kind};
        put_bytes(answer + 2, call->client, 4);
        put_bytes(answer + 6, call->number, 8);
        memcpy(answer + ENVELOPE, bytes + 8, length - 8);
        send_to(call->other, answer, ENVELOPE + length - 8);
        call->is_waiting = 0;
    }
}

void handle_record(unsigned char kind, const unsigned char *bytes, size_t length) {
    if (kind == 'D' || kind == 'K' || kind == 'R') handle_answer(kind, bytes, length);
    if (kind == 'G') log_call("restored", number_at(bytes, 8), 0, "", bytes, 0);
    if (kind == 'C') log_call("committed", number_at(bytes, 4), number_at(bytes + 4, 8), "", bytes + 12, length - 12);
}

/* The node refuses a call where too many have no answer yet: then it is made again. */
void note_ticket(void *given, const uint64_t *ticket) {
    struct call *call = given;
    if (!ticket) return;
    call->ticket = *ticket;
    call->asked_at = now();
    call->is_waiting = 1;
}

/* Submits a call that another process tries here: `C`, its processor, the client u32, the number u64, and the operation. One
 * that waits here already isn't submitted again. */
static void take_call(const unsigned char *bytes, size_t length) {
    uint64_t client = number_at(bytes + 2, 4), number = number_at(bytes + 6, 8);
    struct call *call = NULL;
    if (bytes[1] < 1 || bytes[1] > group.of || bytes[1] == group.me || !node_view.is_operational) return;
    for (struct call *place = calls + options.clients; place < calls + MAX_CALLS; place++) {
        if (place->is_waiting && place->client != client) continue;
        if (place->is_waiting && place->number >= number) return;
        if (place->is_waiting || !call) call = place;
    }
    if (!call) return;
    *call = (struct call){.other = bytes[1], .client = client, .number = number};
    give_call(bytes + 2, length - 2, call);
    finish_inputs();
}

/* The first byte shows what a datagram is: a frame begins with 54. */
static void take_datagram(const unsigned char *bytes, size_t length) {
    if (length < ENVELOPE || (bytes[0] != 'A' && bytes[0] != 'C')) {
        take_frame(bytes, length);
    } else if (bytes[0] == 'C') {
        take_call(bytes, length);
    } else {
        for (struct call *call = calls; call < calls + options.clients; call++)
            if (call->is_waiting && call->client == number_at(bytes + 2, 4) && call->number == number_at(bytes + 6, 8))
                finish_call(call, bytes[1], bytes + ENVELOPE, length - ENVELOPE);
    }
}

/* Makes the next call of each client that waits for nothing, and tries again at the next other process what has waited long:
 * the node here still has it. A shelf's operations begin with the object's place, 1. */
static void make_calls(void) {
    for (struct call *call = calls; call < calls + options.clients; call++) {
        if (call->is_waiting ? group.of == 1 || now() - call->asked_at < PATIENCE : !node_view.is_operational) continue;
        int is_read = call->number % 10 == 0;
        unsigned char bytes[ENVELOPE + 11] = {'C', (unsigned char)group.me, [ENVELOPE] = 1, is_read ? 2 : 1, [ENVELOPE + 10] = 1};
        size_t length = ENVELOPE + (is_read ? 3 : 11); /* a read has no amount */
        put_bytes(bytes + 2, call->client, 4);
        put_bytes(bytes + 6, call->number, 8);
        log_call("call", call->client, call->number, "", bytes + ENVELOPE, length - ENVELOPE);
        if (call->is_waiting) {
            call->other = call->other % group.of + 1;
            if (call->other == group.me) call->other = call->other % group.of + 1;
            call->asked_at = now();
            send_to(call->other, bytes, length);
            continue;
        }
        give_call(bytes + 2, length - 2, call);
    }
    finish_inputs();
}

/* Takes the datagrams that wait, but not without end: timeouts may be due. */
static void take_datagrams(void) {
    const struct datagram *datagrams;
    size_t count = receive_datagrams(&datagrams);
    if (end_pause()) drop_datagrams();
    else
        for (size_t i = 0; i < count; i++) take_from_network(datagrams[i].bytes, datagrams[i].length);
}

/* Waits until a datagram is there, or something is due. */
static void wait_for_event(int socket) {
    uint64_t time = now(), due = next_due_time(), wait = due > time ? due - time : 0;
    struct pollfd waits = {.fd = socket, .events = POLLIN};
    ppoll(&waits, 1, &(struct timespec){(time_t)(wait / SECOND), (long)(wait % SECOND) * 1000}, NULL);
}

/* Prints once a second how many calls were answered. */
static void report(void) {
    static uint64_t reported_at;
    static unsigned long before;
    if (reported_at == 0) reported_at = now();
    if (now() - reported_at < SECOND) return;
    printf("node %d %s: %lu calls a second, counter %llu\n", group.me, node_view.is_operational ? "operational" : "forming", answered - before,
           (unsigned long long)counter);
    before = answered;
    reported_at += SECOND;
}

int main(int count, char **words) {
    read_options(count, words);
    srand((unsigned)(options.seed * 100 + group.me));
    signal(SIGPIPE, SIG_IGN);
    setvbuf(stdout, NULL, _IOLBF, BUFSIZ);
    int socket = open_socket();
    open_log();
    open_node();
    make_marker();
    for (int i = 0; i < options.clients; i++) calls[i] = (struct call){.other = group.me, .client = (uint64_t)(group.me * 100 + i), .number = 1};
    uint64_t end_at = now() + (uint64_t)options.seconds * SECOND;
    while (now() < end_at) {
        wait_for_event(socket);
        take_datagrams();
        bring_time();
        finish_inputs();
        flush_datagrams();
        if (now() < end_at - SECOND) make_calls();
        flush_datagrams();
        report();
    }
    printf("node %d ends: %lu calls answered, %lu refused\n", group.me, answered, refused);
    close_node();
    return 0;
}
