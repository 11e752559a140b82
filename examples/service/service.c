/* A node of a group over UDP that serves Redis clients over TCP: registers, counters, a queue and a set of names, which all nodes
 * of the group have alike. README.md says how to build and run it, and what it relies on. It is an example, and no part of what
 * is proved. */
#define _GNU_SOURCE
#include "../common/clock.h"
#include "../common/group.h"
#include "../common/node.h"
#include "calls.h"
#include "connections.h"
#include "events.h"
#include "options.h"
#include "peers.h"

#include <signal.h>
#include <stdio.h>

enum { MOST_LOOKING = 30 }; /* the microseconds that a round looks for frames before it sleeps */

static volatile sig_atomic_t has_to_end;

static void note_signal(int number) {
    (void)number;
    has_to_end = 1;
}

/* Takes the next events, once there are any or something is due. Returns how many; below 0 at a signal. In a busy ring a frame mostly
 * comes sooner than a process that sleeps wakes up. So it looks again and again at first. */
static int wait_for_events(struct epoll_event *events) {
    uint64_t begin = now(), due = next_due_time(), wait = due > begin ? due - begin : 0;
    int count = 0;
    if (!is_ring_idle())
        do count = take_events(events, 0);
        while (count == 0 && now() < begin + (wait < MOST_LOOKING ? wait : MOST_LOOKING));
    return count != 0 ? count : take_events(events, wait);
}

/* Reads what clients sent. Events without an owner are the peers': their frames are taken in each round. */
static void handle_events(const struct epoll_event *events, int count, int *listener) {
    int has_clients = 0;
    for (int i = 0; i < count; i++) {
        if (events[i].data.ptr == listener) has_clients = 1;
        else if (events[i].data.ptr) read_commands(events[i].data.ptr);
    }
    if (has_clients) accept_connections(*listener);
}

/* Does what came since the last round: commands before frames, so that they go with a token that came. Frames to the others go out
 * before the clients have their replies. */
static void do_round(void) {
    run_commands();
    take_frames();
    bring_time();
    finish_inputs();
    flush_frames();
    run_commands(); /* those behind commands that were answered */
    finish_inputs();
    send_replies();
    flush_frames();
}

int main(int count, char **words) {
    read_command_line(count, words);
    setvbuf(stdout, NULL, _IOLBF, BUFSIZ);
    /* The program beside this one ignores these signals too: it ends when its input does. */
    signal(SIGPIPE, SIG_IGN);
    signal(SIGINT, SIG_IGN);
    signal(SIGTERM, SIG_IGN);
    int listener = open_connections(), peer_socket = open_peers();
    struct epoll_event events[MOST_EVENTS];
    open_node();
    make_marker();
    signal(SIGINT, note_signal);
    signal(SIGTERM, note_signal);
    open_events();
    watch_file(peer_socket, NULL, EPOLLIN, &(uint32_t){0});
    watch_file(listener, &listener, EPOLLIN, &(uint32_t){0});
    while (!has_to_end) {
        handle_events(events, wait_for_events(events), &listener);
        do_round();
    }
    close_connections();
    close_node();
    printf("node %d ends: %llu calls answered\n", group.me, (unsigned long long)call_counts.answered);
    return 0;
}
