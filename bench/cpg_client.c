/* Calls over corosync, to be measured beside those of examples/service. Each node runs one beside its corosync:
 *
 *     cpg_client NODES IN_FLIGHT MOST      cc -O2 -o cpg_client bench/cpg_client.c -lcpg
 *
 * A call is a message in agreed order. It is answered once each node's client has told that it was delivered there: all have it then,
 * as they have a call of ours that is answered. A message tells of MOST calls at most: with MOST 1 each call that was delivered is told
 * by a message of its own; otherwise all that were are told by one message, or with the next call. With all NODES in the ring,
 * IN_FLIGHT calls are kept without answer, and each second prints how many were answered in it. */
#include <corosync/corotypes.h>
#include <corosync/cpg.h>
#include <poll.h>
#include <stdint.h>
#include <stdio.h>
#include <stdlib.h>
#include <sys/uio.h>
#include <time.h>
#include <unistd.h>

enum { MAX_NODES = 16 };

struct message {
    uint32_t is_call;
    uint64_t delivered[MAX_NODES + 1]; /* how many calls of each node were delivered to the sender */
};

static unsigned me, nodes, in_flight, members, most;
static uint64_t made, answered, delivered[MAX_NODES + 1], told[MAX_NODES + 1][MAX_NODES + 1]; /* by node: what it told */
static unsigned untold; /* calls that were delivered here, and that no message told */
static cpg_handle_t handle;

static void deliver(cpg_handle_t from, const struct cpg_name *name, uint32_t node, uint32_t process, void *bytes, size_t length) {
    const struct message *message = bytes;
    (void)from, (void)name, (void)process;
    if (length != sizeof *message || node > MAX_NODES) return;
    for (unsigned i = 1; i <= nodes; i++) told[node][i] = message->delivered[i];
    if (message->is_call) delivered[node]++, untold++;
    answered = told[1][me];
    for (unsigned i = 2; i <= nodes; i++)
        if (told[i][me] < answered) answered = told[i][me];
}

static void change(cpg_handle_t from, const struct cpg_name *name, const struct cpg_address *list, size_t count,
                   const struct cpg_address *left, size_t left_count, const struct cpg_address *joined, size_t joined_count) {
    (void)from, (void)name, (void)list, (void)left, (void)left_count, (void)joined, (void)joined_count;
    members = (unsigned)count;
}

/* Sends what is to be sent. Stops where corosync has no room for it now. */
static void send_messages(void) {
    while (made < answered + in_flight || untold > 0) {
        struct message message = {.is_call = made < answered + in_flight && (most > 1 || untold == 0)};
        struct iovec part = {&message, sizeof message};
        for (unsigned i = 1; i <= nodes; i++) message.delivered[i] = delivered[i];
        if (cpg_mcast_joined(handle, CPG_TYPE_AGREED, &part, 1) != CS_OK) return;
        made += message.is_call;
        untold -= untold < most ? untold : most;
    }
}

static double now(void) {
    struct timespec time;
    clock_gettime(CLOCK_MONOTONIC, &time);
    return (double)time.tv_sec + (double)time.tv_nsec * 1e-9;
}

static void run(int file) {
    struct pollfd waits = {.fd = file, .events = POLLIN};
    uint64_t before = answered;
    for (double next = now() + 1;;) {
        poll(&waits, 1, 1); /* at most a millisecond: corosync may have room again */
        if (cpg_dispatch(handle, CS_DISPATCH_ALL) != CS_OK) exit(1);
        if (members == nodes) send_messages();
        if (now() < next) continue;
        printf("%llu\n", (unsigned long long)(answered - before));
        before = answered;
        next += 1;
    }
}

int main(int count, char **words) {
    cpg_model_v1_data_t model = {.cpg_deliver_fn = deliver, .cpg_confchg_fn = change};
    const struct cpg_name name = {.value = "load", .length = 4};
    int file, tries = 0;
    if (count != 4) return 2;
    nodes = (unsigned)atoi(words[1]);
    in_flight = (unsigned)atoi(words[2]);
    most = (unsigned)atoi(words[3]);
    setvbuf(stdout, NULL, _IOLBF, BUFSIZ);
    while (cpg_model_initialize(&handle, CPG_MODEL_V1, (cpg_model_data_t *)&model, NULL) != CS_OK && tries++ < 100) usleep(100000);
    if (cpg_local_get(handle, &me) != CS_OK || cpg_fd_get(handle, &file) != CS_OK) return 1;
    while (cpg_join(handle, &name) == CS_ERR_TRY_AGAIN) usleep(10000);
    run(file);
}
