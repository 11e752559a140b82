#define _GNU_SOURCE
#include "datagrams.h"

#include "group.h"

#include <string.h>
#include <sys/socket.h>

enum { MOST_SENT = 64, SENT_BYTES = 4 * DATAGRAM_BYTES };

static int own_socket;
static struct mmsghdr sent[MOST_SENT]; /* what is to be sent: its bytes stand in `sent_bytes` once for all receivers */
static struct iovec sent_parts[MOST_SENT];
static unsigned sent_count;
static unsigned char sent_bytes[SENT_BYTES];
static size_t sent_length;

int open_socket(void) {
    int room = 4 << 20;
    const struct sockaddr_in *address = &group.addresses[group.me - 1];
    own_socket = socket(AF_INET, SOCK_DGRAM | SOCK_NONBLOCK | SOCK_CLOEXEC, 0);
    setsockopt(own_socket, SOL_SOCKET, SO_RCVBUF, &room, sizeof room);
    if (bind(own_socket, (const struct sockaddr *)address, sizeof *address)) end("its address can't be had");
    return own_socket;
}

size_t receive_datagrams(const struct datagram **first) {
    static struct datagram datagrams[MOST_DATAGRAMS];
    struct mmsghdr heads[MOST_DATAGRAMS] = {0};
    struct iovec parts[MOST_DATAGRAMS];
    for (int i = 0; i < MOST_DATAGRAMS; i++) {
        parts[i] = (struct iovec){datagrams[i].bytes, DATAGRAM_BYTES};
        heads[i].msg_hdr.msg_iov = &parts[i];
        heads[i].msg_hdr.msg_iovlen = 1;
    }
    int count = recvmmsg(own_socket, heads, MOST_DATAGRAMS, 0, NULL);
    for (int i = 0; i < count; i++) datagrams[i].length = heads[i].msg_len;
    *first = datagrams;
    return count > 0 ? (size_t)count : 0;
}

void drop_datagrams(void) {
    const struct datagram *dropped;
    while (receive_datagrams(&dropped) > 0) continue;
}

void send_datagram(uint64_t receivers, const unsigned char *bytes, size_t length) {
    if (sent_count + MAX_NODES > MOST_SENT || sent_length + length > SENT_BYTES) flush_datagrams();
    unsigned char *copy = memcpy(sent_bytes + sent_length, bytes, length);
    sent_length += length;
    for (int to = 1; to <= group.of; to++) {
        if (!(receivers >> (to - 1) & 1)) continue;
        sent_parts[sent_count] = (struct iovec){copy, length};
        sent[sent_count].msg_hdr = (struct msghdr){.msg_name = &group.addresses[to - 1],
                                                   .msg_namelen = sizeof *group.addresses,
                                                   .msg_iov = &sent_parts[sent_count],
                                                   .msg_iovlen = 1};
        sent_count++;
    }
}

void flush_datagrams(void) {
    for (unsigned done = 0; done < sent_count;) {
        int count = sendmmsg(own_socket, sent + done, sent_count - done, 0);
        done += count > 0 ? (unsigned)count : 1; /* the first one can't be sent, and is lost */
    }
    sent_count = 0;
    sent_length = 0;
}

uint64_t all_others(void) { return ((uint64_t)1 << group.of) - 1 - ((uint64_t)1 << (group.me - 1)); }
