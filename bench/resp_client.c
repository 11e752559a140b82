/* Calls of clients of examples/service, to be measured: CONNECTIONS to a service, each with a command under way at all times.
 *
 *     resp_client HOST PORT CONNECTIONS      cc -O2 -o resp_client bench/resp_client.c
 *
 * It goes on until it is killed, or a connection ends. redis-benchmark does the same at about twice the price: it changes what it waits
 * for four times a command. */
#define _GNU_SOURCE
#include <arpa/inet.h>
#include <errno.h>
#include <netinet/tcp.h>
#include <stdlib.h>
#include <sys/epoll.h>
#include <sys/socket.h>
#include <unistd.h>

enum { MOST_EVENTS = 256, REPLY_BYTES = 4096 };
static const char COMMAND[] = "*3\r\n$6\r\nINCRBY\r\n$2\r\nc0\r\n$1\r\n1\r\n";

static int connected(const struct sockaddr_in *address) {
    int client = socket(AF_INET, SOCK_STREAM | SOCK_CLOEXEC, 0);
    if (connect(client, (const struct sockaddr *)address, sizeof *address)) exit(1);
    setsockopt(client, IPPROTO_TCP, TCP_NODELAY, &(int){1}, sizeof(int));
    return client;
}

static void send_command(int client) {
    if (send(client, COMMAND, sizeof COMMAND - 1, MSG_NOSIGNAL) != sizeof COMMAND - 1) exit(1);
}

/* Each reply is one line, and the next command waits for it: so a part that ends a line ends the reply. */
static void take_reply(int client) {
    char reply[REPLY_BYTES];
    ssize_t length = recv(client, reply, sizeof reply, 0);
    if (length <= 0) exit(1);
    if (reply[length - 1] == '\n') send_command(client);
}

int main(int count, char **words) {
    struct epoll_event events[MOST_EVENTS];
    int waits = epoll_create1(EPOLL_CLOEXEC);
    if (count != 4) return 2;
    struct sockaddr_in address = {.sin_family = AF_INET, .sin_port = htons((uint16_t)atoi(words[2]))};
    if (inet_pton(AF_INET, words[1], &address.sin_addr) != 1) return 2;
    for (int i = atoi(words[3]); i > 0; i--) {
        struct epoll_event event = {.events = EPOLLIN, .data.fd = connected(&address)};
        if (epoll_ctl(waits, EPOLL_CTL_ADD, event.data.fd, &event)) return 1;
        send_command(event.data.fd);
    }
    for (;;) {
        int ready = epoll_wait(waits, events, MOST_EVENTS, -1);
        if (ready < 0 && errno != EINTR) return 1;
        for (int i = 0; i < ready; i++) take_reply(events[i].data.fd);
    }
}
