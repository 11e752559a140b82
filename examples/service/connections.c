#define _GNU_SOURCE
#include "connections.h"

#include "../common/clock.h"
#include "../common/group.h"
#include "../common/node.h"
#include "calls.h"
#include "events.h"
#include "info.h"
#include "options.h"

#include <errno.h>
#include <netinet/tcp.h>
#include <stdio.h>
#include <string.h>
#include <sys/socket.h>
#include <unistd.h>

enum { INPUT_BYTES = 16384, REPLY_ROOM = 2048 }; /* no reply is longer than this */

struct connection {
    enum { IDLE, WAITING, SUBMITTED } state; /* no command; a command that was not submitted; one that was */
    int socket, has_ended, is_closing;       /* the client sends no more; nothing more is read of it */
    uint32_t watched;                        /* the events that it waits for */
    struct operation operation;
    uint64_t deadline;
    size_t input_length;
    char input[INPUT_BYTES];
    struct output output;
};

unsigned connection_count;
static struct connection places[MAX_CONNECTIONS], *connections[MAX_CONNECTIONS]; /* those that are open come first */

int open_connections(void) {
    const struct sockaddr_in *address = &options.listen_address;
    int listener = socket(AF_INET, SOCK_STREAM | SOCK_NONBLOCK | SOCK_CLOEXEC, 0);
    setsockopt(listener, SOL_SOCKET, SO_REUSEADDR, &(int){1}, sizeof(int));
    if (bind(listener, (const struct sockaddr *)address, sizeof *address) || listen(listener, 128))
        end("its clients' address can't be had");
    for (int i = 0; i < MAX_CONNECTIONS; i++) connections[i] = &places[i];
    return listener;
}

unsigned count_waiting(void) {
    unsigned count = 0;
    for (unsigned i = 0; i < connection_count; i++) count += connections[i]->state != IDLE;
    return count;
}

static int has_room_for_input(const struct connection *connection) {
    return !connection->has_ended && !connection->is_closing && connection->input_length < INPUT_BYTES;
}

/* A closed connection whose command is under way waits for nothing: it would be an event without end. */
static void watch_connection(struct connection *connection) {
    uint32_t events = (has_room_for_input(connection) ? EPOLLIN : 0) | (connection->output.length > 0 ? EPOLLOUT : 0);
    watch_file(connection->socket, connection, events, &connection->watched);
}

void accept_connections(int listener) {
    static const char FULL[] = "-ERR max number of clients reached\r\n";
    for (int client; (client = accept4(listener, NULL, NULL, SOCK_NONBLOCK | SOCK_CLOEXEC)) >= 0;) {
        if (connection_count == MAX_CONNECTIONS) {
            send(client, FULL, sizeof FULL - 1, MSG_NOSIGNAL);
            close(client);
            continue;
        }
        struct connection *connection = connections[connection_count++];
        setsockopt(client, IPPROTO_TCP, TCP_NODELAY, &(int){1}, sizeof(int));
        connection->state = IDLE;
        connection->socket = client;
        connection->has_ended = connection->is_closing = 0;
        connection->watched = 0;
        connection->input_length = connection->output.length = 0;
        watch_connection(connection);
    }
}

void read_commands(struct connection *connection) {
    size_t room = INPUT_BYTES - connection->input_length;
    if (!has_room_for_input(connection)) return;
    ssize_t length = recv(connection->socket, connection->input + connection->input_length, room, MSG_DONTWAIT);
    if (length > 0) connection->input_length += (size_t)length;
    else if (length == 0 || (errno != EAGAIN && errno != EINTR)) connection->has_ended = 1;
}

static void drop_input(struct connection *connection, size_t length) {
    connection->input_length -= length;
    memmove(connection->input, connection->input + length, connection->input_length);
}

static void put_pong(struct output *output, const struct words *words) {
    if (words->count == 1) put_line(output, "+PONG");
    else if (words->at[1].length > REPLY_ROOM / 2) put_line(output, "-ERR the text is too long");
    else put_bulk(output, words->at[1].bytes, words->at[1].length);
}

/* Does a command that needs no call, or begins one that does. */
static void run_command(struct connection *connection, const struct words *words) {
    char error[ERROR_BYTES];
    struct output *output = &connection->output;
    if (words->count == 0) return;
    if (is_word(words->at[0], "PING") && words->count < 3) put_pong(output, words);
    else if (is_word(words->at[0], "INFO")) put_info(output);
    else if (is_word(words->at[0], "COMMAND")) put_line(output, "*0");
    else if (is_word(words->at[0], "QUIT")) {
        put_line(output, "+OK");
        connection->is_closing = 1;
    } else if (make_operation(words, &connection->operation, error)) {
        connection->state = WAITING;
        connection->deadline = now() + (uint64_t)options.deadline * MILLISECOND;
    } else put_line(output, error);
}

/* Reads the next command, if it is there, and runs it. Returns whether it was. */
static int run_next(struct connection *connection) {
    struct words words;
    size_t used;
    if (connection->state != IDLE || connection->is_closing || OUTPUT_BYTES - connection->output.length < REPLY_ROOM) return 0;
    enum parse parse = read_command(connection->input, connection->input_length, &words, &used);
    if (parse == INCOMPLETE && connection->input_length < INPUT_BYTES) return 0;
    if (parse != COMPLETE) {
        put_line(&connection->output, parse == MALFORMED ? "-ERR Protocol error" : "-ERR Protocol error: too big a command");
        connection->is_closing = 1;
        return 0;
    }
    run_command(connection, &words);
    drop_input(connection, used);
    return 1;
}

/* Answers a command whose call has no answer, with what is known of it. */
static void give_up(struct connection *connection, const char *why) {
    char line[ERROR_BYTES];
    int was_submitted = connection->state == SUBMITTED;
    snprintf(line, sizeof line, "-TRYAGAIN %s; %s", why, was_submitted ? "the command may still take effect" : "the command has no effect");
    if (was_submitted) abandon_call(connection);
    connection->state = IDLE;
    put_line(&connection->output, line);
}

/* Gives up the command at its deadline. Submits it once the node is in a primary ring and a client is free. */
static void advance_command(struct connection *connection) {
    const struct operation *operation = &connection->operation;
    if (connection->state != IDLE && now() >= connection->deadline)
        give_up(connection, node_view.is_primary ? "no answer before the deadline" : "no primary ring before the deadline");
    if (connection->state == WAITING && node_view.is_primary && submit_call(connection, operation->bytes, operation->length))
        connection->state = SUBMITTED;
}

void answer_connection(struct connection *connection, unsigned char kind, const unsigned char *reply, size_t length) {
    connection->state = IDLE;
    if (kind == 'R') put_line(&connection->output, "-ERR the group refused this call, and it has no effect");
    else put_reply(&connection->output, &connection->operation, reply, length);
}

void resume_connection(struct connection *connection) { connection->state = WAITING; }

static void send_output(struct connection *connection) {
    struct output *output = &connection->output;
    if (output->length == 0) return;
    ssize_t length = send(connection->socket, output->bytes, output->length, MSG_NOSIGNAL | MSG_DONTWAIT);
    if (length < 0 && (errno == EAGAIN || errno == EINTR)) return;
    if (length < 0) {
        connection->has_ended = connection->is_closing = 1;
        length = (ssize_t)output->length;
    }
    output->length -= (size_t)length;
    memmove(output->bytes, output->bytes + length, output->length);
}

static void close_connection(unsigned index) {
    struct connection *connection = connections[index];
    if (connection->state == SUBMITTED) abandon_call(connection);
    close(connection->socket);
    connections[index] = connections[--connection_count];
    connections[connection_count] = connection;
}

/* A connection is done when all that it asked for is sent and nothing more can come. */
static int is_done(const struct connection *connection) {
    return connection->state == IDLE && connection->output.length == 0 && (connection->is_closing || connection->has_ended);
}

/* Each time another connection is the first, so that each gets a free client in its turn. */
void run_commands(void) {
    static unsigned first;
    first++;
    for (unsigned i = 0; i < connection_count; i++) {
        struct connection *connection = connections[(first + i) % connection_count];
        do advance_command(connection);
        while (run_next(connection));
    }
}

void send_replies(void) {
    for (unsigned i = 0; i < connection_count; i++) send_output(connections[i]);
    for (unsigned i = connection_count; i-- > 0;)
        if (is_done(connections[i])) close_connection(i);
        else watch_connection(connections[i]);
}

void close_connections(void) {
    while (connection_count > 0) {
        struct connection *connection = connections[connection_count - 1];
        if (connection->state != IDLE) give_up(connection, "this node ends");
        send_output(connection);
        close_connection(connection_count - 1);
    }
}
