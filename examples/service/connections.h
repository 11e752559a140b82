/* The Redis clients of this node, each with a TCP connection. A connection has one command under way; those that it sent behind
 * that wait in its buffer, so its replies come in the order of its commands. */
#ifndef SERVICE_CONNECTIONS_H
#define SERVICE_CONNECTIONS_H

#include "objects.h"

#include <stddef.h>

enum { MAX_CONNECTIONS = 512 };

struct connection;

extern unsigned connection_count;

/* How many connections have a command under way. */
unsigned count_waiting(void);

/* Opens the socket at which clients connect. Returns it. */
int open_connections(void);

/* Reads commands of a connection at which something happened. */
void read_commands(struct connection *connection);

/* Accepts all clients that wait. */
void accept_connections(int listener);

/* Runs the commands that can be run. */
void run_commands(void);

/* Sends the replies that are there, closes the connections that are done, and has the others wait for what they can take. */
void send_replies(void);

/* The group's answer to the connection's command: the kind of a record D, K or R, and the object's reply. */
void answer_connection(struct connection *connection, unsigned char kind, const unsigned char *reply, size_t length);

/* The node refused the connection's command, which was not submitted and is to be tried again. */
void resume_connection(struct connection *connection);

/* Answers the commands under way with an error, and closes all connections. */
void close_connections(void);
#endif
