/* What the command line says beside the group. */
#ifndef SERVICE_OPTIONS_H
#define SERVICE_OPTIONS_H

#include <netinet/in.h>

extern struct options {
    int deadline; /* in milliseconds */
    const char *key;
    struct sockaddr_in listen_address;
} options;

/* Reads the options, and those of the group. Ends the program at a bad one. */
void read_command_line(int count, char **words);
#endif
