/* The group and this node's place in it, from the command line, and the marker of a start. */
#ifndef COMMON_GROUP_H
#define COMMON_GROUP_H

#include <netinet/in.h>
#include <stddef.h>
#include <stdint.h>

enum { MAX_NODES = 16 };
enum timeout { JOIN, RETRANSMIT, CONSENSUS, LOSS, TIMEOUTS };

extern struct group {
    int me, of;                              /* this node's processor; the number of processors */
    struct sockaddr_in addresses[MAX_NODES]; /* of the processors' UDP sockets, in their order */
    uint32_t periods[TIMEOUTS];              /* of the node's timeouts, in milliseconds: a choice, and no rule */
    const char *name, *totem;                /* the group's name; the program that runs a node */
} group;

/* An option is a word and its value: a text, or a number within bounds. */
struct option {
    const char *word, **text;
    int *number, least, most;
};

/* What a program says of itself: each defines its own. */
extern const struct program {
    const char *name, *usage;
    const struct option *options; /* those that it has beside the ones of each node */
    size_t option_count;
    int port; /* processor i has UDP port `port` + i, where no option says anything else */
} program;

/* Ends the program with status 1, after this line. */
_Noreturn void end(const char *why);

/* Ends the program with status 2, after the usage. */
_Noreturn void refuse_option(const char *word);

/* Reads HOST:PORT, which ends with `ending`, and moves the text behind that. */
struct sockaddr_in read_address(const char *word, const char **text, char ending);

/* The address of a port of this machine alone. */
struct sockaddr_in local_address(int port);

/* Reads the options. Ends the program at a bad one. */
void read_options(int count, char **words);

/* With --fresh, makes the marker of this start. Ends the program where it is there: then a node of this number was started before. */
void make_marker(void);
#endif
