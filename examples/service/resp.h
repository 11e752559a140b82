/* The Redis protocol, RESP2: commands are read, replies are written. */
#ifndef SERVICE_RESP_H
#define SERVICE_RESP_H

#include <stddef.h>
#include <stdint.h>

enum { MAX_WORDS = 8, OUTPUT_BYTES = 16384 };

struct word {
    const char *bytes;
    size_t length;
};

/* A command: its number of words, and the first MAX_WORDS of them. They point into the bytes that were read. */
struct words {
    size_t count;
    struct word at[MAX_WORDS];
};

enum parse { INCOMPLETE, COMPLETE, MALFORMED };

/* Reads the command that begins some bytes: an array of bulk strings, or a line of words. On COMPLETE sets its words and its
 * length; it may have no words. */
enum parse read_command(const char *bytes, size_t length, struct words *words, size_t *used);

/* Reads a decimal number of 64 bits without a sign. Returns whether the word is one. */
int read_number(struct word word, uint64_t *number);

/* Compares a word with a name in capitals, whatever the case of its letters. */
int is_word(struct word word, const char *name);

/* Replies that wait to be sent. */
struct output {
    size_t length;
    char bytes[OUTPUT_BYTES];
};

/* Each appends a reply, or drops what there is no room for: the caller leaves room. */
void put_line(struct output *output, const char *line); /* one line, with its type in front: "+OK" */
void put_bulk(struct output *output, const char *bytes, size_t length);
void put_bulk_number(struct output *output, uint64_t number);
void put_integer(struct output *output, uint64_t number); /* above 2^63 - 1, the greatest integer of RESP2, as a bulk string */
#endif
