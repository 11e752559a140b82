#include "objects.h"

#include "../common/bytes.h"

#include <ctype.h>
#include <stdio.h>
#include <string.h>

enum { REGISTERS, COUNTERS, QUEUE, NAMES, MAX_NAME = 64 };

/* A command on one kind of keys. `arguments` has a letter for each argument: v a value, n a name; 1 is no argument, but the value
 * 1. `replies` has what is written for the first byte of the object's reply: a line, or by `$` the number behind that byte as a
 * bulk string, by `:` as an integer. */
struct form {
    const char *command;
    unsigned char object, tag;
    const char *arguments, *replies[3];
};

#define TOO_GREAT "-ERR increment would overflow"
#define FULL "-ERR it has 1024 items and is full"

static const struct form FORMS[] = {
    {"GET", REGISTERS, 1, "", {"$"}},
    {"SET", REGISTERS, 2, "v", {"+OK"}},
    {"CAS", REGISTERS, 3, "vv", {"+OK", "$"}},
    {"GET", COUNTERS, 2, "", {"$"}},
    {"INCR", COUNTERS, 1, "1", {":", TOO_GREAT}},
    {"INCRBY", COUNTERS, 1, "v", {":", TOO_GREAT}},
    {"RPUSH", QUEUE, 1, "v", {":1", FULL}},
    {"LPOP", QUEUE, 2, "", {"$", "$-1"}},
    {"LLEN", QUEUE, 3, "", {":"}},
    {"SADD", NAMES, 1, "n", {":1", ":0", FULL}},
    {"SREM", NAMES, 2, "n", {":1", ":0"}},
    {"SISMEMBER", NAMES, 3, "n", {":1", ":0"}},
};
enum { FORM_COUNT = sizeof FORMS / sizeof *FORMS };

/* The object that has a key, or -1: r0 to r255 are registers, c0 to c255 counters, q the queue, n the names. */
static int object_of(struct word key, uint64_t *index) {
    if (key.length == 1 && *key.bytes == 'q') return QUEUE;
    if (key.length == 1 && *key.bytes == 'n') return NAMES;
    if (key.length < 2 || (*key.bytes != 'r' && *key.bytes != 'c')) return -1;
    if (key.length > 2 && key.bytes[1] == '0') return -1;
    if (!read_number((struct word){key.bytes + 1, key.length - 1}, index) || *index > 255) return -1;
    return *key.bytes == 'r' ? REGISTERS : COUNTERS;
}

static size_t arguments_of(const struct form *form) { return *form->arguments == '1' ? 0 : strlen(form->arguments); }

/* Appends an argument to the operation. Returns NULL, or the error. */
static const char *put_argument(struct operation *operation, char letter, struct word word) {
    uint64_t value = 1;
    if (letter == 'n') {
        if (word.length < 1 || word.length > MAX_NAME) return "-ERR a name has 1 to 64 bytes";
        memcpy(operation->bytes + operation->length, word.bytes, word.length);
        operation->length += word.length;
        return NULL;
    }
    if (letter == 'v' && !read_number(word, &value)) return "-ERR value is not an integer or out of range";
    put_bytes(operation->bytes + operation->length, value, 8);
    operation->length += 8;
    return NULL;
}

/* An error with a command's name, of which unprintable characters are hidden. */
static void name_command(char error[ERROR_BYTES], const char *before, struct word name, const char *after) {
    char shown[33] = "";
    for (size_t i = 0; i < name.length && i < sizeof shown - 1; i++) shown[i] = isprint((unsigned char)name.bytes[i]) ? name.bytes[i] : '?';
    snprintf(error, ERROR_BYTES, "-ERR %s '%s'%s", before, shown, after);
}

/* Finds the form of a command with this key. Where there is none, writes the error and returns NULL. */
static const struct form *find_form(const struct words *words, uint64_t *index, char error[ERROR_BYTES]) {
    const struct form *named = NULL, *found = NULL;
    int object = words->count > 1 ? object_of(words->at[1], index) : -1;
    for (const struct form *form = FORMS; form < FORMS + FORM_COUNT; form++) {
        if (!is_word(words->at[0], form->command)) continue;
        named = form;
        if (form->object == object) found = form;
    }
    if (!named) name_command(error, "unknown command", words->at[0], "");
    else if (words->count != 2 + arguments_of(named)) name_command(error, "wrong number of arguments for", words->at[0], " command");
    else if (object < 0) snprintf(error, ERROR_BYTES, "-ERR no such key");
    else if (!found) snprintf(error, ERROR_BYTES, "-WRONGTYPE Operation against a key holding the wrong kind of value");
    else return found;
    return NULL;
}

int make_operation(const struct words *words, struct operation *operation, char error[ERROR_BYTES]) {
    uint64_t index = 0;
    const struct form *form = find_form(words, &index, error);
    if (!form) return 0;
    *operation = (struct operation){.form = form, .length = 2, .bytes = {form->object, form->tag}};
    if (form->object == REGISTERS || form->object == COUNTERS) operation->bytes[operation->length++] = (unsigned char)index;
    for (size_t i = 0; form->arguments[i]; i++) {
        const char *wrong = put_argument(operation, form->arguments[i], i < arguments_of(form) ? words->at[2 + i] : words->at[0]);
        if (!wrong) continue;
        snprintf(error, ERROR_BYTES, "%s", wrong);
        return 0;
    }
    return 1;
}

void put_reply(struct output *output, const struct operation *operation, const unsigned char *reply, size_t length) {
    const char *line = length > 0 && reply[0] < 3 ? operation->form->replies[reply[0]] : NULL;
    int is_number = line && line[1] == 0;
    if (!line || length != (is_number ? 9 : 1)) put_line(output, "-ERR the node's reply has an unknown form");
    else if (!is_number) put_line(output, line);
    else if (*line == '$') put_bulk_number(output, number_at(reply + 1, 8));
    else put_integer(output, number_at(reply + 1, 8));
}
