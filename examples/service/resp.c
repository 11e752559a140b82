#include "resp.h"

#include <ctype.h>
#include <inttypes.h>
#include <stdio.h>
#include <string.h>
#include <strings.h>

struct cursor {
    const char *at, *end;
};

int read_number(struct word word, uint64_t *number) {
    *number = 0;
    for (size_t i = 0; i < word.length; i++) {
        uint64_t digit = (uint64_t)(word.bytes[i] - '0');
        if (!isdigit((unsigned char)word.bytes[i]) || *number > (UINT64_MAX - digit) / 10) return 0;
        *number = *number * 10 + digit;
    }
    return word.length > 0;
}

int is_word(struct word word, const char *name) {
    return word.length == strlen(name) && strncasecmp(word.bytes, name, word.length) == 0;
}

/* Reads a line, which ends with LF or CR LF. */
static enum parse read_line(struct cursor *cursor, struct word *line) {
    const char *feed = memchr(cursor->at, '\n', (size_t)(cursor->end - cursor->at));
    if (!feed) return INCOMPLETE;
    line->bytes = cursor->at;
    line->length = (size_t)(feed - cursor->at);
    if (line->length > 0 && feed[-1] == '\r') line->length--;
    cursor->at = feed + 1;
    return COMPLETE;
}

/* Reads a line of a type and a number, such as `*3` or `$5`. */
static enum parse read_head(struct cursor *cursor, char type, uint64_t *number) {
    struct word line;
    if (read_line(cursor, &line) == INCOMPLETE) return INCOMPLETE;
    if (line.length == 0 || *line.bytes != type) return MALFORMED;
    return read_number((struct word){line.bytes + 1, line.length - 1}, number) ? COMPLETE : MALFORMED;
}

static void add_word(struct words *words, struct word word) {
    if (words->count < MAX_WORDS) words->at[words->count] = word;
    words->count++;
}

static enum parse read_bulk(struct cursor *cursor, struct words *words) {
    uint64_t length;
    enum parse parse = read_head(cursor, '$', &length);
    if (parse != COMPLETE) return parse;
    size_t left = (size_t)(cursor->end - cursor->at);
    if (left < 2 || left - 2 < length) return INCOMPLETE;
    if (memcmp(cursor->at + length, "\r\n", 2) != 0) return MALFORMED;
    add_word(words, (struct word){cursor->at, (size_t)length});
    cursor->at += length + 2;
    return COMPLETE;
}

static enum parse read_array(struct cursor *cursor, struct words *words) {
    uint64_t count = 0;
    enum parse parse = read_head(cursor, '*', &count);
    for (uint64_t i = 0; parse == COMPLETE && i < count; i++) parse = read_bulk(cursor, words);
    return parse;
}

static int is_blank(char byte) { return byte == ' ' || byte == '\t'; }

static enum parse read_inline(struct cursor *cursor, struct words *words) {
    struct word line;
    if (read_line(cursor, &line) == INCOMPLETE) return INCOMPLETE;
    const char *end = line.bytes + line.length;
    for (const char *at = line.bytes; at < end;) {
        const char *begin = at;
        while (at < end && !is_blank(*at)) at++;
        if (at > begin) add_word(words, (struct word){begin, (size_t)(at - begin)});
        while (at < end && is_blank(*at)) at++;
    }
    return COMPLETE;
}

enum parse read_command(const char *bytes, size_t length, struct words *words, size_t *used) {
    struct cursor cursor = {bytes, bytes + length};
    words->count = 0;
    if (length == 0) return INCOMPLETE;
    enum parse parse = *bytes == '*' ? read_array(&cursor, words) : read_inline(&cursor, words);
    *used = (size_t)(cursor.at - bytes);
    return parse;
}

static void put(struct output *output, const char *bytes, size_t length) {
    if (length > OUTPUT_BYTES - output->length) return;
    memcpy(output->bytes + output->length, bytes, length);
    output->length += length;
}

void put_line(struct output *output, const char *line) {
    put(output, line, strlen(line));
    put(output, "\r\n", 2);
}

void put_bulk(struct output *output, const char *bytes, size_t length) {
    char head[32];
    snprintf(head, sizeof head, "$%zu", length);
    put_line(output, head);
    put(output, bytes, length);
    put(output, "\r\n", 2);
}

void put_bulk_number(struct output *output, uint64_t number) {
    char digits[32];
    put_bulk(output, digits, (size_t)snprintf(digits, sizeof digits, "%" PRIu64, number));
}

void put_integer(struct output *output, uint64_t number) {
    char line[32];
    snprintf(line, sizeof line, ":%" PRIu64, number);
    if (number <= INT64_MAX) put_line(output, line);
    else put_bulk_number(output, number);
}
