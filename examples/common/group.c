#define _GNU_SOURCE
#include "group.h"

#include <ctype.h>
#include <errno.h>
#include <fcntl.h>
#include <netdb.h>
#include <stdio.h>
#include <stdlib.h>
#include <string.h>
#include <unistd.h>

struct group group = {.periods = {10, 20, 100, 300}, .name = "totem", .totem = "totem"};
static int port;
static const char *peers, *periods, *fresh;

static const struct option OPTIONS[] = {
    {"--me", 0, &group.me, 1, MAX_NODES}, {"--of", 0, &group.of, 1, MAX_NODES}, {"--port", 0, &port, 1, 65000},
    {"--peers", &peers, 0, 0, 0},         {"--periods", &periods, 0, 0, 0},     {"--totem", &group.totem, 0, 0, 0},
    {"--group", &group.name, 0, 0, 0},    {"--fresh", &fresh, 0, 0, 0},
};
enum { OPTION_COUNT = sizeof OPTIONS / sizeof *OPTIONS };

void end(const char *why) {
    fprintf(stderr, "%s %d: %s\n", program.name, group.me, why);
    exit(1);
}

void refuse_option(const char *word) {
    fprintf(stderr, "%s: bad option: %s\n%s", program.name, word, program.usage);
    exit(2);
}

/* Reads a number from `least` to `most`, which ends with `ending`, and moves the text behind that. */
static int read_part(const char *word, const char **text, int least, int most, char ending) {
    char *stop;
    errno = 0;
    long number = strtol(*text, &stop, 10);
    if (!isdigit((unsigned char)**text) || errno || *stop != ending || number < least || number > most) refuse_option(word);
    *text = stop + 1;
    return (int)number;
}

struct sockaddr_in local_address(int port) {
    return (struct sockaddr_in){.sin_family = AF_INET, .sin_addr.s_addr = htonl(INADDR_LOOPBACK), .sin_port = htons((uint16_t)port)};
}

struct sockaddr_in read_address(const char *word, const char **text, char ending) {
    char host[256];
    size_t length = strcspn(*text, ":");
    if (length == 0 || length >= sizeof host || !(*text)[length]) refuse_option(word);
    memcpy(host, *text, length);
    host[length] = 0;
    *text += length + 1;
    int port = read_part(word, text, 1, 65535, ending);
    struct sockaddr_in address;
    struct addrinfo *found, hints = {.ai_family = AF_INET};
    if (getaddrinfo(host, NULL, &hints, &found)) end("a host in its options has no address");
    memcpy(&address, found->ai_addr, sizeof address);
    address.sin_port = htons((uint16_t)port);
    freeaddrinfo(found);
    return address;
}

static void read_peers(void) {
    int count = 0;
    for (int is_last = 0; !is_last;) {
        is_last = !strchr(peers, ',');
        if (count == MAX_NODES) refuse_option("--peers");
        group.addresses[count++] = read_address("--peers", &peers, is_last ? 0 : ',');
    }
    if (group.of && group.of != count) refuse_option("--of is not the number of --peers");
    group.of = count;
}

static const struct option *find_option(const char *word, const struct option *options, size_t count) {
    for (const struct option *option = options; option < options + count; option++)
        if (!strcmp(word, option->word)) return option;
    return NULL;
}

void read_options(int count, char **words) {
    port = program.port;
    for (int at = 1; at < count; at += 2) {
        if (!strcmp(words[at], "--help")) exit(fputs(program.usage, stdout) < 0);
        const struct option *option = find_option(words[at], OPTIONS, OPTION_COUNT);
        if (!option) option = find_option(words[at], program.options, program.option_count);
        if (!option || at + 1 == count) refuse_option(words[at]);
        const char *value = words[at + 1];
        if (option->text) *option->text = value;
        else *option->number = read_part(words[at], &value, option->least, option->most, 0);
    }
    for (int i = 0; i < MAX_NODES; i++) group.addresses[i] = local_address(port + i + 1);
    for (int i = 0; periods && i < TIMEOUTS; i++)
        group.periods[i] = (uint32_t)read_part("--periods", &periods, 1, 60000, i + 1 < TIMEOUTS ? ',' : 0);
    if (peers) read_peers();
    if (group.of == 0 || group.me == 0 || group.me > group.of) refuse_option("--me and --of, or --me and --peers");
    if (!*group.name || strchr(group.name, '/')) refuse_option("--group");
}

/* The marker is a file DIR/GROUP.ME, which stays. */
void make_marker(void) {
    char path[1024];
    if (!fresh) return;
    int length = snprintf(path, sizeof path, "%s/%s.%d", fresh, group.name, group.me);
    if (length >= (int)sizeof path) end("its marker's path is too long");
    int file = open(path, O_WRONLY | O_CREAT | O_EXCL | O_CLOEXEC, 0644), folder = open(fresh, O_RDONLY | O_CLOEXEC);
    if (file < 0 && errno == EEXIST) end("this number was started in this group before; begin a new group");
    if (file < 0 || folder < 0 || fsync(file) || fsync(folder)) end("its marker can't be made");
    close(file);
    close(folder);
}
