#include "options.h"

#include "../common/group.h"

struct options options = {.deadline = 2000};
static const char *listen_at;

static const struct option OPTIONS[] = {
    {"--listen", &listen_at, 0, 0, 0},
    {"--key", &options.key, 0, 0, 0},
    {"--deadline", 0, &options.deadline, 1, 600000},
};

const struct program program = {
    .name = "service",
    .usage = "usage: service --me I (--of N [--port P] | --peers HOST:PORT,..) [--listen HOST:PORT] [--totem FILE] [--key FILE]\n"
             "               [--group NAME] [--fresh DIR] [--deadline MS] [--periods JOIN,RETRANSMIT,CONSENSUS,LOSS] [--help]\n"
             "README.md says what each option means.\n",
    .options = OPTIONS,
    .option_count = sizeof OPTIONS / sizeof *OPTIONS,
    .port = 47200,
};

void read_command_line(int count, char **words) {
    read_options(count, words);
    options.listen_address = local_address(6400 + group.me);
    if (listen_at) options.listen_address = read_address("--listen", &listen_at, 0);
}
