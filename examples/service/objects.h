/* Commands on the group's objects: as operations of docs/FORMATS.md, Operations and replies, and their replies back. */
#ifndef SERVICE_OBJECTS_H
#define SERVICE_OBJECTS_H

#include "resp.h"

enum { OPERATION_BYTES = 2 + 64, ERROR_BYTES = 128 };

/* What a command asks of an object. `form` says how its reply is written. */
struct operation {
    const struct form *form;
    size_t length;
    unsigned char bytes[OPERATION_BYTES];
};

/* Makes the operation of a command. Where there is none, writes the error that is to be its reply and returns 0. */
int make_operation(const struct words *words, struct operation *operation, char error[ERROR_BYTES]);

/* Writes the reply of the object that did the operation. */
void put_reply(struct output *output, const struct operation *operation, const unsigned char *reply, size_t length);
#endif
