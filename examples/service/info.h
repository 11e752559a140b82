/* The reply to INFO. */
#ifndef SERVICE_INFO_H
#define SERVICE_INFO_H

#include "resp.h"

void put_info(struct output *output);
#endif
