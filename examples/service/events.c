#define _GNU_SOURCE
#include "events.h"

#include "../common/clock.h"
#include "../common/group.h"

#include <time.h>

static int waits;

void open_events(void) {
    if ((waits = epoll_create1(EPOLL_CLOEXEC)) < 0) end("it can wait for no files");
}

void watch_file(int file, void *owner, uint32_t events, uint32_t *watched) {
    struct epoll_event event = {.events = events, .data.ptr = owner};
    int change = *watched == 0 ? EPOLL_CTL_ADD : events == 0 ? EPOLL_CTL_DEL : EPOLL_CTL_MOD;
    if (events == *watched) return;
    if (epoll_ctl(waits, change, file, &event)) end("it can't wait for a file");
    *watched = events;
}

int take_events(struct epoll_event *events, uint64_t microseconds) {
    struct timespec time = {.tv_sec = (time_t)(microseconds / SECOND), .tv_nsec = (long)(microseconds % SECOND) * 1000};
    return microseconds == 0 ? epoll_wait(waits, events, MOST_EVENTS, 0) : epoll_pwait2(waits, events, MOST_EVENTS, &time, NULL);
}
