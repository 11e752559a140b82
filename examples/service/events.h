/* What the service waits for: files that can be read or written. However many there are, only those at which something happened cost
 * anything. */
#ifndef SERVICE_EVENTS_H
#define SERVICE_EVENTS_H

#include <stdint.h>
#include <sys/epoll.h>

enum { MOST_EVENTS = 64 };

void open_events(void);

/* Has events of a file tell its owner: EPOLLIN, EPOLLOUT, both, or 0, which ends that. `watched` is what was asked for before. */
void watch_file(int file, void *owner, uint32_t events, uint32_t *watched);

/* Gives the owners of files at which something happened, MOST_EVENTS at most, once there are any or `microseconds` have passed. Returns
 * how many; below 0 at a signal. */
int take_events(struct epoll_event *events, uint64_t microseconds);
#endif
