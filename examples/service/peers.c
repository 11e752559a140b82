#include "peers.h"

#include "../common/bytes.h"
#include "../common/datagrams.h"
#include "../common/group.h"
#include "options.h"

#include <fcntl.h>
#include <sodium.h>
#include <stdio.h>
#include <string.h>
#include <unistd.h>

enum { VERSION = 2, GROUP_BYTES = 16, HEAD = 2 + GROUP_BYTES, HASH = 32, LEAST_KEY = 32, MOST_KEY = 4096 };
enum { TOGETHER = 1422 - HASH }; /* the most bytes of several frames: so they, head and hash fit a packet of Ethernet */
enum { LENGTH_AT = 4, BODY_AT = 8 }; /* in a frame */

struct peer_counts peer_counts;
static unsigned char key[HASH], group_hash[GROUP_BYTES];
static size_t hash_bytes; /* HASH with a key, or 0 */
static struct {
    uint64_t receivers, others; /* who gets it all, and who gets only its first `others_length` bytes */
    size_t length, others_length; /* of the head and the frames; 0 where there is none */
    unsigned char bytes[DATAGRAM_BYTES];
} unsent;

static void hash_datagram(unsigned char hash[HASH], const unsigned char *bytes, size_t length) {
    crypto_generichash(hash, HASH, bytes, length, key, sizeof key);
}

/* The key is a hash of the file's bytes. */
static void read_key(void) {
    unsigned char bytes[MOST_KEY + 1];
    int file = open(options.key, O_RDONLY | O_CLOEXEC);
    ssize_t length = file < 0 ? -1 : read(file, bytes, sizeof bytes);
    if (length < 0) end("its key can't be read");
    if (length < LEAST_KEY || length > MOST_KEY) end("its key has not 32 to 4096 bytes");
    crypto_generichash(key, sizeof key, bytes, (size_t)length, NULL, 0);
    sodium_memzero(bytes, sizeof bytes);
    close(file);
}

int open_peers(void) {
    char name[1024];
    if (sodium_init() < 0) end("no libsodium");
    if (options.key) read_key();
    else fprintf(stderr, "service %d: no --key: datagrams prove no sender, so the network must be a private one\n", group.me);
    hash_bytes = options.key ? HASH : 0;
    int length = snprintf(name, sizeof name, "%d/%s/%s", group.of, options.key ? "key" : "no key", group.name);
    if (length >= (int)sizeof name) end("its group's name is too long");
    crypto_generichash(group_hash, GROUP_BYTES, (const unsigned char *)name, (size_t)length, NULL, 0);
    return open_socket();
}

static void queue_datagram(uint64_t receivers, size_t length) {
    if (hash_bytes > 0) hash_datagram(unsent.bytes + length, unsent.bytes, length);
    send_datagram(receivers, unsent.bytes, length + hash_bytes);
    peer_counts.sent += (uint64_t)__builtin_popcountll(receivers);
}

/* A token goes to one of the receivers of the frames before it, and all wait for it. So its datagram goes first. */
static void send_unsent(void) {
    if (unsent.length > 0) queue_datagram(unsent.receivers, unsent.length);
    if (unsent.others) queue_datagram(unsent.others, unsent.others_length);
    unsent.length = 0;
    unsent.others = 0;
}

static void begin_datagram(uint64_t receivers) {
    unsent.receivers = receivers;
    unsent.bytes[0] = VERSION;
    unsent.bytes[1] = (unsigned char)group.me;
    memcpy(unsent.bytes + 2, group_hash, GROUP_BYTES);
    unsent.length = HEAD;
}

/* Where the frame's receivers are some of those that have frames coming, only these get it with them. */
void send_frame(uint64_t receivers, const unsigned char *frame, size_t length) {
    uint64_t more = receivers & ~unsent.receivers, others = unsent.receivers & ~receivers;
    int is_apart = more || (others && unsent.others) || unsent.length - HEAD + length > TOGETHER;
    if (unsent.length > 0 && is_apart) send_unsent();
    if (unsent.length == 0) begin_datagram(receivers);
    else if (others) {
        unsent.others = others;
        unsent.others_length = unsent.length;
    }
    unsent.receivers = receivers;
    memcpy(unsent.bytes + unsent.length, frame, length);
    unsent.length += length;
}

void flush_frames(void) {
    send_unsent();
    flush_datagrams();
}

void wake_others(void) { send_frame(all_others(), (const unsigned char *)"", 0); }

static int fits(const unsigned char *bytes, size_t length) {
    unsigned char hash[HASH];
    if (length < HEAD + hash_bytes || bytes[0] != VERSION) return 0;
    if (bytes[1] < 1 || bytes[1] > group.of || memcmp(bytes + 2, group_hash, GROUP_BYTES) != 0) return 0;
    if (hash_bytes == 0) return 1;
    hash_datagram(hash, bytes, length - HASH);
    return sodium_memcmp(hash, bytes + length - HASH, HASH) == 0;
}

/* The bytes of the first frame; all that there are, where they are no whole frame. */
static size_t first_frame(const unsigned char *bytes, size_t length) {
    size_t frame = length < BODY_AT ? length : BODY_AT + (size_t)number_at(bytes + LENGTH_AT, BODY_AT - LENGTH_AT);
    return frame < length ? frame : length;
}

/* A datagram with no frame ends a rest. */
static void take_datagram(const unsigned char *bytes, size_t length) {
    do {
        size_t frame = first_frame(bytes, length);
        take_frame(bytes, frame);
        bytes += frame;
        length -= frame;
    } while (length > 0);
}

void take_frames(void) {
    const struct datagram *datagrams;
    size_t count = receive_datagrams(&datagrams);
    if (end_pause()) {
        drop_datagrams();
        return;
    }
    for (size_t i = 0; i < count; i++) {
        int is_fit = fits(datagrams[i].bytes, datagrams[i].length);
        if (is_fit) take_datagram(datagrams[i].bytes + HEAD, datagrams[i].length - HEAD - hash_bytes);
        *(is_fit ? &peer_counts.received : &peer_counts.refused) += 1;
    }
}
