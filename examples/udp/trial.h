/* Used only to try the example out: a bad network, and a log with a line for each call, answer and committed call, which
 * bench/udp.py reads. */

static FILE *call_log;
static struct datagram swapped; /* it waits for the next, to be taken after it */

static void open_log(void) {
    if (!options.log) return;
    call_log = fopen(options.log, "w");
    if (!call_log) end("its log can't be written");
    setvbuf(call_log, NULL, _IOLBF, 1 << 16);
}

/* The time, what it is, the client and the number of the call, of an answer its kind, and the bytes. */
static void log_call(const char *what, uint64_t client, uint64_t number, const char *kind, const unsigned char *bytes, size_t length) {
    if (!call_log) return;
    fprintf(call_log, "%.6f %s %llu %llu %s", (double)now() / SECOND, what, (unsigned long long)client, (unsigned long long)number, kind);
    for (size_t i = 0; i < length; i++) fprintf(call_log, "%02x", bytes[i]);
    fputc('\n', call_log);
}

/* Draws with this chance, in percent. */
static int is_hit(int percent) { return rand() % 100 < percent; }

/* Takes a datagram from the network, which may be made a bad one: it loses, repeats, or swaps it with the next. */
static void take_from_network(const unsigned char *bytes, size_t length) {
    if (is_hit(options.lose)) return;
    if (swapped.length == 0 && is_hit(options.swap)) {
        swapped.length = length;
        memcpy(swapped.bytes, bytes, length);
        return;
    }
    take_datagram(bytes, length);
    if (is_hit(options.repeat)) take_datagram(bytes, length);
    if (swapped.length > 0) {
        size_t count = swapped.length;
        swapped.length = 0;
        take_datagram(swapped.bytes, count);
    }
}
