/* The node is another program, `totem node`; its records cross two pipes. Those that are written wait in a buffer until a report
 * is read. */
#include <fcntl.h>
#include <sched.h>
#include <stdio.h>
#include <stdlib.h>
#include <sys/wait.h>
#include <unistd.h>

static FILE *to_node, *from_node;
static pid_t node;

/* Ends the node's input and waits for its end. A status other than 0 is reported, and ends this program too. */
static void end_node(void) {
    int status = -1;
    fclose(to_node);
    waitpid(node, &status, 0);
    if (status == 0) return;
    const char *how = WIFEXITED(status) ? "with status" : "by signal";
    fprintf(stderr, "%s %d: the node ended %s %d\n", program.name, group.me, how, WIFEXITED(status) ? WEXITSTATUS(status) : WTERMSIG(status));
    exit(1);
}

static void end_early(void) {
    end_node();
    end("the node ended before its input");
}

/* The two programs take turns. So the node is kept on the processor on which this one runs, where it wakes up soonest. */
static void keep_node_here(void) {
    static int node_processor = -1;
    int here = sched_getcpu();
    cpu_set_t only;
    if (here == node_processor || here < 0 || here >= CPU_SETSIZE) return;
    CPU_ZERO(&only);
    CPU_SET((unsigned)here, &only);
    sched_setaffinity(node, sizeof only, &only);
    node_processor = here;
}

static void write_record(const unsigned char *bytes, size_t length) {
    if (fwrite(bytes, 1, length, to_node) != length) end_early();
}

static void read_bytes(unsigned char *bytes, size_t length) {
    keep_node_here();
    if (fflush(to_node) || fread(bytes, 1, length, from_node) != length) end_early();
}

static void start_node(void) {
    static char written[1 << 16], read[1 << 16];
    const uint32_t *times = group.periods;
    int in[2], out[2];
    char me[12], of[12], periods[48];
    if (pipe2(in, O_CLOEXEC) || pipe2(out, O_CLOEXEC)) end("no pipes");
    snprintf(me, sizeof me, "%d", group.me);
    snprintf(of, sizeof of, "%d", group.of);
    snprintf(periods, sizeof periods, "%u,%u,%u,%u", times[JOIN], times[RETRANSMIT], times[CONSENSUS], times[LOSS]);
    node = fork();
    if (node < 0) end("no process for the node");
    if (node == 0) {
        dup2(in[0], 0);
        dup2(out[1], 1);
        execlp(group.totem, "totem", "node", "--me", me, "--of", of, "--periods", periods, (char *)NULL);
        perror(group.totem);
        _exit(127);
    }
    close(in[0]);
    close(out[1]);
    to_node = fdopen(in[1], "w");
    from_node = fdopen(out[0], "r");
    if (!to_node || !from_node) end("no memory for the pipes");
    setvbuf(to_node, written, _IOFBF, sizeof written);
    setvbuf(from_node, read, _IOFBF, sizeof read);
}
