/* See child.h. One poll at a time feeds and drains, so neither side waits for the other for ever. */
#define _DEFAULT_SOURCE
#include "child.h"

#include <errno.h>
#include <fcntl.h>
#include <poll.h>
#include <sched.h>
#include <signal.h>
#include <spawn.h>
#include <stdlib.h>
#include <sys/ioctl.h>
#include <sys/wait.h>
#include <time.h>
#include <unistd.h>

enum { PATIENCE = 20 }; /* seconds */

extern char **environ;

struct child {
    pid_t id;
    int in, out; /* our ends; in: -1 once the whole input has gone */
    size_t sent;
};

static bool start_child(const char *program, struct child *c) {
    int in[2], out[2];
    char *arguments[] = {(char *)program, NULL};
    posix_spawn_file_actions_t actions;
    if (pipe(in) != 0 || pipe(out) != 0) abort();
    fcntl(in[1], F_SETFL, O_NONBLOCK);
    posix_spawn_file_actions_init(&actions);
    posix_spawn_file_actions_adddup2(&actions, in[0], 0);
    posix_spawn_file_actions_adddup2(&actions, out[1], 1);
    for (int i = 0; i < 2; i++) {
        posix_spawn_file_actions_addclose(&actions, in[i]);
        posix_spawn_file_actions_addclose(&actions, out[i]);
    }
    int failed = posix_spawn(&c->id, program, &actions, NULL, arguments, environ);
    posix_spawn_file_actions_destroy(&actions);
    close(in[0]);
    close(out[1]);
    c->in = in[1];
    c->out = out[0];
    c->sent = 0;
    return failed == 0;
}

static void end_input(struct child *c) {
    close(c->in);
    c->in = -1;
}

/* What was sent has been read. */
static bool drained(const struct child *c) {
    int waiting = 0;
    return ioctl(c->in, FIONREAD, &waiting) != 0 || waiting == 0;
}

static void feed(struct child *c, struct source *s, enum pace pace, const struct bytes *input) {
    size_t left = input->length - c->sent, piece = left;
    if (pace != AT_ONCE && !drained(c)) {
        sched_yield();
        return;
    }
    if (pace == BYTE_BY_BYTE) piece = 1;
    if (pace == CHUNKS) piece = chance(s, 70) ? between(s, 1, 40) : between(s, 1, 5000);
    if (piece > left) piece = left;
    ssize_t written = piece > 0 ? write(c->in, input->at + c->sent, piece) : 0;
    if (written > 0) c->sent += (size_t)written;
    if (c->sent == input->length || (written < 0 && errno == EPIPE)) end_input(c);
}

/* False once the output has ended. */
static bool drain(struct child *c, struct bytes *output) {
    ssize_t got = read(c->out, output->at + output->length, BYTES_MOST - output->length);
    if (got <= 0) return false;
    output->length += (size_t)got;
    return true;
}

static bool converse(struct child *c, struct source *s, enum pace pace, const struct bytes *input, struct bytes *output) {
    time_t last = time(NULL);
    for (;;) {
        struct pollfd ends[2] = {{c->out, POLLIN, 0}, {c->in, POLLOUT, 0}};
        int n = poll(ends, c->in < 0 ? 1 : 2, 1000);
        if (n > 0 && ends[0].revents != 0 && !drain(c, output)) return true;
        size_t sent = c->sent;
        if (c->in >= 0 && n > 0 && ends[1].revents != 0) feed(c, s, pace, input);
        if (c->sent != sent || (n > 0 && ends[0].revents != 0)) last = time(NULL);
        if (time(NULL) - last > PATIENCE) return false;
    }
}

const char *run_program(const char *program, struct source *s, enum pace pace, const struct bytes *input, struct bytes *output) {
    struct child c;
    int status = 0;
    signal(SIGPIPE, SIG_IGN);
    output->length = 0;
    if (!start_child(program, &c)) return "it does not start";
    bool ended = converse(&c, s, pace, input, output);
    if (!ended) kill(c.id, SIGKILL);
    if (c.in >= 0) close(c.in);
    close(c.out);
    while (waitpid(c.id, &status, 0) < 0 && errno == EINTR) continue;
    if (!ended) return "it does not end";
    if (WIFSIGNALED(status)) return "a signal ends it";
    return WEXITSTATUS(status) == 0 ? NULL : "its exit status is not 0";
}
