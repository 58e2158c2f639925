/*
 * A line between two programs, each on its standard input and output, that damages what it carries.
 *
 *   noisy_line SEED NOISE SECONDS LOG STATION [ARGUMENT..] -- MODEM [ARGUMENT..]
 *
 * It cuts both streams into pieces by their length field and, each with a chance of NOISE in 1,000,
 * drops a piece, repeats it, flips up to three of its bits, or cuts its end off. What it passed on, to H
 * or M, goes to LOG; the programs' standard error to LOG.station and LOG.modem. When the first program
 * ends, the second one's input ends. Its exit status is the first program's; 4 where one of them died or
 * the second failed, 5 where they didn't end in SECONDS, 6 where a program's own output has no pieces.
 */
#define _POSIX_C_SOURCE 200809L

#include <errno.h>
#include <fcntl.h>
#include <poll.h>
#include <signal.h>
#include <stdint.h>
#include <stdio.h>
#include <stdlib.h>
#include <string.h>
#include <sys/wait.h>
#include <time.h>
#include <unistd.h>

#define MOST_PIECE 4096

typedef struct program {
    pid_t pid;
    int in, out; /* the ends that the line has of its standard input and output */
} program;

typedef struct way {
    char to;
    uint64_t state; /* of its own chances */
    int from_fd, to_fd;
    size_t filled;
    uint8_t bytes[2 * MOST_PIECE];
} way;

static unsigned noise;
static FILE *passed;
static program programs[2];

static unsigned chance(way *w, unsigned below)
{
    w->state ^= w->state << 13;
    w->state ^= w->state >> 7;
    w->state ^= w->state << 17;
    return (unsigned)((w->state >> 11) % below);
}

static void fail(const char *what, int status)
{
    fprintf(stderr, "noisy_line: %s\n", what);
    kill(programs[0].pid, SIGKILL);
    kill(programs[1].pid, SIGKILL);
    exit(status);
}

/* ---- pieces */

static void pass(const way *w, const char *how, const uint8_t *piece, size_t length)
{
    size_t i;
    fprintf(passed, "%c %s ", w->to, how);
    for (i = 0; i < length; i++)
        fprintf(passed, "%02x", piece[i]);
    fprintf(passed, "\n");
    if (strcmp(how, "drop") != 0 && write(w->to_fd, piece, length) < 0 && errno != EPIPE)
        fail("write", 4);
}

static void flip(way *w, uint8_t *piece, size_t length)
{
    unsigned flips = 1 + chance(w, 3);
    while (flips-- > 0) {
        unsigned at = chance(w, (unsigned)length);
        piece[at] ^= (uint8_t)(1u << chance(w, 8));
    }
}

static void damage(way *w, uint8_t *piece, size_t length)
{
    unsigned fate = chance(w, 1000);
    if (fate < noise) {
        pass(w, "drop", piece, length);
    } else if (fate < 2 * noise) {
        pass(w, "good", piece, length);
        pass(w, "again", piece, length);
    } else if (fate < 3 * noise) {
        flip(w, piece, length);
        pass(w, "flip", piece, length);
    } else if (fate < 4 * noise) {
        pass(w, "cut", piece, chance(w, (unsigned)length));
    } else {
        pass(w, "good", piece, length);
    }
}

/* All pieces that are there. */
static void carry(way *w)
{
    while (w->filled >= 8) {
        const uint8_t *b = w->bytes + 4;
        size_t length = b[0] | (size_t)b[1] << 8 | (size_t)b[2] << 16 | (size_t)b[3] << 24;
        if (length < 12 || length > MOST_PIECE)
            fail("a program wrote what is no piece", 6);
        if (length > w->filled)
            return;
        damage(w, w->bytes, length);
        w->filled -= length;
        memmove(w->bytes, w->bytes + length, w->filled);
    }
}

/* Reads once; gives 0 at the end. */
static int hear(way *w)
{
    ssize_t got = read(w->from_fd, w->bytes + w->filled, sizeof w->bytes - w->filled);
    if (got <= 0)
        return 0;
    w->filled += (size_t)got;
    carry(w);
    return 1;
}

/* ---- programs */

static void start(program *p, char **argv, const char *log, const char *ending)
{
    char name[512];
    int in[2], out[2], error;
    snprintf(name, sizeof name, "%s%s", log, ending);
    error = open(name, O_WRONLY | O_CREAT | O_TRUNC, 0666);
    if (error < 0 || pipe(in) < 0 || pipe(out) < 0 || (p->pid = fork()) < 0)
        fail("a program can't be started", 4);
    if (p->pid == 0) {
        signal(SIGPIPE, SIG_DFL);
        dup2(in[0], 0);
        dup2(out[1], 1);
        dup2(error, 2);
        close(in[1]);
        close(out[0]);
        execvp(argv[0], argv);
        _exit(127);
    }
    close(in[0]);
    close(out[1]);
    close(error);
    p->in = in[1];
    p->out = out[0];
    fcntl(p->in, F_SETFD, FD_CLOEXEC);
    fcntl(p->out, F_SETFD, FD_CLOEXEC);
}

static int status_of(const program *p, time_t until)
{
    static const struct timespec moment = {0, 1000000};
    int status = 0;
    while (waitpid(p->pid, &status, WNOHANG) == 0) {
        if (time(NULL) > until)
            fail("a program doesn't end", 5);
        nanosleep(&moment, NULL);
    }
    if (!WIFEXITED(status))
        fail("a program died", 4);
    return WEXITSTATUS(status);
}

static void run(way *to_modem, way *to_host, time_t until)
{
    int station_speaks = 1, modem_speaks = 1;
    while (station_speaks) {
        struct pollfd ready[2] = {{to_modem->from_fd, POLLIN, 0}, {to_host->from_fd, POLLIN, 0}};
        if (!modem_speaks)
            ready[1].fd = -1;
        if (time(NULL) > until)
            fail("the programs don't end", 5);
        if (poll(ready, 2, 100) <= 0)
            continue;
        if (ready[0].revents)
            station_speaks = hear(to_modem);
        if (ready[1].revents)
            modem_speaks = hear(to_host);
    }
}

int main(int argc, char **argv)
{
    static way to_modem = {.to = 'M'}, to_host = {.to = 'H'};
    int second = 5, status;
    time_t until;
    while (second < argc && strcmp(argv[second], "--") != 0)
        second++;
    if (second + 1 >= argc)
        return 2;
    argv[second] = NULL;
    to_modem.state = 2 * strtoull(argv[1], NULL, 10) * UINT64_C(0x9E3779B97F4A7C15) + 1;
    to_host.state = to_modem.state + UINT64_C(0x9E3779B97F4A7C15);
    noise = (unsigned)strtoul(argv[2], NULL, 10);
    until = time(NULL) + strtol(argv[3], NULL, 10);
    passed = fopen(argv[4], "w");
    if (passed == NULL)
        return 2;
    signal(SIGPIPE, SIG_IGN);
    start(&programs[0], argv + 5, argv[4], ".station");
    start(&programs[1], argv + second + 1, argv[4], ".modem");
    to_modem.from_fd = programs[0].out;
    to_modem.to_fd = programs[1].in;
    to_host.from_fd = programs[1].out;
    to_host.to_fd = programs[0].in;
    run(&to_modem, &to_host, until);
    status = status_of(&programs[0], until);
    close(programs[1].in);
    if (status_of(&programs[1], until) != 0)
        fail("the second program failed", 4);
    fclose(passed);
    return status;
}
