/*
 * stopped.h: calls of the desk program in processes of their own that stop at a step.
 *
 * The calls of the system that put a file in place are stood in for here, each by a sibling that does the same, so that
 * the one of a given number can kill the process or fail. This is included first, once in a program.
 */
#ifndef STOPPED_H
#define STOPPED_H

#undef _FORTIFY_SOURCE
#define _GNU_SOURCE
#include "../../desk/keep.h"

#include <errno.h>
#include <fcntl.h>
#include <signal.h>
#include <stdarg.h>
#include <stdio.h>
#include <stdlib.h>
#include <string.h>
#include <sys/uio.h>
#include <sys/wait.h>
#include <unistd.h>

static unsigned long checks;

#define HOLD(what, why)                                                                          \
    do {                                                                                         \
        checks++;                                                                                \
        if (!(what)) {                                                                           \
            fprintf(stderr, "FAILED after %lu checks: %s: %s\n", checks, #what, why);            \
            exit(1);                                                                             \
        }                                                                                        \
    } while (0)

/* ---- calls of the system that stop at a step ------------------------------------------------------------------- */

enum { KILLED, NO_SPACE, BROKEN };

static long steps_left = -1; /* to the call that stops; below 0: none does */
static int way;              /* how it stops */

static int stops(void)
{
    if (steps_left < 0 || steps_left-- > 0)
        return 0;
    if (way == KILLED)
        kill(getpid(), SIGKILL);
    errno = way == NO_SPACE ? ENOSPC : EIO;
    return 1;
}

int open(const char *path, int flags, ...)
{
    va_list values;
    va_start(values, flags);
    mode_t mode = flags & O_CREAT ? va_arg(values, mode_t) : 0;
    va_end(values);
    return stops() ? -1 : openat(AT_FDCWD, path, flags, mode);
}

/* At most 500 bytes at a time, as the system may. */
ssize_t write(int to, const void *bytes, size_t length)
{
    union {
        const void *in;
        void *out;
    } same = {bytes};
    struct iovec one = {same.out, length < 500 ? length : 500};
    return stops() ? -1 : writev(to, &one, 1);
}

int fsync(int file)
{
    return stops() ? -1 : fdatasync(file);
}

int rename(const char *from, const char *to)
{
    return stops() ? -1 : renameat(AT_FDCWD, from, AT_FDCWD, to);
}

int link(const char *from, const char *to)
{
    return stops() ? -1 : linkat(AT_FDCWD, from, AT_FDCWD, to, 0);
}

int unlink(const char *path)
{
    return stops() ? -1 : unlinkat(AT_FDCWD, path, 0);
}

/* ---- a subcommand, stopped -------------------------------------------------------------------------------------- */

static char folder[] = "/tmp/eskelvor-keep-XXXXXX";
static char output[64]; /* what the last call wrote to standard output */

/* Runs a subcommand in a process of its own that stops at a step. Gives its status; -1: it was killed. */
static int run_stopped(const subcommand *s, long step, int how, int count, char **words)
{
    int status;
    fflush(NULL);
    pid_t child = fork();
    if (child == 0) {
        if (freopen(output, "wb", stdout) == NULL || freopen("/dev/null", "wb", stderr) == NULL)
            _exit(9);
        steps_left = step;
        way = how;
        status = s->run(count, words);
        status = worse(status, tell_end(status));
        _exit(status);
    }
    HOLD(child > 0 && waitpid(child, &status, 0) == child, "a process of its own");
    return WIFEXITED(status) ? WEXITSTATUS(status) : -1;
}

/* What a file holds. */
static const char *text_of(const char *name)
{
    static uint8_t bytes[2000];
    size_t length = 0;
    HOLD(keep_read(name, bytes, sizeof bytes - 1, &length) == FINE, "the file is there");
    bytes[length] = 0;
    return (const char *)bytes;
}

/* What the call wrote to standard output. */
static const char *said(void)
{
    return text_of(output);
}

/* Every step in turn, until one lies behind the last: then nothing stops. */
static long each_step(int (*stopped)(long, int), int how)
{
    long step = 0, twice = 0;
    while (twice < 2) {
        int status = stopped(step++, how);
        HOLD(how != KILLED || status <= FINE, "killed, or done");
        HOLD(step < 60, "some step is the last");
        twice = status == FINE ? twice + 1 : 0;
    }
    return step - 2;
}

static const char *way_in_words(int how)
{
    return how == KILLED ? "killed" : how == NO_SPACE ? "disk full" : "disk broken";
}

#endif
