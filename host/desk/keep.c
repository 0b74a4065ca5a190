#define _GNU_SOURCE /* statx, whose record has one layout on every processor */
#include "keep.h"

#include <errno.h>
#include <fcntl.h>
#include <stdio.h>
#include <stdlib.h>
#include <string.h>
#include <sys/stat.h>
#include <time.h>
#include <unistd.h>

enum { WAITS_A_SECOND = 50 };

/* O_NOFOLLOW: built for x86-64 by another machine's headers, the number there is another. */
#ifdef __x86_64__
enum { NO_LINK = 0400000 };
#else
enum { NO_LINK = O_NOFOLLOW };
#endif

enum { ANY_MAY_WRITE = 0222 };

/* The names beside the kept file. Gives whether they fit. */
static int name_all(kept *k)
{
    const char *slash = strrchr(k->path, '/');
    const char *base = slash ? slash + 1 : k->path;
    int before = (int)(base - k->path);
    int a = snprintf(k->fresh, PATH_ROOM, "%.*s.%s.eskelvor-new", before, k->path, base);
    int b = snprintf(k->lock, PATH_ROOM, "%.*s.%s.eskelvor-lock", before, k->path, base);
    int c = snprintf(k->folder, PATH_ROOM, "%.*s", before ? before : 1, before ? k->path : ".");
    return a < PATH_ROOM && b < PATH_ROOM && c < PATH_ROOM;
}

/* The file's own path, where a link leads to it. */
static int find_path(kept *k, const char *file)
{
    char *real = realpath(file, NULL);
    int length = snprintf(k->path, PATH_ROOM, "%s", real ? real : file);
    free(real);
    if (length >= PATH_ROOM || !name_all(k))
        return trouble(file, "the path is too long");
    return FINE;
}

/* Waits for the lock; 0 where another writer keeps it. */
static int take_lock(int lock, long wait)
{
    struct timespec pause = {0, 1000000000 / WAITS_A_SECOND};
    for (long left = wait * WAITS_A_SECOND; lockf(lock, F_TLOCK, 0) != 0; left--) {
        if ((errno != EACCES && errno != EAGAIN && errno != EINTR) || left <= 0)
            return 0;
        nanosleep(&pause, NULL);
    }
    return 1;
}

/* What there is to know of a file. Gives 1 where it is there; 0 where not, or where the system cannot tell; else -1, with
 * errno. */
static int look_at(const char *path, struct statx *s)
{
    if (statx(AT_FDCWD, path, 0, STATX_BASIC_STATS, s) == 0)
        return 1;
    return errno == ENOENT || errno == ENOSYS ? 0 : -1;
}

/* Gives an open file the kept one's group and mode, and its owner where the system lets this user give a file away. */
static int give_rights(int file, const struct statx *s)
{
    if (fchown(file, s->stx_uid, s->stx_gid) != 0 && fchown(file, (uid_t)-1, s->stx_gid) != 0)
        return 0;
    return fchmod(file, s->stx_mode & 0777) == 0;
}

/* Whether the lock file is a file under this one name: under another it may be anything of another user's. */
static int is_own_file(int lock)
{
    struct statx s;
    return statx(lock, "", AT_EMPTY_PATH, STATX_BASIC_STATS, &s) == 0 && S_ISREG(s.stx_mode) && s.stx_nlink == 1;
}

/* Those who may write the kept file may take its lock. Another user's lock file cannot be given other rights: it is
 * then as it was, and holds as well. */
static void share_lock(const kept *k)
{
    struct statx s;
    if (look_at(k->path, &s) != 1 || (s.stx_mode & ANY_MAY_WRITE) == 0 || !is_own_file(k->locked))
        return;
    int shared = give_rights(k->locked, &s);
    (void)shared;
}

int keep_hold(kept *k, const char *file, long wait)
{
    k->name = file;
    k->like = NULL;
    k->locked = -1;
    if (find_path(k, file) != FINE)
        return TROUBLE;
    k->locked = open(k->lock, O_RDWR | O_CREAT | O_CLOEXEC | NO_LINK, 0666);
    if (k->locked < 0 && errno == ELOOP)
        return trouble(k->lock, "the lock file is a link, and is not followed");
    if (k->locked < 0)
        return failed(file, "open its lock file");
    share_lock(k);
    if (take_lock(k->locked, wait))
        return FINE;
    if (errno == EACCES || errno == EAGAIN)
        return trouble(file, "another program is writing it; --wait SECONDS waits longer");
    return failed(file, "lock");
}

/* Writes all the bytes, however many the system takes at a time. */
static int write_all(int to, const uint8_t *bytes, size_t length)
{
    while (length > 0) {
        ssize_t written = write(to, bytes, length);
        if (written < 0 && errno != EINTR)
            return 0;
        if (written > 0) {
            bytes += written;
            length -= (size_t)written;
        }
    }
    return 1;
}

/* What a killed writer left of a new file. */
static int remove_left(const kept *k)
{
    return unlink(k->fresh) == 0 || errno == ENOENT ? FINE : failed(k->fresh, "remove");
}

/* A creation that was killed leaves the new file as a second name, so that is removed before names are counted. */
int keep_may_replace(const kept *k)
{
    struct statx s;
    if (remove_left(k) != FINE)
        return TROUBLE;
    int there = look_at(k->path, &s);
    if (there < 0)
        return failed(k->name, "look at");
    if (there && s.stx_nlink > 1)
        return trouble(k->name, "it has a second name, a hard link, which would part from it; it is left as it is");
    if (there && ((s.stx_mode & ANY_MAY_WRITE) == 0 || access(k->path, W_OK) != 0))
        return trouble(k->name, "it may not be written; it is left as it is");
    return FINE;
}

int keep_write(kept *k, const uint8_t *bytes, size_t length)
{
    struct statx old;
    if (remove_left(k) != FINE)
        return TROUBLE;
    int there = look_at(k->path, &old);
    if (there == 0 && k->like != NULL)
        there = look_at(k->like, &old);
    if (there < 0)
        return failed(k->name, "look at");
    int fresh = open(k->fresh, O_WRONLY | O_CREAT | O_EXCL | O_CLOEXEC, there ? 0600 : 0666);
    if (fresh < 0)
        return failed(k->name, "make the new file beside it");
    int fine = (!there || give_rights(fresh, &old)) && write_all(fresh, bytes, length) && fsync(fresh) == 0;
    int why = errno;
    if (close(fresh) != 0 && fine) {
        fine = 0;
        why = errno;
    }
    if (fine)
        return FINE;
    errno = why;
    failed(k->name, "write the new file beside it");
    keep_drop(k);
    return TROUBLE;
}

/* The folder's entry for the file is flushed to disk; some file systems cannot, and say EINVAL. */
static int flush_folder(const kept *k)
{
    int folder = open(k->folder, O_RDONLY | O_CLOEXEC);
    if (folder < 0)
        return failed(k->name, "flush its folder; the new file is in place");
    int fine = fsync(folder) == 0 || errno == EINVAL;
    int why = errno;
    close(folder);
    errno = why;
    return fine ? FINE : failed(k->name, "flush its folder; the new file is in place");
}

int keep_replace(kept *k)
{
    if (rename(k->fresh, k->path) == 0)
        return flush_folder(k);
    failed(k->name, "put the new file in place");
    keep_drop(k);
    return TROUBLE;
}

static int is_there(const char *file)
{
    return trouble(file, "there is a file of this name already; it is left as it is");
}

int keep_create(kept *k)
{
    int fine = link(k->fresh, k->path) == 0;
    if (!fine && errno == EEXIST)
        is_there(k->name);
    else if (!fine)
        failed(k->name, "put the new file in place");
    keep_drop(k);
    return fine ? flush_folder(k) : TROUBLE;
}

int keep_new(const char *file, const uint8_t *bytes, size_t length, const char *like, long wait)
{
    kept k;
    if (access(file, F_OK) == 0) /* it may be one that this program holds already: its lock is not touched */
        return is_there(file);
    int status = keep_hold(&k, file, wait);
    k.like = like;
    if (status == FINE)
        status = keep_write(&k, bytes, length);
    if (status == FINE)
        status = keep_create(&k);
    keep_release(&k);
    return status;
}

void keep_drop(kept *k)
{
    unlink(k->fresh);
}

void keep_release(kept *k)
{
    if (k->locked >= 0)
        close(k->locked);
    k->locked = -1;
}

int keep_read(const char *file, uint8_t *bytes, size_t room, size_t *length)
{
    FILE *from = fopen(file, "rb");
    if (from == NULL)
        return failed(file, "open");
    *length = fread(bytes, 1, room, from);
    int status = ferror(from) ? failed(file, "read") : FINE;
    fclose(from);
    return status;
}
