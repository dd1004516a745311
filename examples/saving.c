/* Saves a part.met to the disk over the calls of ed2k.h, in the steps of the Rust crate (its module disk): lock, read, ed2k_save or
 * ed2k_save_strict, write, fsync, rename, fsync of the folder. It shares the lock with the crate and the command.
 *
 *     saving [--strict] OPENED NEW STORED
 *
 * OPENED is the copy of what was opened; a file that is not there counts as empty. If STORED is no longer that, NEW is merged with it; with
 * --strict, as the archive job and a model's first save ask, that is a conflict instead. However this is interrupted, STORED is the old or
 * the new file, whole. Ends with 0 if it saved, 1 if the save was refused, 2 if the system did not allow it; then STORED is as it was.
 * Unlike the crate it keeps no extended attributes, and saves nothing where the group cannot be kept. */
#define _DEFAULT_SOURCE
#include <errno.h>
#include <fcntl.h>
#include <limits.h>
#include <stdio.h>
#include <stdlib.h>
#include <string.h>
#include <sys/file.h>
#include <sys/stat.h>
#include <time.h>
#include <unistd.h>

#include "ed2k.h"

/* A part.met has at most 1,048,576 bytes, and so has a merge of two. */
#define ROOM (1048576 + 1)

/* How often to look whether another save has let go of the lock, and the pause between two looks: 10 seconds in all. */
#define LOOKS 1000
static const struct timespec pause_between = {0, 10 * 1000 * 1000};

/* The stored file, and the files beside it that help to save it. */
struct paths {
    char stored[PATH_MAX];
    char folder[PATH_MAX];
    char lock[PATH_MAX + 16];
    char new[PATH_MAX + 16];
};

/* Links are followed, so that all ways to one file have one lock; the file itself need not be there. What is no file, as a pipe, is left
 * alone. */
static int find(const char *path, struct paths *paths)
{
    struct stat found;
    if (realpath(path, paths->stored) == NULL) {
        if (errno != ENOENT || lstat(path, &found) == 0 || strlen(path) >= PATH_MAX)
            return -1;
        strcpy(paths->stored, path);
    } else if (stat(paths->stored, &found) != 0 || !S_ISREG(found.st_mode)) {
        errno = EINVAL;
        return -1;
    }
    const char *slash = strrchr(paths->stored, '/');
    const char *name = slash == NULL ? paths->stored : slash + 1;
    if (slash == NULL)
        strcpy(paths->folder, "./");
    else
        snprintf(paths->folder, sizeof paths->folder, "%.*s", (int)(name - paths->stored), paths->stored);
    int lock = snprintf(paths->lock, sizeof paths->lock, "%s.%s.lock", paths->folder, name);
    int new = snprintf(paths->new, sizeof paths->new, "%s.%s.saving", paths->folder, name);
    return lock < PATH_MAX && new < PATH_MAX ? 0 : -1;
}

/* The lock's file, made if it is not there. Every user may open it, whatever the umask is; a program with several threads makes it
 * otherwise, as the umask is the whole program's. */
static int open_lock(const char *path)
{
    for (;;) {
        int lock = open(path, O_RDWR | O_NOFOLLOW | O_NONBLOCK | O_CLOEXEC);
        if (lock >= 0 || errno != ENOENT)
            return lock;
        mode_t mask = umask(0);
        lock = open(path, O_RDWR | O_CREAT | O_EXCL | O_CLOEXEC, 0666);
        umask(mask);
        if (lock >= 0 || errno != EEXIST)
            return lock;
    }
}

/* Waits for the lock. Its last holder may have removed the file that was opened: only a lock on the one that is there now counts. */
static int take_lock(const char *path)
{
    for (int looks = 0; looks < LOOKS; looks++) {
        int lock = open_lock(path);
        if (lock < 0)
            return -1;
        struct stat ours, there;
        if (flock(lock, LOCK_EX | LOCK_NB) != 0)
            nanosleep(&pause_between, NULL);
        else if (fstat(lock, &ours) == 0 && lstat(path, &there) == 0 && ours.st_dev == there.st_dev && ours.st_ino == there.st_ino)
            return lock;
        close(lock);
    }
    errno = EWOULDBLOCK;
    return -1;
}

/* The bytes of a file, none if it is not there; how many, or -1. One that does not fit is too long for a part.met. */
static ssize_t read_file(const char *path, uint8_t *bytes)
{
    int file = open(path, O_RDONLY | O_CLOEXEC);
    if (file < 0)
        return errno == ENOENT ? 0 : -1;
    size_t length = 0;
    ssize_t got = 0;
    while (length < ROOM && (got = read(file, bytes + length, ROOM - length)) > 0)
        length += (size_t)got;
    close(file);
    if (length == ROOM)
        errno = EFBIG;
    return got < 0 || length == ROOM ? -1 : (ssize_t)length;
}

/* Gives the new file the permissions, the owner and the group of the old one. Who may not give files away keeps the group, so that the
 * owner is not locked out. */
static int keep_rights(int file, const struct stat *old)
{
    if (fchown(file, old->st_uid, old->st_gid) != 0 && fchown(file, (uid_t)-1, old->st_gid) != 0)
        return -1;
    return fchmod(file, old->st_mode & 07777);
}

static int write_all(int file, const uint8_t *bytes, size_t length)
{
    while (length > 0) {
        ssize_t wrote = write(file, bytes, length);
        if (wrote < 0)
            return -1;
        bytes += wrote;
        length -= (size_t)wrote;
    }
    return fsync(file);
}

/* Writes the new file beside the stored one and brings it to the disk. Its rights come before its bytes. */
static int write_new(const struct paths *paths, const uint8_t *bytes, size_t length)
{
    struct stat old;
    int there = stat(paths->stored, &old) == 0;
    if (there && ((old.st_mode & 0222) == 0 || access(paths->stored, W_OK) != 0)) {
        errno = EACCES;
        return -1;
    }
    unlink(paths->new); /* what a killed save left: the lock is ours */
    int file = open(paths->new, O_WRONLY | O_CREAT | O_EXCL | O_CLOEXEC, there ? 0600 : 0666);
    if (file < 0)
        return -1;
    int done = there ? keep_rights(file, &old) : 0;
    if (done == 0)
        done = write_all(file, bytes, length);
    close(file);
    return done;
}

static int sync_folder(const char *path)
{
    int folder = open(path, O_RDONLY | O_DIRECTORY | O_CLOEXEC);
    if (folder < 0)
        return -1;
    int done = fsync(folder);
    close(folder);
    return done;
}

/* Makes the bytes the stored file's: until the renaming it is the old one, from then on the new one. */
static int replace(const struct paths *paths, const uint8_t *bytes, size_t length)
{
    if (write_new(paths, bytes, length) != 0 || rename(paths->new, paths->stored) != 0) {
        int problem = errno;
        unlink(paths->new);
        errno = problem;
        return -1;
    }
    return sync_folder(paths->folder);
}

static int failed(const char *what)
{
    printf("cannot %s: %s\n", what, errno == EWOULDBLOCK ? "another save holds it" : strerror(errno));
    return 2;
}

/* ed2k_save, which merges, or ed2k_save_strict. */
typedef uint8_t save_call(const uint8_t *stored, size_t stored_length, const uint8_t *opened, size_t opened_length, const uint8_t *saved,
                          size_t saved_length, uint8_t *output, size_t room, size_t *written);

/* Under the lock. */
static int save(save_call *call, const struct paths *paths, const uint8_t *opened, size_t opened_length, const uint8_t *new,
                size_t new_length)
{
    static uint8_t stored[ROOM], output[ROOM];
    ssize_t stored_length = read_file(paths->stored, stored);
    if (stored_length < 0)
        return failed("read the stored file");
    size_t length;
    uint8_t number = call(stored, (size_t)stored_length, opened, opened_length, new, new_length, output, sizeof output, &length);
    if (number != 0) {
        printf("refused %u: nothing was written\n", number);
        return 1;
    }
    if (replace(paths, output, length) != 0)
        return failed("save the new file");
    int merged = (size_t)stored_length != opened_length || memcmp(stored, opened, opened_length) != 0;
    printf(merged ? "merged, %zu bytes\n" : "saved %zu bytes\n", length);
    return 0;
}

int main(int count, char **words)
{
    static uint8_t opened[ROOM], new[ROOM];
    struct paths paths;
    int strict = count > 1 && strcmp(words[1], "--strict") == 0;
    words += strict;
    if (count - strict != 4) {
        fprintf(stderr, "usage: saving [--strict] OPENED NEW STORED\n");
        return 2;
    }
    /* They may be pipes: who is waited for must not hold up others, so they are read before the lock is taken. */
    ssize_t opened_length = read_file(words[1], opened);
    ssize_t new_length = read_file(words[2], new);
    if (opened_length < 0 || new_length < 0)
        return failed("read what was opened, or the new file");
    if (find(words[3], &paths) != 0)
        return failed("find the stored file");
    int lock = take_lock(paths.lock);
    if (lock < 0)
        return failed("take the lock");
    save_call *call = strict ? ed2k_save_strict : ed2k_save;
    int ended = save(call, &paths, opened, (size_t)opened_length, new, (size_t)new_length);
    unlink(paths.lock); /* the lock is let go as the file is closed */
    close(lock);
    return ended;
}
