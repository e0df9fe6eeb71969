/* Notes each call by which the program changes a folder, and stops it at one of them. It is loaded before the C
 * library (LD_PRELOAD). Files are told by their names: those of a disk are f and a number, and all else is left alone.
 *
 * NOTES  the file that the calls are noted in, each before it is made: `made NAME`, `write NAME AT LENGTH` and the
 *        bytes, `sync NAME`, with `.` for the folder; `stop` stands before the one that was not made
 * STOP   `kill R C` or `fail R C`: of the calls after R replies on standard output the C-th (from 1) is not made.
 *        The program is killed, or this call and each later one fail
 *
 * Nothing is synced: what a sync would have reached follows from the notes. */
#define _GNU_SOURCE
#include <dlfcn.h>
#include <errno.h>
#include <fcntl.h>
#include <signal.h>
#include <stdarg.h>
#include <stdio.h>
#include <stdlib.h>
#include <string.h>
#include <sys/stat.h>
#include <unistd.h>

#define FILES 1024
#define NAME 16

static char names[FILES][NAME];   /* by descriptor; empty where it is none of the folder */
static int notes = -1;
static int kills, fails;
static long replies_left, calls_left;   /* until the stop */

#define REAL(name) ((__typeof__(&name))real(#name))

static void *real(const char *name) {
    void *found = dlsym(RTLD_NEXT, name);
    if (!found) abort();
    return found;
}

__attribute__((constructor)) static void begin(void) {
    const char *path = getenv("NOTES"), *stop = getenv("STOP");
    char how[5] = "";
    if (path) {
        int low = REAL(open)(path, O_WRONLY | O_CREAT | O_TRUNC | O_CLOEXEC, 0600);
        notes = fcntl(low, F_DUPFD_CLOEXEC, FILES);   /* the program finds the descriptors that it would find */
        if (notes < 0) notes = fcntl(low, F_DUPFD_CLOEXEC, 200);
        REAL(close)(low);
    }
    if (stop && sscanf(stop, "%4s %ld %ld", how, &replies_left, &calls_left) == 3) {
        kills = !strcmp(how, "kill");
        fails = !kills;
    }
}

static void note(const char *text, const void *bytes, size_t count) {
    char line[80];
    int length = snprintf(line, sizeof line, "%s\n", text);
    REAL(write)(notes, line, (size_t)length);
    if (count) REAL(write)(notes, bytes, count);
}

/* Whether this changing call is to fail. It is noted, and may be the last that the program makes. */
static int is_stopped(const char *text, const void *bytes, size_t count) {
    int stops = (kills || fails) && replies_left <= 0 && --calls_left <= 0;
    if (stops) note("stop", NULL, 0);
    note(text, bytes, count);
    if (stops && kills) {
        kill(getpid(), SIGKILL);
        for (;;) pause();
    }
    if (stops) errno = EIO;
    return stops;
}

/* The name in the folder of what is open there, or an empty one. */
static const char *name_of(int file) { return file >= 0 && file < FILES && notes >= 0 ? names[file] : ""; }

/* ---- opening */

static void name(int file, const char *path, int is_folder) {
    const char *last = strrchr(path, '/');
    last = last ? last + 1 : path;
    if (file < 0 || file >= FILES) return;
    names[file][0] = 0;
    if (is_folder) strcpy(names[file], ".");
    else if (last[0] == 'f' && last[1] && strspn(last + 1, "0123456789") == strlen(last + 1) && strlen(last) < NAME)
        strcpy(names[file], last);
}

static int is_folder(int file) {
    struct stat seen;
    return file >= 0 && !fstat(file, &seen) && S_ISDIR(seen.st_mode);
}

static int opened(int at, const char *path, int flags, mode_t mode) {
    char text[64];
    const char *last = strrchr(path, '/');
    int file;
    if (notes >= 0 && (flags & O_CREAT) && faccessat(at, path, F_OK, 0)) {
        snprintf(text, sizeof text, "made %.40s", last ? last + 1 : path);
        if (is_stopped(text, NULL, 0)) return -1;
    }
    file = REAL(openat)(at, path, flags, mode);
    if (notes >= 0) name(file, path, is_folder(file));
    return file;
}

#define MODE(flags) \
    mode_t mode = 0; \
    va_list rest; \
    va_start(rest, flags); \
    if ((flags) & O_CREAT) mode = va_arg(rest, mode_t); \
    va_end(rest);

int open(const char *path, int flags, ...) { MODE(flags) return opened(AT_FDCWD, path, flags, mode); }
int open64(const char *path, int flags, ...) { MODE(flags) return opened(AT_FDCWD, path, flags, mode); }
int openat(int at, const char *path, int flags, ...) { MODE(flags) return opened(at, path, flags, mode); }
int openat64(int at, const char *path, int flags, ...) { MODE(flags) return opened(at, path, flags, mode); }

int close(int file) {
    if (name_of(file)[0]) names[file][0] = 0;
    return REAL(close)(file);
}

/* ---- changing */

static ssize_t written(int file, const void *bytes, size_t count, off_t at) {
    char text[64];
    if (name_of(file)[0]) {
        snprintf(text, sizeof text, "write %s %lld %zu", names[file], (long long)at, count);
        if (is_stopped(text, bytes, count)) return -1;
    }
    return REAL(pwrite)(file, bytes, count, at);
}

ssize_t pwrite(int file, const void *bytes, size_t count, off_t at) { return written(file, bytes, count, at); }
ssize_t pwrite64(int file, const void *bytes, size_t count, off_t at) { return written(file, bytes, count, at); }

static int synced(int file, int (*sync)(int)) {
    char text[64];
    if (!name_of(file)[0]) return sync(file);
    snprintf(text, sizeof text, "sync %s", names[file]);
    return is_stopped(text, NULL, 0) ? -1 : 0;
}

int fsync(int file) { return synced(file, REAL(fsync)); }
int fdatasync(int file) { return synced(file, REAL(fdatasync)); }

/* ---- replies: the lines on standard output that are no reports */

ssize_t write(int file, const void *bytes, size_t count) {
    const char *line = bytes, *end = line + count;
    ssize_t done;
    if (name_of(file)[0]) abort();   /* such a write has its place */
    done = REAL(write)(file, bytes, count);
    if (file != STDOUT_FILENO) return done;
    while (line < end) {
        const char *feed = memchr(line, '\n', (size_t)(end - line));
        if (!feed) break;
        if (feed - line < 7 || memcmp(line, "report ", 7)) replies_left--;
        line = feed + 1;
    }
    return done;
}
