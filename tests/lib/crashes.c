// Counts the calls on a journal, of which one isn't made, is made by half or fails, and notes how much of it is synced.
#define _GNU_SOURCE
#include <dlfcn.h>
#include <errno.h>
#include <fcntl.h>
#include <signal.h>
#include <stdarg.h>
#include <stdio.h>
#include <stdlib.h>
#include <string.h>
#include <sys/mman.h>
#include <sys/stat.h>
#include <sys/syscall.h>
#include <sys/uio.h>
#include <unistd.h>

// what the script sees of it, also after the end: calls, and the bytes of the journal that are synced
static struct { long calls, synced; } *seen;
// the bytes that are synced of a file that is made beside the journal
static long beside;
static long at;
static const char *how, *journal;

__attribute__((constructor)) static void begin(void) {
    const char *path = getenv("SEEN"), *number = getenv("AT");
    journal = getenv("JOURNAL");
    how = getenv("HOW");
    at = number ? atol(number) : 0;
    if (path) {
        int file = syscall(SYS_openat, AT_FDCWD, path, O_RDWR);
        seen = mmap(NULL, 4096, PROT_READ | PROT_WRITE, MAP_SHARED, file, 0);
        syscall(SYS_close, file);
    }
}
enum { OTHER, JOURNAL, BESIDE, FOLDER };
// whether a descriptor is the journal, a file that is made beside it, or their folder. A file whose name is gone has got the journal's
static int is_kept(int file) {
    char name[64], path[4096];
    if (!seen) return OTHER;
    snprintf(name, sizeof name, "/proc/self/fd/%d", file);
    long size = readlink(name, path, sizeof path - 1);
    if (size <= 0) return OTHER;
    path[size] = 0;
    size_t length = strlen(journal);
    if (strncmp(path, journal, length) == 0) return path[length] == 0 || strstr(path, " (deleted)") ? JOURNAL : BESIDE;
    const char *slash = strrchr(journal, '/');
    return slash && (size_t)size == (size_t)(slash - journal) && strncmp(path, journal, size) == 0 ? FOLDER : OTHER;
}
// the name of a file beside the journal, which the script reads
static const char *named(const char *ending) {
    static char path[4096];
    snprintf(path, sizeof path, "%s%s", journal, ending);
    return path;
}
static void die(void) { syscall(SYS_kill, syscall(SYS_getpid), SIGKILL); for (;;) pause(); }
// counts a call: 0 where it is to be made, 1 where it is to be made by half, and 2 where it fails
static int now(void) {
    if (__atomic_add_fetch(&seen->calls, 1, __ATOMIC_SEQ_CST) != at) return 0;
    if (strcmp(how, "stop") == 0) die();
    return strcmp(how, "tear") == 0 ? 1 : 2;
}
static long fails(int error) { errno = error; return -1; }
static long put(long result) {
    if (result < 0 && result > -4096) return fails(-result);
    return result;
}
static long real(long number, long a, long b, long c, long d) {
    return syscall(number, a, b, c, d);
}
static ssize_t written(long number, int file, const void *room, size_t count, off_t place) {
    if (is_kept(file)) {
        int what = now();
        if (what == 2) return fails(ENOSPC);
        if (what == 1) { real(number, file, (long)room, count / 2, place); die(); }
    }
    return real(number, file, (long)room, count, place);
}
ssize_t write(int file, const void *room, size_t count) { return written(SYS_write, file, room, count, 0); }
ssize_t pwrite(int file, const void *room, size_t count, off_t place) { return written(SYS_pwrite64, file, room, count, place); }
ssize_t pwrite64(int file, const void *room, size_t count, off_t place) { return written(SYS_pwrite64, file, room, count, place); }
ssize_t writev(int file, const struct iovec *rooms, int count) {
    if (!is_kept(file)) return real(SYS_writev, file, (long)rooms, count, 0);
    return written(SYS_write, file, rooms[0].iov_base, rooms[0].iov_len, 0);
}
static int synced(long number, int file) {
    struct stat size;
    int is = is_kept(file);
    if (is) {
        int what = now();
        if (what == 2) return fails(EIO);
        if (what == 1) die();
        fstat(file, &size);
    }
    int result = put(real(number, file, 0, 0, 0));
    if (result == 0 && is == JOURNAL) seen->synced = size.st_size;
    if (result == 0 && is == BESIDE) beside = size.st_size;
    if (result == 0 && is == FOLDER) {
        // the names in it are kept from now on
        unlink(named(".lost"));
        unlink(named(".unnamed"));
    }
    return result;
}
int fsync(int file) { return synced(SYS_fsync, file); }
int fdatasync(int file) { return synced(SYS_fdatasync, file); }
static int cut(int file, off_t size) {
    if (is_kept(file)) {
        int what = now();
        if (what == 2) return fails(EIO);
        // by half: to a length between both
        struct stat old;
        fstat(file, &old);
        if (what == 1) { real(SYS_ftruncate, file, (old.st_size + size) / 2, 0, 0); die(); }
        if (size < seen->synced) seen->synced = size;
    }
    return real(SYS_ftruncate, file, size, 0, 0);
}
int ftruncate(int file, off_t size) { return cut(file, size); }
int ftruncate64(int file, off_t size) { return cut(file, size); }
int rename(const char *old, const char *new) {
    if (seen && strncmp(old, journal, strlen(journal)) == 0) {
        int what = now();
        if (what == 2) return fails(EIO);
        // until the folder is synced, the name may be that of the old file again
        unlink(named(".lost"));
        syscall(SYS_link, new, named(".lost"));
        seen->synced = beside;
        if (what == 1) { real(SYS_rename, (long)old, (long)new, 0, 0); die(); }
    }
    return real(SYS_rename, (long)old, (long)new, 0, 0);
}
// until the folder is synced, a new name may be lost
static int linked(const char *old, const char *new) {
    if (seen && strcmp(new, journal) == 0) {
        int what = now();
        if (what == 2) return fails(EIO);
        syscall(SYS_close, syscall(SYS_openat, AT_FDCWD, named(".unnamed"), O_CREAT | O_WRONLY, 0600));
        seen->synced = beside;
        int result = real(SYS_link, (long)old, (long)new, 0, 0);
        if (what == 1) die();
        return result;
    }
    return real(SYS_link, (long)old, (long)new, 0, 0);
}
int link(const char *old, const char *new) { return linked(old, new); }
int linkat(int from, const char *old, int to, const char *new, int flags) {
    if (from == AT_FDCWD && to == AT_FDCWD) return linked(old, new);
    return syscall(SYS_linkat, from, old, to, new, flags);
}
// one that makes a file counts
static int opened(const char *path, int flags, int mode) {
    if (seen && (flags & O_CREAT) && strncmp(path, journal, strlen(journal)) == 0) {
        int what = now();
        if (what == 2) return fails(EACCES);
        if (what == 1) { real(SYS_openat, AT_FDCWD, (long)path, flags, mode); die(); }
    }
    return real(SYS_openat, AT_FDCWD, (long)path, flags, mode);
}
int open(const char *path, int flags, ...) {
    va_list rest;
    va_start(rest, flags);
    int mode = va_arg(rest, int);
    va_end(rest);
    return opened(path, flags, mode);
}
int open64(const char *path, int flags, ...) {
    va_list rest;
    va_start(rest, flags);
    int mode = va_arg(rest, int);
    va_end(rest);
    return opened(path, flags, mode);
}
