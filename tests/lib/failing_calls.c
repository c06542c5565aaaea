// Counts calls for memory, for bytes and for threads, and fails the one of a number, or lets it move one byte alone.
#define _GNU_SOURCE
#include <dlfcn.h>
#include <errno.h>
#include <pthread.h>
#include <stddef.h>
#include <stdlib.h>
#include <sys/syscall.h>
#include <unistd.h>

extern void *__libc_malloc(size_t size);
extern void *__libc_realloc(void *old, size_t size);
static long memory, bytes, threads;
// with MARKED, the number of marks `>` that were written, whether `<` came since, and the calls for memory behind each
static long marks, inside, marked[4];
static int (*start)(pthread_t *, const pthread_attr_t *, void *(*)(void *), void *);

static long next(long *count) { return __atomic_add_fetch(count, 1, __ATOMIC_SEQ_CST); }

static int is_it(const char *kind, long count) {
    const char *number = getenv(kind);
    return number && atol(number) == count;
}
static int is_refused(void) {
    if (!getenv("MARKED")) return is_it("FAIL_MEMORY", next(&memory));
    if (!inside || marks > 3) return 0;
    return is_it(marks == 1 ? "FAIL_FIRST" : marks == 2 ? "FAIL_SECOND" : "FAIL_THIRD", next(&marked[marks]));
}
static void see(int file, const char *text, size_t count) {
    if (file != 1 || count == 0) return;
    if (text[0] == '>') { marks++; inside = 1; }
    if (text[0] == '<') inside = 0;
}
void *malloc(size_t size) { return is_refused() ? NULL : __libc_malloc(size); }
void *realloc(void *old, size_t size) { return is_refused() ? NULL : __libc_realloc(old, size); }

static ssize_t moved(long call, int file, char *room, size_t count) {
    long number = next(&bytes);
    if (call == SYS_write && getenv("MARKED")) see(file, room, count);
    if (is_it("FAIL_BYTES", number)) { errno = EIO; return -1; }
    if (is_it("SHORT_BYTES", number) && count > 1) count = 1;
    ssize_t done = syscall(call, file, room, count, 0, 0, 0);
    return done;
}
ssize_t read(int file, void *room, size_t count) { return moved(SYS_read, file, room, count); }
ssize_t write(int file, const void *room, size_t count) { return moved(SYS_write, file, (char *)room, count); }
ssize_t __write(int file, const void *room, size_t count) { return moved(SYS_write, file, (char *)room, count); }
ssize_t recv(int file, void *room, size_t count, int flags) { return moved(SYS_recvfrom, file, room, count); }
ssize_t send(int file, const void *room, size_t count, int flags) { return moved(SYS_sendto, file, (char *)room, count); }
int pthread_create(pthread_t *thread, const pthread_attr_t *how, void *(*run)(void *), void *with) {
    return is_it("FAIL_THREADS", next(&threads)) ? EAGAIN : start(thread, how, run, with);
}

__attribute__((constructor)) static void begin(void) {
    start = (int (*)(pthread_t *, const pthread_attr_t *, void *(*)(void *), void *))dlsym(RTLD_NEXT, "pthread_create");
}
__attribute__((destructor)) static void report(void) {
    long counts[3] = {getenv("MARKED") ? marked[1] : memory, bytes, getenv("MARKED") ? marked[2] : threads};
    const char *pipe = getenv("COUNTS");
    if (pipe) syscall(SYS_write, atoi(pipe), counts, sizeof counts);
}
// by which a program with threads ends, and no destructor is called
void _exit(int status) {
    report();
    for (;;) syscall(SYS_exit_group, status);
}
