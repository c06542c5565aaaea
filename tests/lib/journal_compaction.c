// Where the new file has got the journal's path, the rename itself, or the sync of the folder behind it, is reported as failed.
#define _GNU_SOURCE
#include <errno.h>
#include <stdlib.h>
#include <string.h>
#include <sys/stat.h>
#include <sys/syscall.h>
#include <unistd.h>
static int has_renamed;
static int is_failing(const char *call) { const char *named = getenv("FAILING"); return named && strcmp(named, call) == 0; }
int rename(const char *old, const char *new) {
    if (syscall(SYS_rename, old, new) != 0) return -1;
    has_renamed = 1;
    if (!is_failing("rename")) return 0;
    errno = EIO;
    return -1;
}
int fsync(int file) {
    struct stat found;
    if (has_renamed && is_failing("fsync") && fstat(file, &found) == 0 && S_ISDIR(found.st_mode)) { errno = EIO; return -1; }
    return syscall(SYS_fsync, file);
}
