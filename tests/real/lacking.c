// A library that is loaded before the program's own (LD_PRELOAD): a file system that lacks something. The environment's HGTRACK_LACKS says what, in two words:
//
//     flock ERROR          no file can be locked
//     flock-read ERROR     none can that isn't open for writing
//     sync-folder ERROR    no folder can be made sure
//     sync-file ERROR      no file can
#define _GNU_SOURCE
#include <errno.h>
#include <fcntl.h>
#include <stdio.h>
#include <stdlib.h>
#include <string.h>
#include <sys/stat.h>
#include <sys/syscall.h>
#include <unistd.h>

static char what[16];
static int error;

__attribute__((constructor)) static void start(void) {
    const char *told = getenv("HGTRACK_LACKS");
    if (!told || sscanf(told, "%15s %d", what, &error) != 2) what[0] = 0;
}

static int lacks(const char *name) {
    return !strcmp(what, name);
}

static int refused(void) {
    errno = error;
    return -1;
}

int flock(int file, int operation) {
    if (lacks("flock")) return refused();
    if (lacks("flock-read") && (syscall(SYS_fcntl, file, F_GETFL) & O_ACCMODE) == O_RDONLY) return refused();
    return syscall(SYS_flock, file, operation);
}

static int made_sure(int file, long call) {
    struct stat it;
    if (lacks("sync-folder") && !fstat(file, &it) && S_ISDIR(it.st_mode)) return refused();
    if (lacks("sync-file") && !fstat(file, &it) && S_ISREG(it.st_mode)) return refused();
    return syscall(call, file);
}

int fsync(int file) {
    return made_sure(file, SYS_fsync);
}

int fdatasync(int file) {
    return made_sure(file, SYS_fdatasync);
}
