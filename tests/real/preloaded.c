// A library that is loaded before the program's own (LD_PRELOAD), and counts its calls of the C library below `.hg`. The environment's
// HGTRACK_CALLS says what is to be done, in four words; ROOT is the last, and ends where the text does:
//
//     list FD 0 ROOT        writes each call to FD, a line each: NAME TEXT, with the name of the system's call
//     before N 0 ROOT       kills the program before the Nth, counted from 1
//     after N 0 ROOT        kills it when the Nth is done
//     fail N ERROR ROOT     does the Nth not, and answers that error
//
// A call counts where a path that it is given has a component `.hg`, or is the folder ROOT, or where the file that it is given is such a
// one. A path that is told from the current folder has that in front. Where the environment's HGTRACK_WHERE is `tree`, a call counts that touches
// ROOT or what is below it, but nothing below `.hg`. What the library does itself goes past the C library's names, and isn't counted.
#define _GNU_SOURCE
#include <dirent.h>
#include <dlfcn.h>
#include <errno.h>
#include <fcntl.h>
#include <limits.h>
#include <signal.h>
#include <stdarg.h>
#include <stdio.h>
#include <stdlib.h>
#include <string.h>
#include <sys/file.h>
#include <sys/stat.h>
#include <sys/syscall.h>
#include <sys/uio.h>
#include <unistd.h>

enum what { NOTHING, LIST, BEFORE, AFTER, FAIL };

static enum what wanted;
static long number, seen;
static int error, in_tree;
static const char *root = "";

__attribute__((constructor)) static void start(void) {
    static const char *const NAMES[] = {"", "list", "before", "after", "fail"};
    const char *told = getenv("HGTRACK_CALLS"), *where = getenv("HGTRACK_WHERE");
    char name[8];
    int end = 0;
    if (!told || sscanf(told, "%7s %ld %d %n", name, &number, &error, &end) != 3 || !end) return;
    root = told + end;
    in_tree = where && !strcmp(where, "tree");
    for (enum what it = LIST; it <= FAIL; it++)
        if (!strcmp(name, NAMES[it])) wanted = it;
}

static void stop(void) {
    syscall(SYS_kill, syscall(SYS_getpid), SIGKILL);
}

static int has_hg(const char *path) {
    for (const char *at = path; (at = strstr(at, ".hg")); at += 3)
        if ((at == path || at[-1] == '/') && (at[3] == '/' || !at[3])) return 1;
    return 0;
}

// Whether what touches a path counts.
static int is_below(const char *path) {
    size_t n = strlen(root);
    int is_root = !strcmp(path, root);
    if (!in_tree) return is_root || has_hg(path);
    return is_root || (!strncmp(path, root, n) && path[n] == '/' && !has_hg(path));
}

// A path from the top.
static const char *absolute(const char *path, char *room) {
    if (path[0] == '/') return path;
    ssize_t n = syscall(SYS_readlink, "/proc/self/cwd", room, PATH_MAX - 1);
    if (n < 0) return path;
    snprintf(room + n, PATH_MAX - n, "/%s", path);
    return room;
}

// What a call touches below `.hg`: a path that it was given, or else that of the open file; none where it touches nothing there.
static const char *touched(const char *path, const char *other_path, int file) {
    static char text[PATH_MAX], from_top[PATH_MAX], other_from_top[PATH_MAX];
    char link[64];
    if (path) path = *path ? absolute(path, from_top) : 0;
    if (other_path) other_path = absolute(other_path, other_from_top);
    if (path && is_below(path)) return path;
    if (other_path && is_below(other_path)) return other_path;
    if (file < 0) return 0;
    snprintf(link, sizeof link, "/proc/self/fd/%d", file);
    ssize_t n = syscall(SYS_readlink, link, text, sizeof text - 1);
    text[n < 0 ? 0 : n] = 0;
    return is_below(text) ? text : 0;
}

// Counts a call, and answers what is to be done with it. The program is stopped here where that is before it.
static enum what met(const char *name, const char *path, const char *other_path, int file) {
    const char *text = wanted ? touched(path, other_path, file) : 0;
    if (!text) return NOTHING;
    if (wanted == LIST) {
        struct iovec row[] = {{(void *)name, strlen(name)}, {" ", 1}, {(void *)text, strlen(text)}, {"\n", 1}};
        if (syscall(SYS_writev, number, row, 4) < 0) stop();
        return NOTHING;
    }
    if (++seen != number) return NOTHING;
    if (wanted == BEFORE) stop();
    return wanted;
}

// Defines a call of the C library: its type, its name and that of the system's call, its parameters, its arguments, and which of these are
// paths and an open file, 0 and -1 for none.
#define CALL(type, name, system_name, parameters, arguments, path, other_path, file) \
    type name parameters {                                                          \
        static type(*real) parameters;                                              \
        if (!real) real = (type(*) parameters)dlsym(RTLD_NEXT, #name);              \
        enum what it = met(system_name, path, other_path, file);                    \
        if (it == FAIL) {                                                           \
            errno = error;                                                          \
            return -1;                                                              \
        }                                                                           \
        type answer = real arguments;                                               \
        if (it == AFTER) stop();                                                    \
        return answer;                                                              \
    }

// The same of a call that opens a file, and takes its rights where it may make it.
#define OPEN(name, parameters, arguments, path, file)                                \
    int name parameters {                                                           \
        static int(*real) parameters;                                               \
        if (!real) real = (int(*) parameters)dlsym(RTLD_NEXT, #name);               \
        va_list more;                                                               \
        va_start(more, flags);                                                      \
        mode_t mode = flags & (O_CREAT | O_TMPFILE) ? va_arg(more, mode_t) : 0;     \
        va_end(more);                                                               \
        enum what it = met("openat", path, 0, file);                                \
        if (it == FAIL) {                                                           \
            errno = error;                                                          \
            return -1;                                                              \
        }                                                                           \
        int answer = real arguments;                                                \
        if (it == AFTER) stop();                                                    \
        return answer;                                                              \
    }

OPEN(open, (const char *path, int flags, ...), (path, flags, mode), path, -1)
OPEN(open64, (const char *path, int flags, ...), (path, flags, mode), path, -1)
OPEN(openat, (int at, const char *path, int flags, ...), (at, path, flags, mode), path, at)
OPEN(openat64, (int at, const char *path, int flags, ...), (at, path, flags, mode), path, at)

CALL(int, statx, "statx", (int at, const char *path, int flags, unsigned mask, struct statx *to), (at, path, flags, mask, to), path, 0, at)
CALL(int, stat, "newfstatat", (const char *path, struct stat *to), (path, to), path, 0, -1)
CALL(int, stat64, "newfstatat", (const char *path, struct stat64 *to), (path, to), path, 0, -1)
CALL(int, lstat, "newfstatat", (const char *path, struct stat *to), (path, to), path, 0, -1)
CALL(int, lstat64, "newfstatat", (const char *path, struct stat64 *to), (path, to), path, 0, -1)
CALL(int, fstat, "newfstatat", (int file, struct stat *to), (file, to), 0, 0, file)
CALL(int, fstat64, "newfstatat", (int file, struct stat64 *to), (file, to), 0, 0, file)
CALL(int, fstatat, "newfstatat", (int at, const char *path, struct stat *to, int flags), (at, path, to, flags), path, 0, at)
CALL(int, fstatat64, "newfstatat", (int at, const char *path, struct stat64 *to, int flags), (at, path, to, flags), path, 0, at)
CALL(int, access, "access", (const char *path, int mode), (path, mode), path, 0, -1)
CALL(ssize_t, readlink, "readlink", (const char *path, char *to, size_t room), (path, to, room), path, 0, -1)
CALL(int, mkdir, "mkdir", (const char *path, mode_t mode), (path, mode), path, 0, -1)
CALL(int, rmdir, "rmdir", (const char *path), (path), path, 0, -1)
CALL(int, unlink, "unlink", (const char *path), (path), path, 0, -1)
CALL(int, rename, "rename", (const char *from, const char *to), (from, to), from, to, -1)
CALL(int, link, "link", (const char *from, const char *to), (from, to), from, to, -1)
CALL(int, symlink, "symlink", (const char *target, const char *path), (target, path), path, 0, -1)
CALL(int, chmod, "chmod", (const char *path, mode_t mode), (path, mode), path, 0, -1)
CALL(int, fchmod, "fchmod", (int file, mode_t mode), (file, mode), 0, 0, file)
CALL(int, ftruncate, "ftruncate", (int file, off_t size), (file, size), 0, 0, file)
CALL(int, ftruncate64, "ftruncate", (int file, off64_t size), (file, size), 0, 0, file)
CALL(int, futimens, "utimensat", (int file, const struct timespec times[2]), (file, times), 0, 0, file)
CALL(int, chdir, "chdir", (const char *path), (path), path, 0, -1)
CALL(ssize_t, getdents64, "getdents64", (int file, void *to, size_t room), (file, to, room), 0, 0, file)
CALL(ssize_t, read, "read", (int file, void *to, size_t room), (file, to, room), 0, 0, file)
CALL(ssize_t, pread, "pread64", (int file, void *to, size_t room, off_t from), (file, to, room, from), 0, 0, file)
CALL(ssize_t, pread64, "pread64", (int file, void *to, size_t room, off64_t from), (file, to, room, from), 0, 0, file)
CALL(ssize_t, write, "write", (int file, const void *from, size_t n), (file, from, n), 0, 0, file)
CALL(ssize_t, writev, "writev", (int file, const struct iovec *from, int n), (file, from, n), 0, 0, file)
CALL(ssize_t, pwrite, "pwrite64", (int file, const void *from, size_t n, off_t to), (file, from, n, to), 0, 0, file)
CALL(ssize_t, pwrite64, "pwrite64", (int file, const void *from, size_t n, off64_t to), (file, from, n, to), 0, 0, file)
CALL(off_t, lseek, "lseek", (int file, off_t place, int whence), (file, place, whence), 0, 0, file)
CALL(off64_t, lseek64, "lseek", (int file, off64_t place, int whence), (file, place, whence), 0, 0, file)
CALL(int, fsync, "fsync", (int file), (file), 0, 0, file)
CALL(int, fdatasync, "fdatasync", (int file), (file), 0, 0, file)
CALL(int, flock, "flock", (int file, int operation), (file, operation), 0, 0, file)
CALL(int, close, "close", (int file), (file), 0, 0, file)
