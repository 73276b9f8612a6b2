// Runs a program and watches its system calls below `.hg` by ptrace, however they are made:
//
//     calls FD list ROOT PROGRAM WORD ..       writes each of them to FD, a line each: NAME TEXT
//     calls FD hold N ROOT PROGRAM WORD ..     stops the program before the Nth, counted from 1, writes a line to FD, and goes on at the
//                                              end of the standard input; N may also be `CALL FRONT`: the first call of that name that
//                                              touches a file whose own name begins so
//
// A call counts where a path that it is given has a component `.hg`, or is the folder ROOT, or where the file that it is given is such a
// one. A path that is told from the program's current folder has that in front. Where the environment's HGTRACK_WHERE is `tree`, a call counts that
// touches ROOT or what is below it, but nothing below `.hg`. It ends as the program does; with 99 where the system doesn't let a program be watched.
#define _GNU_SOURCE
#include <errno.h>
#include <fcntl.h>
#include <limits.h>
#include <signal.h>
#include <stdio.h>
#include <stdlib.h>
#include <string.h>
#include <sys/ptrace.h>
#include <sys/resource.h>
#include <sys/syscall.h>
#include <sys/uio.h>
#include <sys/user.h>
#include <sys/wait.h>
#include <unistd.h>

// Of each call: its number and name, which arguments are paths, and which are open files; -1 is none.
static const struct known { long number; const char *name; int path, other_path, file; } KNOWN[] = {
    {SYS_open, "open", 0, -1, -1}, {SYS_openat, "openat", 1, -1, 0}, {SYS_creat, "creat", 0, -1, -1},
    {SYS_stat, "stat", 0, -1, -1}, {SYS_lstat, "lstat", 0, -1, -1}, {SYS_fstat, "fstat", -1, -1, 0},
    {SYS_newfstatat, "newfstatat", 1, -1, 0}, {SYS_statx, "statx", 1, -1, 0}, {SYS_access, "access", 0, -1, -1},
    {SYS_faccessat, "faccessat", 1, -1, 0}, {SYS_readlink, "readlink", 0, -1, -1}, {SYS_readlinkat, "readlinkat", 1, -1, 0},
    {SYS_mkdir, "mkdir", 0, -1, -1}, {SYS_mkdirat, "mkdirat", 1, -1, 0}, {SYS_unlink, "unlink", 0, -1, -1},
    {SYS_unlinkat, "unlinkat", 1, -1, 0}, {SYS_rmdir, "rmdir", 0, -1, -1}, {SYS_rename, "rename", 0, 1, -1},
    {SYS_renameat, "renameat", 1, 3, 0}, {SYS_renameat2, "renameat2", 1, 3, 0}, {SYS_link, "link", 0, 1, -1},
    {SYS_linkat, "linkat", 1, 3, 0}, {SYS_symlink, "symlink", 1, -1, -1}, {SYS_symlinkat, "symlinkat", 2, -1, 1},
    {SYS_chmod, "chmod", 0, -1, -1}, {SYS_fchmod, "fchmod", -1, -1, 0}, {SYS_fchmodat, "fchmodat", 1, -1, 0},
    {SYS_truncate, "truncate", 0, -1, -1}, {SYS_ftruncate, "ftruncate", -1, -1, 0}, {SYS_fallocate, "fallocate", -1, -1, 0},
    {SYS_utimensat, "utimensat", 1, -1, 0}, {SYS_chdir, "chdir", 0, -1, -1}, {SYS_fchdir, "fchdir", -1, -1, 0},
    {SYS_read, "read", -1, -1, 0}, {SYS_write, "write", -1, -1, 0}, {SYS_pread64, "pread64", -1, -1, 0},
    {SYS_pwrite64, "pwrite64", -1, -1, 0}, {SYS_readv, "readv", -1, -1, 0}, {SYS_writev, "writev", -1, -1, 0},
    {SYS_lseek, "lseek", -1, -1, 0}, {SYS_fsync, "fsync", -1, -1, 0}, {SYS_fdatasync, "fdatasync", -1, -1, 0},
    {SYS_flock, "flock", -1, -1, 0}, {SYS_fcntl, "fcntl", -1, -1, 0}, {SYS_getdents64, "getdents64", -1, -1, 0},
    {SYS_mmap, "mmap", -1, -1, 4}, {SYS_close, "close", -1, -1, 0},
};

static pid_t child;
static const char *root;
static int in_tree;

static unsigned long long argument(const struct user_regs_struct *regs, int at) {
    unsigned long long all[] = {regs->rdi, regs->rsi, regs->rdx, regs->r10, regs->r8, regs->r9};
    return all[at];
}

static int has_hg(const char *path) {
    for (const char *at = path; (at = strstr(at, ".hg")); at += 3)
        if ((at == path || at[-1] == '/') && (at[3] == '/' || !at[3])) return 1;
    return 0;
}

// Whether what touches a path counts.
static int is_below(const char *path) {
    size_t n = strlen(root);
    int is_root = !strcmp(path, root);
    if (!in_tree) return is_root || has_hg(path);
    return is_root || (!strncmp(path, root, n) && path[n] == '/' && !has_hg(path));
}

// The character at an address of the program.
static char peek(unsigned long long from) {
    char byte = '/';
    struct iovec mine = {&byte, 1}, theirs = {(void *)from, 1};
    process_vm_readv(child, &mine, 1, &theirs, 1, 0);
    return byte;
}

// Reads the path at an address of the program, page by page. One that is told from its current folder gets that in front.
static void read_path(unsigned long long from, char *to, size_t room) {
    char link[64];
    size_t n = 0;
    if (from && peek(from) && peek(from) != '/') {
        snprintf(link, sizeof link, "/proc/%d/cwd", child);
        ssize_t cwd = readlink(link, to, room - 2);
        n = cwd < 0 ? 0 : cwd;
        to[n++] = '/';
        to += n, room -= n, n = 0;
    }
    while (n + 1 < room) {
        size_t more = 4096 - (from + n) % 4096;
        if (more > room - 1 - n) more = room - 1 - n;
        struct iovec mine = {to + n, more}, theirs = {(void *)(from + n), more};
        ssize_t got = process_vm_readv(child, &mine, 1, &theirs, 1, 0);
        if (got <= 0) break;
        if (memchr(to + n, 0, got)) return;
        n += got;
    }
    to[n] = 0;
}

// What a call touches below `.hg`, as text; whether it touches any.
static int touches(const struct user_regs_struct *regs, const struct known **call, char *text, size_t room) {
    for (size_t i = 0; i < sizeof KNOWN / sizeof *KNOWN; i++) {
        if ((long)regs->orig_rax != KNOWN[i].number) continue;
        *call = &KNOWN[i];
        int paths[] = {KNOWN[i].path, KNOWN[i].other_path};
        for (int j = 0; j < 2; j++) {
            if (paths[j] < 0) continue;
            read_path(argument(regs, paths[j]), text, room);
            if (is_below(text)) return 1;
        }
        if (KNOWN[i].file >= 0 && (int)argument(regs, KNOWN[i].file) >= 0) {
            char link[64];
            snprintf(link, sizeof link, "/proc/%d/fd/%d", child, (int)argument(regs, KNOWN[i].file));
            ssize_t n = readlink(link, text, room - 1);
            text[n < 0 ? 0 : n] = 0;
            return is_below(text);
        }
        return 0;
    }
    return 0;
}

static void end_as(int status) {
    if (WIFSIGNALED(status)) {
        struct rlimit none = {0, 0};
        setrlimit(RLIMIT_CORE, &none);
        signal(WTERMSIG(status), SIG_DFL);
        kill(getpid(), WTERMSIG(status));
    }
    exit(WEXITSTATUS(status));
}

static void go_on(int with) {
    int status;
    ptrace(PTRACE_SYSCALL, child, 0, with);
    if (waitpid(child, &status, 0) < 0) exit(98);
    if (WIFEXITED(status) || WIFSIGNALED(status)) end_as(status);
    if (WSTOPSIG(status) != (SIGTRAP | 0x80)) go_on(status >> 16 ? 0 : WSTOPSIG(status));
}

// Whether a call is what `CALL FRONT` names.
static int is_named(const char *wanted, const char *call, const char *path) {
    size_t n = strlen(call);
    const char *name = strrchr(path, '/');
    name = name ? name + 1 : path;
    return !strncmp(wanted, call, n) && wanted[n] == ' ' && !strncmp(name, wanted + n + 1, strlen(wanted + n + 1));
}

static void hold(int told) {
    char byte;
    if (write(told, "held\n", 5) != 5) exit(98);
    while (read(0, &byte, 1) > 0) {
    }
}

static void start(char **words, int told) {
    child = fork();
    if (child < 0) exit(98);
    if (child) return;
    dup2(open("/dev/null", O_RDONLY), 0);
    close(told);
    if (ptrace(PTRACE_TRACEME, 0, 0, 0)) _exit(99);
    raise(SIGSTOP);
    execv(words[0], words);
    _exit(127);
}

int main(int count, char **words) {
    static char text[PATH_MAX];
    if (count < 5) return 98;
    int told = atoi(words[1]), status, is_held = 0, is_list = !strcmp(words[2], "list"), at = is_list ? 3 : 4;
    const char *wanted = is_list ? "" : words[3];
    long number = atol(wanted), seen = 0;
    root = words[at];
    in_tree = getenv("HGTRACK_WHERE") && !strcmp(getenv("HGTRACK_WHERE"), "tree");
    start(words + at + 1, told);
    if (waitpid(child, &status, 0) < 0) return 98;
    if (!WIFSTOPPED(status)) return 99;
    if (ptrace(PTRACE_SETOPTIONS, child, 0, PTRACE_O_TRACESYSGOOD | PTRACE_O_TRACEEXEC | PTRACE_O_EXITKILL)) return 99;
    for (;;) {
        struct user_regs_struct regs;
        const struct known *call = 0;
        // (once before a call, and once when it is done)
        go_on(0);
        ptrace(PTRACE_GETREGS, child, 0, &regs);
        if (touches(&regs, &call, text, sizeof text)) {
            if (is_list) dprintf(told, "%s %s\n", call->name, text);
            if (++seen == number) hold(told);
            if (!is_held && !number && is_named(wanted, call->name, text)) hold(told), is_held = 1;
        }
        go_on(0);
    }
}
