// Makes the system calls of a status over tracked files, and nothing else: the two files of `.hg` are read, each tracked path is asked
// for, then each directory is listed and each thing in it is asked for, and a line for each tracked path is written. The process stands
// in the directory whose names it asks for. On the way down a name is asked for, gone into, and `.` has to be what the name was; on the
// way up `.` has to be what it was on the way down. A directory that was asked for last isn't asked for again before it is gone into. A
// path is asked for by statx, as Rust's std does it. The tracked paths are the lines of the file that is named. Where the word `compared`
// follows, each line has the identifier of contents behind a tab: then each path is compared with these, as a status against a commit does
// it, and lines are written of those that differ. The size of the contents is asked for; the path is asked for again, opened, asked for as it is open, and read; the contents are
// asked for again, opened, sought and read; and the path is asked for once more.
#define _GNU_SOURCE
#include <dirent.h>
#include <fcntl.h>
#include <stdio.h>
#include <stdlib.h>
#include <string.h>
#include <sys/stat.h>
#include <sys/syscall.h>
#include <unistd.h>

struct step {
    size_t before;
    struct statx spot;
};

static char way[70000], home[4096];
static size_t length;
static struct step steps[3000];
static int depth;

static int ask(const char *path, int flags, struct statx *found) {
    return statx(AT_FDCWD, path, flags, STATX_BASIC_STATS | STATX_BTIME, found) == 0;
}

static int is_same(const struct statx *a, const struct statx *b) {
    return a->stx_ino == b->stx_ino && a->stx_dev_major == b->stx_dev_major && a->stx_dev_minor == b->stx_dev_minor;
}

static void step(const char *name) {
    struct statx here;
    if (chdir(name) || !ask(".", 0, &here) || !is_same(&here, &steps[depth].spot)) exit(1);
}

static void leave(void) {
    length = steps[depth--].before;
    step("..");
}

static void enter(const char *name, size_t size, const struct statx *spot) {
    steps[++depth] = (struct step){length, *spot};
    if (length) way[length++] = '/';
    memcpy(way + length, name, size);
    length += size;
    step(name);
}

// Goes to the directory of a path. Answers whether it is one; the name in it is put into `name`.
static int go(char *path, char **name) {
    char *last = strrchr(path, '/');
    size_t end = last ? last - path : 0;
    *name = last ? last + 1 : path;
    while (length > end || memcmp(way, path, length) || (length && length < end && path[length] != '/')) leave();
    while (length < end) {
        char *at = path + length + !!length, *slash = strchr(at, '/');
        struct statx found;
        *slash = 0;
        int is_dir = ask(at, AT_SYMLINK_NOFOLLOW, &found) && S_ISDIR(found.stx_mode);
        if (is_dir) enter(at, slash - at, &found);
        *slash = '/';
        if (!is_dir) return 0;
    }
    return 1;
}

static void visit(void) {
    static char room[4096];
    int folder = open(".", O_RDONLY | O_DIRECTORY | O_NOFOLLOW | O_CLOEXEC);
    if (folder < 0) exit(1);
    char **names = 0;
    size_t count = 0, space = 0;
    for (long n; (n = syscall(SYS_getdents64, folder, room, sizeof room)) > 0;) {
        for (long at = 0; at < n;) {
            struct dirent64 *entry = (struct dirent64 *)(room + at);
            char *name = entry->d_name;
            at += entry->d_reclen;
            if (!strcmp(name, ".") || !strcmp(name, "..") || (!depth && !strcmp(name, ".hg"))) continue;
            if (count == space) names = realloc(names, (space = space * 2 + 16) * sizeof *names);
            names[count++] = strdup(name);
        }
    }
    close(folder);
    int here = depth;
    for (size_t i = 0; i < count; i++) {
        struct statx found;
        while (depth > here) leave();
        if (ask(names[i], AT_SYMLINK_NOFOLLOW, &found) && S_ISDIR(found.stx_mode)) {
            enter(names[i], strlen(names[i]), &found);
            visit();
        }
        free(names[i]);
    }
    free(names);
}

static void read_whole(const char *name) {
    int file = open(name, O_RDONLY);
    struct stat found;
    if (file < 0 || fstat(file, &found)) exit(1);
    char *bytes = malloc(found.st_size + 1);
    if (read(file, bytes, found.st_size) != found.st_size) exit(1);
    free(bytes);
    close(file);
}

static size_t read_some(int file, char *room, size_t size) {
    size_t n = 0;
    for (ssize_t more; n < size && (more = read(file, room + n, size - n)) > 0;) n += more;
    return n;
}

// Whether a path, which is asked for already, has the bytes of these contents.
static int compare(const char *name, const struct statx *seen, const char *contents) {
    static char mine[65536], theirs[65536];
    struct statx found;
    if (!ask(contents, 0, &found) || found.stx_size != seen->stx_size) return 0;
    for (size_t place = 0; place < seen->stx_size; place += sizeof mine) {
        size_t size = seen->stx_size - place < sizeof mine ? seen->stx_size - place : sizeof mine;
        struct statx again;
        if (!ask(name, AT_SYMLINK_NOFOLLOW, &again)) return 0;
        int file = open(name, O_RDONLY | O_CLOEXEC);
        if (file < 0 || !S_ISREG(again.stx_mode) || statx(file, "", AT_EMPTY_PATH, STATX_BASIC_STATS | STATX_BTIME, &found) || !is_same(&again, &found)) exit(1);
        if (place) lseek(file, place, SEEK_SET);
        size_t n = read_some(file, mine, size);
        close(file);
        if (!ask(contents, 0, &found) || (file = open(contents, O_RDONLY | O_CLOEXEC)) < 0) return 0;
        lseek(file, place, SEEK_SET);
        size_t m = read_some(file, theirs, size);
        close(file);
        if (n != m || memcmp(mine, theirs, n)) return 0;
    }
    return ask(name, AT_SYMLINK_NOFOLLOW, &found);
}

int main(int count, char **words) {
    static char path[70000], contents[4200];
    FILE *tracked = count > 1 ? fopen(words[1], "r") : 0;
    int compared = count > 2 && !strcmp(words[2], "compared");
    if (!tracked || !getcwd(home, sizeof home) || !ask(".", 0, &steps[0].spot)) return 1;
    read_whole(".hg/dirstate");
    read_whole(".hg/dirstate.0000000000000000");
    char *lines = 0;
    size_t used = 0, room = 0;
    while (fgets(path, sizeof path, tracked)) {
        struct statx found;
        char *name;
        path[strcspn(path, "\n")] = 0;
        char *tab = compared ? strchr(path, '\t') : 0;
        if (tab) {
            *tab = 0;
            snprintf(contents, sizeof contents, "%s/.hg/plain/f-%s", home, tab + 1);
        }
        size_t size = strlen(path);
        if (used + size + 4 > room) lines = realloc(lines, room = room * 2 + size + 4);
        int stands = go(path, &name) && ask(name, AT_SYMLINK_NOFOLLOW, &found);
        if (compared && stands && compare(name, &found, contents)) continue;
        used += sprintf(lines + used, "%c %s\n", !stands ? '!' : compared ? 'M' : 'A', path);
    }
    fclose(tracked);
    while (depth) leave();
    visit();
    return write(1, lines, used) != (ssize_t)used;
}
