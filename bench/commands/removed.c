// Takes files away and writes the record that is left: asks each path by `lstat` and unlinks it, and makes the calls of saved.c once. The words are the
// identifiers of the old and the new data file, the number of bytes of the new one, and a file with a line for each path, which has behind a tab the
// name of the contents in the plain store. With a fifth word, the name of a manifest there, that is read first, and each file's bytes and the contents
// are read and compared before it is unlinked.
#include <fcntl.h>
#include <stdio.h>
#include <stdlib.h>
#include <string.h>
#include <sys/file.h>
#include <sys/stat.h>
#include <unistd.h>

static char *bytes;

static size_t read_whole(const char *name, size_t room) {
    struct stat found;
    int file = open(name, O_RDONLY | O_CLOEXEC);
    if (file < 0 || fstat(file, &found)) exit(1);
    size_t size = found.st_size, n = 0;
    bytes = calloc(size > room ? size : room, 1);
    for (ssize_t more; n < size && (more = read(file, bytes + n, size - n)) > 0;) n += more;
    close(file);
    return n;
}

static void make_sure(const char *name) {
    int file = open(name, O_RDONLY | O_CLOEXEC);
    if (file < 0 || fsync(file)) exit(1);
    close(file);
}

static void put(const char *name, size_t size) {
    int file = open(name, O_WRONLY | O_CREAT | O_EXCL | O_CLOEXEC, 0644);
    size_t n = 0;
    for (ssize_t more; n < size && (more = write(file, bytes + n, size - n)) > 0;) n += more;
    if (n != size) exit(1);
    close(file);
    make_sure(name);
    make_sure(".hg");
}

static void compare(const char *path, const char *id) {
    char name[300];
    snprintf(name, sizeof name, ".hg/plain/f-%s", id);
    size_t size = read_whole(path, 1);
    char *own = bytes;
    if (read_whole(name, 1) != size || memcmp(own, bytes, size)) exit(1);
    free(own);
    free(bytes);
}

static void take_away(const char *list, const char *manifest) {
    static char line[5000];
    struct stat it;
    if (manifest) {
        read_whole(manifest, 1);
        free(bytes);
    }
    FILE *lines = fopen(list, "r");
    if (!lines) exit(1);
    while (fgets(line, sizeof line, lines)) {
        char *path = strtok(line, "\t"), *id = strtok(NULL, "\n");
        if (!id || lstat(path, &it)) exit(1);
        if (manifest) compare(path, id);
        if (unlink(path)) exit(1);
    }
    fclose(lines);
}

int main(int count, char **words) {
    char old[300], new[300];
    if (count < 5) return 1;
    size_t size = atol(words[3]);
    snprintf(old, sizeof old, ".hg/dirstate.%s", words[1]);
    snprintf(new, sizeof new, ".hg/dirstate.%s", words[2]);
    int lock = open(".hg/wlock", O_WRONLY | O_CREAT | O_EXCL | O_CLOEXEC, 0644);
    if (lock < 0 || flock(lock, LOCK_EX | LOCK_NB)) return 1;
    size_t docket = read_whole(".hg/dirstate", 0);
    char *kept = bytes;
    read_whole(old, size);
    char *data = bytes;
    take_away(words[4], count > 5 ? words[5] : NULL);
    bytes = data;
    put(new, size);
    free(bytes);
    bytes = kept;
    put(".hg/dirstate-new", docket);
    if (rename(".hg/dirstate-new", ".hg/dirstate")) return 1;
    make_sure(".hg");
    return unlink(old) || unlink(".hg/wlock");
}
