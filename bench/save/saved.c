// Reads a record, and writes as many bytes as the next one has in its place, with the same calls that change and make sure what is in `.hg`:
// the lock, the data file, the docket beside the old one, the rename, and the old data file that goes. The words are the identifiers of
// the old and the new data file, and the number of bytes of the new one.
#include <fcntl.h>
#include <stdio.h>
#include <stdlib.h>
#include <sys/file.h>
#include <sys/stat.h>
#include <unistd.h>

static char *bytes;

static size_t read_whole(const char *name, size_t room) {
    struct stat found;
    int file = open(name, O_RDONLY | O_CLOEXEC);
    if (file < 0 || fstat(file, &found)) exit(1);
    size_t size = found.st_size, n = 0;
    bytes = calloc(size > room ? size : room, 1);
    for (ssize_t more; n < size && (more = read(file, bytes + n, size - n)) > 0;) n += more;
    close(file);
    return n;
}

static void make_sure(const char *name) {
    int file = open(name, O_RDONLY | O_CLOEXEC);
    if (file < 0 || fsync(file)) exit(1);
    close(file);
}

static void put(const char *name, size_t size) {
    int file = open(name, O_WRONLY | O_CREAT | O_EXCL | O_CLOEXEC, 0644);
    size_t n = 0;
    for (ssize_t more; n < size && (more = write(file, bytes + n, size - n)) > 0;) n += more;
    if (n != size) exit(1);
    close(file);
    make_sure(name);
    make_sure(".hg");
}

int main(int count, char **words) {
    char old[300], new[300];
    if (count < 4) return 1;
    size_t size = atol(words[3]);
    snprintf(old, sizeof old, ".hg/dirstate.%s", words[1]);
    snprintf(new, sizeof new, ".hg/dirstate.%s", words[2]);
    int lock = open(".hg/wlock", O_WRONLY | O_CREAT | O_EXCL | O_CLOEXEC, 0644);
    if (lock < 0 || flock(lock, LOCK_EX | LOCK_NB)) return 1;
    size_t docket = read_whole(".hg/dirstate", 0);
    char *kept = bytes;
    read_whole(old, size);
    put(new, size);
    free(bytes);
    bytes = kept;
    put(".hg/dirstate-new", docket);
    if (rename(".hg/dirstate-new", ".hg/dirstate")) return 1;
    make_sure(".hg");
    return unlink(old) || unlink(".hg/wlock");
}
