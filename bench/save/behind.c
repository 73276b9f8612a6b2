// Adds a file to a record by putting the very bytes behind the used ones of its data file that `hgtrack add` puts there, with the same calls that change and make
// sure what is in `.hg`: the lock, the data file, the docket beside the old one, and the rename. The lists from the file's directory up to that of the root are
// copied with the new record in the first and new numbers in the others; nothing of the record is checked, and no count of it. The words are the identifier of the
// data file, and the path, which the record doesn't have, in directories that it has.
#include <arpa/inet.h>
#include <fcntl.h>
#include <stdint.h>
#include <stdio.h>
#include <stdlib.h>
#include <string.h>
#include <sys/file.h>
#include <sys/stat.h>
#include <unistd.h>

enum { RECORD = 44, LEVELS = 64 };

static unsigned char *from, *to;
static size_t used, end;

static uint32_t u32(const unsigned char *p) {
    uint32_t n;
    memcpy(&n, p, 4);
    return ntohl(n);
}

static uint16_t u16(const unsigned char *p) {
    uint16_t n;
    memcpy(&n, p, 2);
    return ntohs(n);
}

static void put32(unsigned char *p, uint32_t n) {
    n = htonl(n);
    memcpy(p, &n, 4);
}

static unsigned char *read_whole(const char *name, size_t *size) {
    struct stat found;
    int file = open(name, O_RDONLY | O_CLOEXEC);
    if (file < 0 || fstat(file, &found)) exit(1);
    unsigned char *bytes = malloc(found.st_size + 1);
    *size = 0;
    for (ssize_t more; (more = read(file, bytes + *size, found.st_size - *size)) > 0;) *size += more;
    close(file);
    return bytes;
}

static void put(const char *name, int flags, size_t place, const unsigned char *bytes, size_t size) {
    int file = open(name, O_WRONLY | O_CLOEXEC | flags, 0644);
    size_t n = 0;
    if (file < 0) exit(1);
    for (ssize_t more; n < size && (more = pwrite(file, bytes + n, size - n, place + n)) > 0;) n += more;
    if (n != size || fsync(file)) exit(1);
    close(file);
}

static void make_sure(const char *name) {
    int file = open(name, O_RDONLY | O_CLOEXEC);
    if (file < 0 || fsync(file)) exit(1);
    close(file);
}

// Where in a list of nodes a path's last component belongs, by its bytes.
static uint32_t find(uint32_t start, uint32_t count, const char *name, size_t length) {
    uint32_t low = 0, high = count;
    while (low < high) {
        uint32_t i = (low + high) / 2;
        const unsigned char *record = from + start + RECORD * i;
        size_t base = u16(record + 6), shown = u16(record + 4) - base;
        int order = memcmp(from + u32(record) + base, name, shown < length ? shown : length);
        if (order < 0 || (!order && shown < length)) low = i + 1;
        else high = i;
    }
    return low;
}

// Puts a list with what changes in it behind what is put already. Answers where.
static uint32_t copy(uint32_t start, uint32_t count) {
    memcpy(to + end, from + start, RECORD * count);
    end += RECORD * count;
    return used + end - RECORD * count;
}

int main(int count, char **words) {
    char name[300];
    size_t size, docket, base = 0;
    uint32_t starts[LEVELS], counts[LEVELS], at[LEVELS], levels = 0, lost = 0;
    if (count < 3) return 1;
    const char *path = words[2];
    snprintf(name, sizeof name, ".hg/dirstate.%s", words[1]);
    int lock = open(".hg/wlock", O_WRONLY | O_CREAT | O_EXCL | O_CLOEXEC, 0644);
    if (lock < 0 || flock(lock, LOCK_EX | LOCK_NB)) return 1;
    unsigned char *top = read_whole(".hg/dirstate", &docket);
    from = read_whole(name, &size);
    used = u32(top + 120);
    starts[0] = u32(top + 76), counts[0] = u32(top + 80);
    for (;; levels++) {
        const char *slash = strchr(path + base, '/');
        size_t length = slash ? (size_t)(slash - path) - base : strlen(path + base);
        at[levels] = find(starts[levels], counts[levels], path + base, length);
        lost += RECORD * counts[levels];
        if (!slash) break;
        const unsigned char *record = from + starts[levels] + RECORD * at[levels];
        starts[levels + 1] = u32(record + 14), counts[levels + 1] = u32(record + 18);
        base += length + 1;
    }
    size_t length = strlen(path);
    to = malloc(lost + RECORD + length);
    memcpy(to, path, length);
    end = length;
    uint32_t list = copy(starts[levels], at[levels]);
    memset(to + end, 0, RECORD);
    put32(to + end, used);
    to[end + 4] = length >> 8, to[end + 5] = length;
    to[end + 6] = base >> 8, to[end + 7] = base;
    to[end + 31] = 1;
    end += RECORD;
    copy(starts[levels] + RECORD * at[levels], counts[levels] - at[levels]);
    for (uint32_t kids = counts[levels] + 1; levels--; kids = counts[levels]) {
        uint32_t above = copy(starts[levels], counts[levels]);
        unsigned char *record = to + above - used + RECORD * at[levels];
        put32(record + 14, list), put32(record + 18, kids);
        put32(record + 22, u32(record + 22) + 1), put32(record + 26, u32(record + 26) + 1);
        list = above;
    }
    put32(top + 76, list);
    put32(top + 80, counts[0] + !strchr(path, '/'));
    put32(top + 84, u32(top + 84) + 1);
    put32(top + 92, u32(top + 92) + lost);
    put32(top + 120, used + end);
    put(name, 0, used, to, end);
    make_sure(".hg");
    put(".hg/dirstate-new", O_CREAT | O_EXCL, 0, top, docket);
    make_sure(".hg");
    if (rename(".hg/dirstate-new", ".hg/dirstate")) return 1;
    make_sure(".hg");
    return unlink(".hg/wlock");
}
