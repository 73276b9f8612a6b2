// Adds a file at the root of a record, and writes the very bytes that `hgtrack add` writes for it, with the same calls that change and make sure
// what is in `.hg`: the lock, the data file, the docket beside the old one, the rename, and the old data file that goes. All nodes are
// laid out anew in a second buffer, list by list; nothing of the record is checked. The words are the identifiers of the old and the new data
// file, and the name of the file, which the record doesn't have.
#include <arpa/inet.h>
#include <fcntl.h>
#include <stdint.h>
#include <stdio.h>
#include <stdlib.h>
#include <string.h>
#include <sys/file.h>
#include <sys/stat.h>
#include <unistd.h>

enum { RECORD = 44 };

static unsigned char *from, *to;
static size_t end;

static uint32_t u32(const unsigned char *p) {
    uint32_t n;
    memcpy(&n, p, 4);
    return ntohl(n);
}

static uint16_t u16(const unsigned char *p) {
    uint16_t n;
    memcpy(&n, p, 2);
    return ntohs(n);
}

static void put32(unsigned char *p, uint32_t n) {
    n = htonl(n);
    memcpy(p, &n, 4);
}

static unsigned char *read_whole(const char *name, size_t *size) {
    struct stat found;
    int file = open(name, O_RDONLY | O_CLOEXEC);
    if (file < 0 || fstat(file, &found)) exit(1);
    unsigned char *bytes = calloc(found.st_size + 1, 1);
    *size = 0;
    for (ssize_t more; (more = read(file, bytes + *size, found.st_size - *size)) > 0;) *size += more;
    close(file);
    return bytes;
}

static void make_sure(const char *name) {
    int file = open(name, O_RDONLY | O_CLOEXEC);
    if (file < 0 || fsync(file)) exit(1);
    close(file);
}

static void put(const char *name, const unsigned char *bytes, size_t size) {
    int file = open(name, O_WRONLY | O_CREAT | O_EXCL | O_CLOEXEC, 0644);
    size_t n = 0;
    for (ssize_t more; n < size && (more = write(file, bytes + n, size - n)) > 0;) n += more;
    if (n != size) exit(1);
    close(file);
    make_sure(name);
    make_sure(".hg");
}

// A list of nodes, each with the list of its children before its path and its copy source; the records come last. Answers where.
static uint32_t lay(uint32_t start, uint32_t count, const char *name);

static void lay_node(unsigned char *record) {
    uint32_t kids = u32(record + 18), path = u32(record), source = u32(record + 8);
    uint16_t length = u16(record + 4), copied = u16(record + 12);
    if (kids) put32(record + 14, lay(u32(record + 14), kids, 0));
    put32(record, end);
    memcpy(to + end, from + path, length);
    end += length;
    if (!copied) return;
    put32(record + 8, end);
    memcpy(to + end, from + source, copied);
    end += copied;
}

static uint32_t lay(uint32_t start, uint32_t count, const char *name) {
    unsigned char records[RECORD * (count + 1)], *record = records;
    size_t length = name ? strlen(name) : 0;
    for (uint32_t i = 0; i <= count; i++) {
        const unsigned char *old = from + start + RECORD * i;
        int order = -1;
        if (i < count && name) {
            size_t shown = u16(old + 4);
            order = memcmp(from + u32(old), name, shown < length ? shown : length);
            if (!order && shown > length) order = 1;
        }
        if (name && (i == count || order > 0)) {
            memset(record, 0, RECORD);
            put32(record, end);
            record[4] = length >> 8;
            record[5] = length;
            record[31] = 1;
            memcpy(to + end, name, length);
            end += length;
            record += RECORD;
            name = 0;
        }
        if (i == count) break;
        memcpy(record, old, RECORD);
        lay_node(record);
        record += RECORD;
    }
    memcpy(to + end, records, record - records);
    end += record - records;
    return end - (record - records);
}

int main(int count, char **words) {
    char old[300], new[300];
    size_t used, docket;
    if (count < 4) return 1;
    snprintf(old, sizeof old, ".hg/dirstate.%s", words[1]);
    snprintf(new, sizeof new, ".hg/dirstate.%s", words[2]);
    int lock = open(".hg/wlock", O_WRONLY | O_CREAT | O_EXCL | O_CLOEXEC, 0644);
    if (lock < 0 || flock(lock, LOCK_EX | LOCK_NB)) return 1;
    unsigned char *top = read_whole(".hg/dirstate", &docket);
    from = read_whole(old, &used);
    to = malloc(used + RECORD + strlen(words[3]));
    put32(top + 76, lay(u32(top + 76), u32(top + 80), words[3]));
    put32(top + 80, u32(top + 80) + 1);
    put32(top + 84, u32(top + 84) + 1);
    put32(top + 92, 0);
    put32(top + 120, end);
    memcpy(top + 125, words[2], strlen(words[2]));
    put(new, to, end);
    put(".hg/dirstate-new", top, docket);
    if (rename(".hg/dirstate-new", ".hg/dirstate")) return 1;
    make_sure(".hg");
    return unlink(old) || unlink(".hg/wlock");
}
