// Copies the paths that it reads into one data file, list by list: each text, and for each node a record of 44 bytes behind those of its list.
#include <stdio.h>
#include <stdlib.h>
#include <string.h>

struct node { char *path; size_t length; struct node **kids; size_t count, room; };
static unsigned char *out, *records;
static size_t at, room, top, depth_room;

static void need(unsigned char **p, size_t *have, size_t n) {
    if (n <= *have) return;
    while (*have < n) *have = *have ? *have * 2 : 64;
    *p = realloc(*p, *have);
    if (!*p) exit(1);
}

static unsigned char *put4(unsigned char *to, unsigned long n) { to[0] = n >> 24; to[1] = n >> 16; to[2] = n >> 8; to[3] = n; return to + 4; }
static unsigned char *put2(unsigned char *to, unsigned long n) { to[0] = n >> 8; to[1] = n; return to + 2; }

static size_t list(struct node *dir, size_t base, size_t *entries) {
    size_t from = top;
    for (size_t i = 0; i < dir->count; i++) {
        struct node *it = dir->kids[i];
        size_t below = 0, start = 0;
        if (it->count) start = list(it, it->length + 1, &below);
        size_t path = at;
        need(&out, &room, at + it->length);
        memcpy(out + at, it->path, it->length);
        at += it->length;
        need(&records, &depth_room, top + 44);
        unsigned char *to = records + top;
        to = put4(to, path); to = put2(to, it->length); to = put2(to, base); to = put4(to, 0); to = put2(to, 0);
        to = put4(to, start); to = put4(to, it->count); to = put4(to, below); to = put4(to, below);
        to = put2(to, it->count ? 0 : 1); to = put4(to, 0); to = put4(to, 0); put4(to, 0);
        top += 44;
        *entries += below + !it->count;
    }
    size_t start = at;
    need(&out, &room, at + (top - from));
    memcpy(out + at, records + from, top - from);
    at += top - from;
    top = from;
    return start;
}

static struct node *child(struct node *dir, const char *path, size_t length) {
    if (dir->count) {
        struct node *last = dir->kids[dir->count - 1];
        if (last->length == length && !memcmp(last->path, path, length)) return last;
    }
    if (dir->count == dir->room) dir->kids = realloc(dir->kids, (dir->room = dir->room ? 2 * dir->room : 4) * sizeof *dir->kids);
    struct node *made = calloc(1, sizeof *made);
    made->path = malloc(length);
    memcpy(made->path, path, length);
    made->length = length;
    return dir->kids[dir->count++] = made;
}

int main(int count, char **words) {
    static char line[70000];
    struct node root = {0};
    long rounds = count > 1 ? atol(words[1]) : 1;
    while (fgets(line, sizeof line, stdin)) {
        size_t length = strcspn(line, "\n");
        struct node *dir = &root;
        for (size_t i = 0; i <= length; i++)
            if (i == length || line[i] == '/') dir = child(dir, line, i);
    }
    unsigned long sum = 0;
    while (rounds--) {
        size_t entries = 0;
        out = records = NULL; at = top = room = depth_room = 0;
        list(&root, 0, &entries);
        sum += at + entries;
        free(out); free(records);
    }
    printf("%lu\n", sum);
    return 0;
}
