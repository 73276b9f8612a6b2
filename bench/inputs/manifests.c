// Finds every line of a manifest's text and compares each path with the one before, as often as the second word says: what loading one cannot do
// without. The words are the text and the number of rounds.
#include <stdio.h>
#include <stdlib.h>
#include <string.h>

static unsigned char *whole(const char *name, size_t *size) {
    FILE *file = fopen(name, "rb");
    if (!file) exit(1);
    fseek(file, 0, SEEK_END);
    *size = ftell(file);
    rewind(file);
    unsigned char *read = malloc(*size + 1);
    if (fread(read, 1, *size, file) != *size) exit(1);
    fclose(file);
    return read;
}

static unsigned long lines(const unsigned char *text, size_t size) {
    const unsigned char *at = text, *end = text + size, *before = text;
    size_t before_len = 0;
    unsigned long count = 0;
    while (at < end) {
        const unsigned char *nul = memchr(at, 0, end - at);
        if (!nul) exit(1);
        const unsigned char *line_end = memchr(nul, '\n', end - nul);
        if (!line_end) exit(1);
        size_t len = nul - at, least = len < before_len ? len : before_len;
        int order = memcmp(before, at, least);
        if (order > 0 || (order == 0 && before_len >= len)) exit(1);
        before = at;
        before_len = len;
        at = line_end + 1;
        count++;
    }
    return count;
}

int main(int count, char **words) {
    if (count < 3) return 2;
    size_t size;
    unsigned char *text = whole(words[1], &size);
    unsigned long found = 0;
    for (long round = atol(words[2]); round > 0; round--) found += lines(text, size);
    printf("%lu\n", found);
    return 0;
}
