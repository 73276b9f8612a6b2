// Reads every record of a data file and touches every byte of each path, as often as the third word says: what opening one cannot
// do without. The words are the docket, the data file and the number of rounds.
#include <stdio.h>
#include <stdlib.h>

static unsigned char *bytes;
static unsigned long sum, nodes;

static unsigned long number(const unsigned char *at, int length) {
    unsigned long value = 0;
    while (length--) value = value << 8 | *at++;
    return value;
}

static void walk(unsigned long start, unsigned long count) {
    for (unsigned long i = 0; i < count; i++) {
        const unsigned char *record = bytes + start + 44 * i;
        const unsigned char *path = bytes + number(record, 4);
        unsigned long length = number(record + 4, 2);
        for (unsigned long k = 0; k < length; k++) sum += path[k];
        sum += number(record + 6, 2) + number(record + 8, 4) + number(record + 12, 2) + number(record + 22, 4) + number(record + 26, 4);
        sum += number(record + 30, 2) + number(record + 32, 4) + number(record + 36, 4) + number(record + 40, 4);
        nodes++;
        walk(number(record + 14, 4), number(record + 18, 4));
    }
}

static unsigned char *whole(const char *name) {
    FILE *file = fopen(name, "rb");
    if (!file) exit(1);
    fseek(file, 0, SEEK_END);
    long size = ftell(file);
    rewind(file);
    unsigned char *read = malloc(size + 1);
    if (fread(read, 1, size, file) != (size_t)size) exit(1);
    fclose(file);
    return read;
}

int main(int count, char **words) {
    if (count < 4) return 2;
    unsigned char *docket = whole(words[1]);
    bytes = whole(words[2]);
    for (long round = atol(words[3]); round > 0; round--) walk(number(docket + 76, 4), number(docket + 80, 4));
    printf("%lu %lu\n", nodes, sum);
    return 0;
}
