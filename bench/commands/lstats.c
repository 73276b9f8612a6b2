// Asks each directory above each path and then the path by lstat; the paths are the words.
#include <stdio.h>
#include <string.h>
#include <sys/stat.h>

int main(int count, char **words) {
    long found = 0;
    struct stat it;
    for (int i = 1; i < count; i++) {
        for (char *slash = words[i]; (slash = strchr(slash, '/')); *slash++ = '/') {
            *slash = 0;
            found += lstat(words[i], &it) == 0;
        }
        found += lstat(words[i], &it) == 0;
    }
    printf("%ld\n", found);
    return 0;
}
