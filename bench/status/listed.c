// Lists the current folder and asks each name by lstat: what a status of a folder without directories cannot do without.
#include <dirent.h>
#include <stdio.h>
#include <sys/stat.h>

int main(void) {
    DIR *folder = opendir(".");
    if (!folder) return 1;
    long files = 0;
    for (struct dirent *it; (it = readdir(folder));) {
        struct stat found;
        if (lstat(it->d_name, &found) == 0 && S_ISREG(found.st_mode)) files++;
    }
    closedir(folder);
    printf("%ld\n", files);
    return 0;
}
