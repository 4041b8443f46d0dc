/* Makes some sectors of one file fail to be read, as those of a scratched disc do: a library for trials, to be preloaded.

   FAILING_FILE names the file, and FAILING_SECTORS a file with the numbers of these sectors, one a line. A read that
   touches one of them fails with EIO, whatever else it asks for. All other reads are the system's. */
#define _GNU_SOURCE
#include <dlfcn.h>
#include <errno.h>
#include <stdio.h>
#include <stdlib.h>
#include <sys/stat.h>
#include <sys/types.h>

#define SECTOR 2048
#define MOST 16777215

static unsigned char fails[MOST];

static void learn(void)
{
    static int learnt;
    const char *name = getenv("FAILING_SECTORS");
    FILE *list;
    long sector;

    if (learnt || !name)
        return;
    learnt = 1;
    list = fopen(name, "r");
    if (!list)
        return;
    while (fscanf(list, "%ld", &sector) == 1)
        if (sector >= 0 && sector < MOST)
            fails[sector] = 1;
    fclose(list);
}

static int is_that_file(int fd)
{
    const char *name = getenv("FAILING_FILE");
    struct stat asked, named;

    return name && !fstat(fd, &asked) && !stat(name, &named) && asked.st_dev == named.st_dev
        && asked.st_ino == named.st_ino;
}

ssize_t pread64(int fd, void *buffer, size_t size, off64_t start)
{
    static ssize_t (*next)(int, void *, size_t, off64_t);
    off64_t sector;

    if (!next)
        next = (ssize_t (*)(int, void *, size_t, off64_t))dlsym(RTLD_NEXT, "pread64");
    learn();
    if (size > 0 && is_that_file(fd))
        for (sector = start / SECTOR; sector <= (start + (off64_t)size - 1) / SECTOR && sector < MOST; sector++)
            if (fails[sector]) {
                errno = EIO;
                return -1;
            }
    return next(fd, buffer, size, start);
}

ssize_t pread(int fd, void *buffer, size_t size, off_t start)
{
    return pread64(fd, buffer, size, start);
}
