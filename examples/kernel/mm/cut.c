/* Has memory cut up: cut PERCENT COMMAND.. writes to so much of the free memory, gives back every other page, and runs
 * the command. Each page bears a stamp, which is unchanged at the end, wherever the page was moved. */
#define _GNU_SOURCE
#include <sys/mman.h>
#include <sys/sysinfo.h>
#include <sys/wait.h>
#include <unistd.h>

#include "stamps.h"

static char *cut(size_t bytes)
{
    char *at = mmap(NULL, bytes, PROT_READ | PROT_WRITE, MAP_PRIVATE | MAP_ANONYMOUS, -1, 0);

    need(at != MAP_FAILED, "mmap");
    for (size_t i = 0; i < bytes; i += PAGE)
        stamp(at + i, i);
    for (size_t i = PAGE; i < bytes; i += 2 * PAGE)
        need(!madvise(at + i, PAGE, MADV_DONTNEED), "madvise");
    return at;
}

int main(int count, char **words)
{
    struct sysinfo memory;
    int status;

    if (count < 3 || sysinfo(&memory))
        return 2;
    size_t bytes = (size_t)(memory.freeram * atof(words[1]) / 100) / (2 * PAGE) * (2 * PAGE);
    char *at = cut(bytes);
    printf("%zu single pages are held, and as many given\n", bytes / PAGE / 2);
    fflush(stdout);
    pid_t child = fork();
    need(child >= 0, "fork");
    if (!child) {
        execvp(words[2], words + 2);
        need(false, words[2]);
    }
    need(waitpid(child, &status, 0) == child, "waitpid");
    for (size_t i = 0; i < bytes; i += 2 * PAGE)
        need(is_stamped(at + i, i), "each stamp is whole");
    return status ? 1 : 0;
}
