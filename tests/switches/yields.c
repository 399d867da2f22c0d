/* Counts the calls of sched_yield of the program into which it is loaded (LD_PRELOAD), in the file that YIELDS names: a number of 8
   bytes, which is right at each moment, since not every program runs what others leave for its end. */
#include <fcntl.h>
#include <stdatomic.h>
#include <stdlib.h>
#include <sys/mman.h>
#include <sys/syscall.h>
#include <unistd.h>

static _Atomic long *yields;

int sched_yield(void)
{
    if (yields)
        atomic_fetch_add(yields, 1);
    return (int)syscall(SYS_sched_yield);
}

__attribute__((constructor)) static void begin(void)
{
    const char *path = getenv("YIELDS");
    int file = path ? open(path, O_RDWR | O_CREAT | O_TRUNC, 0666) : -1;
    if (file < 0 || ftruncate(file, sizeof *yields) != 0)
        return;
    void *place = mmap(NULL, sizeof *yields, PROT_READ | PROT_WRITE, MAP_SHARED, file, 0);
    if (place != MAP_FAILED)
        yields = place;
    close(file);
}
