/* Lets each read of a regular file take half a millisecond more, as on a network disk. It is loaded by LD_PRELOAD. */
#define _GNU_SOURCE
#include <dlfcn.h>
#include <sys/stat.h>
#include <time.h>
#include <unistd.h>

ssize_t read(int file, void *buffer, size_t size)
{
    static ssize_t (*of_the_system)(int, void *, size_t);
    struct timespec pause = {0, 500000};
    struct stat status;

    if (!of_the_system)
        of_the_system = (ssize_t (*)(int, void *, size_t))dlsym(RTLD_NEXT, "read");
    if (fstat(file, &status) == 0 && S_ISREG(status.st_mode))
        nanosleep(&pause, NULL);
    return of_the_system(file, buffer, size);
}
