/* bench_slow.so: loaded before a program's own libraries (LD_PRELOAD), it makes each fsync and fdatasync take so many microseconds
 * more as SLOW_MICROSECONDS says, as on a slower disk. */
#define _GNU_SOURCE
#include <dlfcn.h>
#include <stdlib.h>
#include <sys/prctl.h>
#include <time.h>
#include <unistd.h>

static int slowly(const char *call, int file) {
    int (*real)(int) = (int (*)(int))dlsym(RTLD_NEXT, call);
    const char *given = getenv("SLOW_MICROSECONDS");
    long nanos = 1000 * (given ? atol(given) : 0);
    struct timespec rest = {nanos / 1000000000, nanos % 1000000000};
    prctl(PR_SET_TIMERSLACK, 1000);
    nanosleep(&rest, NULL);
    return real(file);
}

int fsync(int file) {
    return slowly("fsync", file);
}

int fdatasync(int file) {
    return slowly("fdatasync", file);
}
