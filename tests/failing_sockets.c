/* failing_sockets.so: loaded before a program's own libraries (LD_PRELOAD), it shows the calls of the program's socket, holds
 * them, and lets its clock go faster or slower:
 *   SOCKET_CALLS  a socket: each receive writes 'r' to it, each send 's', when the call begins; and 'f' each call that asks
 *                 what a file is
 *   SOCKET_HELD   r or s: the first such call then waits until a byte comes back
 *   CLOCK_SPEED   how many times as fast as the machine's clock the program's goes: 10, or 0.1
 * Other libraries loaded so are still asked, where they come after it. */
#define _GNU_SOURCE
#include <dlfcn.h>
#include <stdlib.h>
#include <sys/socket.h>
#include <sys/stat.h>
#include <sys/syscall.h>
#include <time.h>
#include <unistd.h>

#define SECOND 1000000000LL

static int calls = -1;
static char held;
static double speed = 1;

__attribute__((constructor)) static void begin(void)
{
    const char *to = getenv("SOCKET_CALLS"), *hold = getenv("SOCKET_HELD"), *times = getenv("CLOCK_SPEED");
    if (to)
        calls = atoi(to);
    if (hold)
        held = *hold;
    if (times)
        speed = atof(times);
}

/* Shows a call, and waits if it is the one that is held. */
static void show(char call)
{
    if (calls < 0)
        return;
    char byte = call;
    syscall(SYS_write, calls, &byte, 1);
    if (call == held) {
        held = 0;
        syscall(SYS_read, calls, &byte, 1);
    }
}

ssize_t recvfrom(int from, void *into, size_t length, int flags, struct sockaddr *address, socklen_t *size)
{
    ssize_t (*next)(int, void *, size_t, int, struct sockaddr *, socklen_t *) = dlsym(RTLD_NEXT, "recvfrom");
    show('r');
    return next(from, into, length, flags, address, size);
}

ssize_t sendto(int to, const void *from, size_t length, int flags, const struct sockaddr *address, socklen_t size)
{
    ssize_t (*next)(int, const void *, size_t, int, const struct sockaddr *, socklen_t) = dlsym(RTLD_NEXT, "sendto");
    show('s');
    return next(to, from, length, flags, address, size);
}

int statx(int folder, const char *name, int flags, unsigned mask, struct statx *found)
{
    show('f');
    return syscall(SYS_statx, folder, name, flags, mask, found);
}

/* The time since the first call passes faster or slower. */
int clock_gettime(clockid_t clock, struct timespec *time)
{
    static struct timespec first[16];
    int done = syscall(SYS_clock_gettime, clock, time);
    if (done != 0 || speed == 1 || clock < 0 || clock >= 16)
        return done;
    struct timespec *from = &first[clock];
    if (from->tv_sec == 0 && from->tv_nsec == 0)
        *from = *time;
    long long passed = (time->tv_sec - from->tv_sec) * SECOND + time->tv_nsec - from->tv_nsec;
    long long shown = from->tv_nsec + (long long)(passed * speed);
    time->tv_sec = from->tv_sec + shown / SECOND;
    time->tv_nsec = shown % SECOND;
    return 0;
}
