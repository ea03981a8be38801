/* failing.so: loaded before a program's own libraries (LD_PRELOAD), it lets one of the program's calls fail.
 * FAILING_CALL is the kind of call, FAILING_AT which one of that kind, counted from 1:
 *   growth     memory that is asked for, or asked to grow, is refused
 *   read       a read fails (EIO)
 *   scant      a read takes one byte alone
 *   interrupt  a read is interrupted (EINTR)
 *   unready    a read is interrupted, and so is each read after it
 *   early      a read is interrupted, and so is each read before it
 *   write      a write fails (EIO)
 *   short      a write takes one byte alone
 *   cut        a file can't be cut or lengthened (EIO)
 *   change     a call that changes a file or a folder fails (EIO), and so does each after it
 *   kill       the program is killed before a call that opens or changes a file or a folder, as `kill -9` does
 *   tear       a write takes the half of its bytes, and then the program is killed
 *   look       what stands at a path can't be told (EIO)
 *   open       an open fails (EIO)
 *   sync       a file or a folder can't be synced (EIO)
 *   rename     a file can't be renamed (EIO)
 *   renamed    a file is renamed, and it is answered that it can't be (EIO)
 *   send       a datagram can't be sent (EIO)
 *   sends      a datagram can't be sent, nor any after it
 *   receive    a datagram can't be received (EIO)
 *   receives   a datagram can't be received, nor any after it
 *   disturb    a receive is interrupted (EINTR)
 * Where FAILING_ERROR is given, a number of <errno.h>, calls fail with that error in the place of EIO.
 * Where FAILING_PATH is given, those calls alone count that are of a file or folder whose path ends with it; of a rename it is
 * the new path. Where FAILING_FOLDER is given, those alone count that are of this folder or of what is in it. Once the call failed,
 * the byte '!' is written to file descriptor FAILING_REPORT. Calls count once main began.
 * A read of standard input behind its end fails in any case (EIO). Where SYNC_TAKES is given, each sync takes so many microseconds
 * more. */
#define _GNU_SOURCE
#include <errno.h>
#include <fcntl.h>
#include <limits.h>
#include <malloc.h>
#include <signal.h>
#include <stdarg.h>
#include <stdio.h>
#include <stdlib.h>
#include <string.h>
#include <sys/socket.h>
#include <sys/stat.h>
#include <sys/syscall.h>
#include <sys/uio.h>
#include <unistd.h>

static const char *kind = "", *path = "", *folder = "";
static long at, count, delay;
static int report = -1, error = EIO;

/* Before the libraries' own constructors are done nothing is counted: kind is empty. */
__attribute__((constructor)) static void begin(void)
{
    const char *call = getenv("FAILING_CALL"), *number = getenv("FAILING_AT"), *to = getenv("FAILING_REPORT");
    if (getenv("SYNC_TAKES"))
        delay = atol(getenv("SYNC_TAKES"));
    if (!call || !number || !to)
        return;
    at = atol(number);
    report = atoi(to);
    if (getenv("FAILING_PATH"))
        path = getenv("FAILING_PATH");
    if (getenv("FAILING_FOLDER"))
        folder = getenv("FAILING_FOLDER");
    if (getenv("FAILING_ERROR"))
        error = atoi(getenv("FAILING_ERROR"));
    kind = call;
}

/* Whether this call comes before the one that fails. */
static int precedes(const char *call)
{
    return strcmp(kind, call) == 0 && count + 1 < at;
}

/* Whether this call is the one that fails. */
static int fails(const char *call)
{
    if (strcmp(kind, call) != 0 || ++count != at)
        return 0;
    syscall(SYS_write, report, "!", 1);
    return 1;
}

static int refused(void)
{
    if (!fails("growth"))
        return 0;
    errno = ENOMEM;
    return 1;
}

extern void *__libc_malloc(size_t), *__libc_calloc(size_t, size_t), *__libc_realloc(void *, size_t), *__libc_memalign(size_t, size_t);

void *malloc(size_t size)
{
    return refused() ? NULL : __libc_malloc(size);
}

void *calloc(size_t items, size_t size)
{
    return refused() ? NULL : __libc_calloc(items, size);
}

/* Shrinking isn't refused. */
void *realloc(void *held, size_t size)
{
    if ((!held || size > malloc_usable_size(held)) && refused())
        return NULL;
    return __libc_realloc(held, size);
}

int posix_memalign(void **held, size_t align, size_t size)
{
    if (refused())
        return ENOMEM;
    *held = __libc_memalign(align, size);
    return *held ? 0 : ENOMEM;
}

void *aligned_alloc(size_t align, size_t size)
{
    return refused() ? NULL : __libc_memalign(align, size);
}

void *memalign(size_t align, size_t size)
{
    return aligned_alloc(align, size);
}

static int failed(int why)
{
    errno = why;
    return -1;
}

/* Whether calls of the file with this path count. */
static int is_named(const char *name)
{
    size_t length = strlen(name), tail = strlen(path);
    return length >= tail && strcmp(name + length - tail, path) == 0 && strncmp(name, folder, strlen(folder)) == 0;
}

/* Whether calls of this open file count. */
static int is_meant(int file)
{
    char link[32], name[PATH_MAX];
    if (!*path && !*folder)
        return 1;
    snprintf(link, sizeof link, "/proc/self/fd/%d", file);
    ssize_t length = readlink(link, name, sizeof name - 1);
    name[length < 0 ? 0 : length] = 0;
    return is_named(name);
}

static void die(void)
{
    syscall(SYS_kill, getpid(), SIGKILL);
}

/* Before a call that opens a file, if it counts: the program may be killed. */
static void reach(int counts)
{
    if (counts && fails("kill"))
        die();
}

/* Before a call that changes a file or a folder, if it counts: the program may be killed. Whether the call fails. */
static int is_barred(int counts)
{
    static int all;
    reach(counts);
    all = all || (counts && fails("change"));
    return all && counts;
}

ssize_t read(int from, void *into, size_t length)
{
    static int unready, ended;
    int counts = is_meant(from);
    if (counts && fails("read"))
        return failed(error);
    if (ended && from == STDIN_FILENO)
        return failed(EIO);
    unready = unready || fails("unready");
    int early = precedes("early");
    if (fails("early") || early || unready || (counts && fails("interrupt")))
        return failed(EINTR);
    if (counts && length > 1 && fails("scant"))
        length = 1;
    ssize_t taken = syscall(SYS_read, from, into, length);
    ended = ended || (from == STDIN_FILENO && taken == 0);
    return taken;
}

ssize_t pread(int from, void *into, size_t length, off_t place)
{
    return is_meant(from) && fails("read") ? failed(error) : syscall(SYS_pread64, from, into, length, place);
}

ssize_t pread64(int from, void *into, size_t length, off_t place) __attribute__((alias("pread")));

ssize_t write(int to, const void *from, size_t length)
{
    int counts = is_meant(to);
    if (is_barred(counts) || (counts && fails("write")))
        return failed(error);
    if (counts && length > 1 && fails("short"))
        length = 1;
    if (counts && fails("tear")) {
        syscall(SYS_write, to, from, length / 2);
        die();
    }
    return syscall(SYS_write, to, from, length);
}

ssize_t pwrite(int to, const void *from, size_t length, off_t place)
{
    int counts = is_meant(to);
    if (is_barred(counts) || (counts && fails("write")))
        return failed(error);
    if (counts && length > 1 && fails("short"))
        length = 1;
    if (counts && fails("tear")) {
        syscall(SYS_pwrite64, to, from, length / 2, place);
        die();
    }
    return syscall(SYS_pwrite64, to, from, length, place);
}

ssize_t pwrite64(int to, const void *from, size_t length, off_t place) __attribute__((alias("pwrite")));

int ftruncate(int file, off_t length)
{
    int counts = is_meant(file);
    return is_barred(counts) || (counts && fails("cut")) ? failed(error) : syscall(SYS_ftruncate, file, length);
}

int ftruncate64(int file, off_t length) __attribute__((alias("ftruncate")));

ssize_t writev(int to, const struct iovec *parts, int number)
{
    int counts = is_meant(to);
    if (counts && fails("write"))
        return failed(error);
    if (counts && parts->iov_len > 1 && fails("short"))
        return syscall(SYS_write, to, parts->iov_base, 1);
    return syscall(SYS_writev, to, parts, number);
}

int statx(int at_folder, const char *restrict name, int flags, unsigned mask, struct statx *restrict into)
{
    return is_named(name) && fails("look") ? failed(error) : syscall(SYS_statx, at_folder, name, flags, mask, into);
}

int openat(int at_folder, const char *name, int flags, ...)
{
    va_list words;
    va_start(words, flags);
    mode_t mode = va_arg(words, mode_t);
    va_end(words);
    int counts = is_named(name), changes = flags & (O_CREAT | O_TRUNC | O_WRONLY | O_RDWR);
    if (!changes)
        reach(counts);
    if ((changes && is_barred(counts)) || (counts && fails("open")))
        return failed(error);
    return syscall(SYS_openat, at_folder, name, flags, mode);
}

int open(const char *name, int flags, ...)
{
    va_list words;
    va_start(words, flags);
    mode_t mode = va_arg(words, mode_t);
    va_end(words);
    return openat(AT_FDCWD, name, flags, mode);
}

int open64(const char *name, int flags, ...) __attribute__((alias("open")));
int openat64(int folder, const char *name, int flags, ...) __attribute__((alias("openat")));

/* Whether a sync of this file fails. */
static int is_unsynced(int file)
{
    int counts = is_meant(file);
    if (delay)
        usleep(delay);
    return is_barred(counts) || (counts && fails("sync"));
}

int fsync(int file)
{
    return is_unsynced(file) ? failed(error) : syscall(SYS_fsync, file);
}

int fdatasync(int file)
{
    return is_unsynced(file) ? failed(error) : syscall(SYS_fdatasync, file);
}

int renameat2(int from, const char *old, int to, const char *name, unsigned flags)
{
    int counts = is_named(name);
    if (is_barred(counts) || (counts && fails("rename")))
        return failed(error);
    int done = syscall(SYS_renameat2, from, old, to, name, flags);
    return counts && fails("renamed") ? failed(error) : done;
}

int renameat(int from, const char *old, int to, const char *name)
{
    return renameat2(from, old, to, name, 0);
}

int rename(const char *old, const char *name)
{
    return renameat2(AT_FDCWD, old, AT_FDCWD, name, 0);
}

int unlinkat(int at_folder, const char *name, int flags)
{
    return is_barred(is_named(name)) ? failed(error) : syscall(SYS_unlinkat, at_folder, name, flags);
}

int unlink(const char *name)
{
    return unlinkat(AT_FDCWD, name, 0);
}

int mkdirat(int at_folder, const char *name, mode_t mode)
{
    return is_barred(is_named(name)) ? failed(error) : syscall(SYS_mkdirat, at_folder, name, mode);
}

int mkdir(const char *name, mode_t mode)
{
    return mkdirat(AT_FDCWD, name, mode);
}

static int unsent(void)
{
    static int all;
    all = all || fails("sends");
    return all || fails("send");
}

static int unreceived(void)
{
    static int all;
    all = all || fails("receives");
    return all || fails("receive");
}

ssize_t sendto(int to, const void *from, size_t length, int flags, const struct sockaddr *address, socklen_t size)
{
    return unsent() ? failed(error) : syscall(SYS_sendto, to, from, length, flags, address, size);
}

ssize_t sendmsg(int to, const struct msghdr *message, int flags)
{
    return unsent() ? failed(error) : syscall(SYS_sendmsg, to, message, flags);
}

ssize_t recvfrom(int from, void *into, size_t length, int flags, struct sockaddr *address, socklen_t *size)
{
    if (fails("disturb"))
        return failed(EINTR);
    return unreceived() ? failed(error) : syscall(SYS_recvfrom, from, into, length, flags, address, size);
}

ssize_t recvmsg(int from, struct msghdr *message, int flags)
{
    if (fails("disturb"))
        return failed(EINTR);
    return unreceived() ? failed(error) : syscall(SYS_recvmsg, from, message, flags);
}
