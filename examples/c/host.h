/*
 * What server.c and router.c have in common: the clock, files of text, nonces in files of the current folder, and a
 * socket.
 */
#ifndef HOST_H
#define HOST_H

#include <arpa/inet.h>
#include <errno.h>
#include <fcntl.h>
#include <inttypes.h>
#include <lisp_registration.h>
#include <stdio.h>
#include <stdlib.h>
#include <string.h>
#include <sys/socket.h>
#include <sys/time.h>
#include <time.h>
#include <unistd.h>

enum { MOST = 65536, NAME = 64 };

/* The name of the file of a pair. */
static void name_file(char name[NAME], const struct lisp_pair *pair)
{
    int at = sprintf(name, "%016" PRIx64 "-", pair->site);

    for (size_t i = 0; i < sizeof pair->xtr; i++)
        at += sprintf(name + at, "%02x", pair->xtr[i]);
    sprintf(name + at, "-%02x", pair->key_id);
}

/* Loads a nonce; none where there is no file. False where it can't be told: that isn't the same as none. */
static bool load(const char *name, struct lisp_nonce *kept)
{
    FILE *file = fopen(name, "r");
    char end = 0;

    kept->is_there = 0;
    if (file == NULL)
        return errno == ENOENT;
    kept->is_there = fscanf(file, "%" SCNu64 "%c", &kept->nonce, &end) == 2 && end == '\n';
    fclose(file);
    return kept->is_there;
}

/* Saves a nonce so that no crash loses it: true only where the disk has it. */
static bool save(const char *name, uint64_t nonce)
{
    int folder = open(".", O_RDONLY), file = open("new", O_WRONLY | O_CREAT | O_TRUNC, 0600);
    bool is_saved = folder >= 0 && file >= 0 && dprintf(file, "%" PRIu64 "\n", nonce) > 0 && fsync(file) == 0
        && rename("new", name) == 0 && fsync(folder) == 0;

    close(file);
    close(folder);
    return is_saved;
}

/* The time in ms, which never goes back. */
static uint64_t now(void)
{
    struct timespec time;

    if (clock_gettime(CLOCK_MONOTONIC, &time) != 0)
        abort();
    return (uint64_t)time.tv_sec * 1000 + (uint64_t)time.tv_nsec / 1000000;
}

/* The text of a file, of at most a megabyte; or ends the program. */
static const char *read_text(const char *name, size_t *length)
{
    static char text[1 << 20];
    FILE *file = fopen(name, "r");

    *length = file == NULL ? 0 : fread(text, 1, sizeof text, file);
    if (file == NULL || ferror(file) || *length == sizeof text) {
        fprintf(stderr, "%s can't be read\n", name);
        exit(1);
    }
    fclose(file);
    return text;
}

/* Goes to a folder, and binds a socket which waits so many ms for a datagram; or ends the program. */
static int bind_in(const char *folder, const char *address, const char *port, int wait)
{
    struct sockaddr_in to = {.sin_family = AF_INET, .sin_port = htons((uint16_t)strtoul(port, NULL, 10))};
    struct timeval patience = {wait / 1000, wait % 1000 * 1000};
    int udp = socket(AF_INET, SOCK_DGRAM, 0);

    if (inet_pton(AF_INET, address, &to.sin_addr) != 1 || chdir(folder) != 0
        || bind(udp, (struct sockaddr *)&to, sizeof to) != 0
        || setsockopt(udp, SOL_SOCKET, SO_RCVTIMEO, &patience, sizeof patience) != 0) {
        fprintf(stderr, "no socket at %s port %s over %s: %s\n", address, port, folder, strerror(errno));
        exit(1);
    }
    setvbuf(stdout, NULL, _IOLBF, 0);
    puts("ready");
    return udp;
}

/* Receives a datagram; its length, negative where none came in time, and where it came from. */
static ssize_t receive_from(int udp, uint8_t bytes[MOST], struct sockaddr_in *source, struct lisp_address *from)
{
    socklen_t size = sizeof *source;
    ssize_t length = recvfrom(udp, bytes, MOST, 0, (struct sockaddr *)source, &size);

    if (length < 0 && errno != EAGAIN) {
        perror("no datagram");
        exit(1);
    }
    *from = (struct lisp_address){LISP_IPV4, {0}};
    memcpy(from->octets, &source->sin_addr, sizeof source->sin_addr);
    return length;
}

static void send_to(int udp, const uint8_t *bytes, size_t length, const struct sockaddr_in *to)
{
    if (sendto(udp, bytes, length, 0, (const struct sockaddr *)to, sizeof *to) < 0)
        perror("not sent");
}

#endif
