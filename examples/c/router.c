/*
 * router CONFIGURATION NAME FOLDER ADDRESS PORT: the router of that name, at an IPv4 address and a UDP port, which is
 * that of its Map-Servers too. It keeps the last nonce that it sent in a file of the folder, which no other program may
 * use. Prints a line for each datagram. The numbers that it prints are those of docs/REFUSALS.md.
 */
#include "host.h"

static struct lisp_router router;
static const char *text, *node;
static size_t size;
static char name[NAME];

/* Starts the router over the nonce that is kept, also again where a save failed; or ends the program. */
static void start(void)
{
    struct lisp_nonce kept;
    bool is_loaded = load(name, &kept);
    uint16_t number = is_loaded ? lisp_router_start(&router, text, size, node, &kept, now()) : LISP_DONE;

    if (!is_loaded || number != LISP_DONE) {
        fprintf(stderr, "router %s: fault %u, or %s can't be loaded\n", node, number, name);
        exit(1);
    }
}

/* Sends what is due; whether more may be due. */
static bool send_due(int udp, const char *port, uint8_t buffer[MOST])
{
    struct sockaddr_in to = {.sin_family = AF_INET, .sin_port = htons((uint16_t)strtoul(port, NULL, 10))};
    struct lisp_due due;
    struct lisp_sent sent;

    lisp_router_due(&router, now(), &due);
    if (!due.is_there)
        return false;
    uint16_t number = lisp_router_send(&router, due.server, due.part, now(), buffer, MOST, &sent);
    if (number != LISP_DONE) {
        printf("not sent: fault %u\n", number);
        return false;
    }
    if (sent.must_save && !save(name, sent.nonce)) {
        printf("not sent: %s can't be saved\n", name);
        start();
        return false;
    }
    memcpy(&to.sin_addr, sent.to.octets, sizeof to.sin_addr);
    send_to(udp, buffer, sent.length, &to);
    printf("sent to Map-Server %zu\n", due.server);
    return true;
}

/* Receives a datagram; how many bytes of the buffer have to be sent as its answer. */
static size_t receive(const uint8_t *bytes, size_t length, const struct lisp_address *from, uint8_t buffer[MOST])
{
    struct lisp_seen seen;
    uint16_t number = lisp_router_receive(&router, from, bytes, length, now(), buffer, MOST, &seen);

    if (number != LISP_DONE) {
        printf("refused %u\n", number);
        return 0;
    }
    printf("%s nonce %" PRIu64 "\n", seen.is_notice ? "notice" : "counted", seen.nonce);
    return seen.reply_length;
}

int main(int argc, char **argv)
{
    static uint8_t bytes[MOST], buffer[MOST];
    struct lisp_pair pair;
    struct lisp_address from;
    struct sockaddr_in source;

    if (argc != 6) {
        fputs("usage: router CONFIGURATION NAME FOLDER ADDRESS PORT\n", stderr);
        return 2;
    }
    text = read_text(argv[1], &size);
    node = argv[2];
    uint16_t number = lisp_router_pair(text, size, node, &pair);
    if (number != LISP_DONE) {
        fprintf(stderr, "%s: fault %u\n", argv[1], number);
        return 1;
    }
    name_file(name, &pair);
    int udp = bind_in(argv[3], argv[4], argv[5], 100);
    for (start();;) {
        while (send_due(udp, argv[5], buffer))
            ;
        ssize_t length = receive_from(udp, bytes, &source, &from);
        size_t answer = length < 0 ? 0 : receive(bytes, (size_t)length, &from, buffer);
        if (answer > 0)
            send_to(udp, buffer, answer, &source);
    }
}
