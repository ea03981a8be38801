/*
 * server CONFIGURATION FOLDER ADDRESS PORT: a Map-Server at an IPv4 address and a UDP port. It keeps the last nonce of
 * each pair of a router and a Key ID in a file of the folder, which no other program may use. Prints a line for each
 * datagram; README.md says what it leaves out. The numbers that it prints are those of docs/REFUSALS.md.
 */
#include "host.h"

/* Receives a datagram; how many bytes of the buffer have to be sent as its answer. */
static size_t receive(struct lisp_server *server, const uint8_t *bytes, size_t length, const struct lisp_address *from,
                      uint8_t buffer[MOST])
{
    struct lisp_pair pair;
    struct lisp_nonce kept = {0, 0};
    struct lisp_received received;
    char name[NAME];

    lisp_server_pair(bytes, length, &pair);
    name_file(name, &pair);
    if (pair.is_there && !load(name, &kept)) {
        printf("not received: %s can't be loaded\n", name);
        return 0;
    }
    uint16_t number = lisp_server_receive(server, &kept, from, bytes, length, now(), buffer, MOST, &received);
    if (number != LISP_DONE) {
        printf("refused %u\n", number);
        return 0;
    }
    if (received.accepted && !save(name, received.nonce)) {
        printf("not answered: %s can't be saved\n", name);
        lisp_server_restart(server);
        return 0;
    }
    printf("%s nonce %" PRIu64 "\n", received.accepted ? "accepted" : "acknowledged", received.nonce);
    return received.reply_length;
}

int main(int argc, char **argv)
{
    static uint8_t bytes[MOST], buffer[MOST];
    struct lisp_server server = {NULL};
    struct lisp_address from;
    struct sockaddr_in source;
    size_t size;

    if (argc != 5) {
        fputs("usage: server CONFIGURATION FOLDER ADDRESS PORT\n", stderr);
        return 2;
    }
    const char *text = read_text(argv[1], &size);
    uint16_t number = lisp_server_start(&server, text, size);
    if (number != LISP_DONE) {
        fprintf(stderr, "%s: fault %u\n", argv[1], number);
        return 1;
    }
    int udp = bind_in(argv[2], argv[3], argv[4], 1000);
    for (;;) {
        ssize_t length = receive_from(udp, bytes, &source, &from);
        lisp_server_expire(&server, now());
        size = length < 0 ? 0 : receive(&server, bytes, (size_t)length, &from, buffer);
        if (size > 0)
            send_to(udp, buffer, size, &source);
    }
}
