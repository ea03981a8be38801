/*
 * register SECRET: prints a Map-Register for 10.1.0.0/16 in hexadecimal digits, and how the router sends it again: with
 * the next nonce, and authentic anew.
 */
#include <lisp_registration.h>
#include <stdio.h>
#include <string.h>

/* Where the nonce of a message ends: it is the 8 bytes from 4 on, in network order. */
enum { NONCE_END = 12 };

static const struct lisp_message message = {
    .kind = LISP_MAP_REGISTER, .nonce = 1, .key_id = 1, .site = 1, .xtr = {[15] = 10}, .proxy = 1, .want_notify = 1};
static const struct lisp_record records[] = {
    {.ttl = 1440, .authoritative = 1, .mask_len = 16, .locator_count = 1, .eid = {LISP_IPV4, {10, 1, 0, 0}}}};
static const struct lisp_locator locators[] = {
    {.priority = 1, .weight = 100, .m_priority = 255, .local = 1, .reachable = 1,
     .address = {LISP_IPV4, {192, 0, 2, 1}}}};

static void print(const uint8_t *datagram, size_t length)
{
    for (size_t i = 0; i < length; i++)
        printf("%02x", datagram[i]);
    putchar('\n');
}

int main(int argc, char **argv)
{
    uint8_t datagram[1024];
    size_t length;

    if (argc != 2) {
        fputs("usage: register SECRET\n", stderr);
        return 1;
    }
    const uint8_t *secret = (const uint8_t *)argv[1];
    size_t secret_length = strlen(argv[1]);
    uint16_t number = lisp_write_message(&message, records, 1, locators, 1, secret, secret_length, datagram,
                                         sizeof datagram, &length);
    if (number != LISP_DONE) {
        fprintf(stderr, "register: fault %u, see docs/REFUSALS.md\n", number);
        return 1;
    }
    print(datagram, length);
    datagram[NONCE_END - 1]++;
    lisp_sign(datagram, length, secret, secret_length);
    print(datagram, length);
    return 0;
}
