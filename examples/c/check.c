/*
 * check SECRET: reads a datagram from standard input, in hexadecimal digits with or without space between two of them
 * (as `xxd -p` and Wireshark's hex stream have it), and prints what it is. The status is 0 where its tag is right under
 * the secret, 1 where it is wrong, and 2 where the datagram can't be read.
 */
#include <inttypes.h>
#include <lisp_registration.h>
#include <stdio.h>
#include <string.h>

int main(int argc, char **argv)
{
    static uint8_t bytes[65536];
    struct lisp_message it;
    size_t length = 0;

    while (length < sizeof bytes && scanf("%2" SCNx8, &bytes[length]) == 1)
        length++;
    uint16_t number = lisp_read_message(bytes, length, &it);
    if (number != LISP_DONE || argc != 2) {
        printf("usage: check SECRET < DATAGRAM; fault %u, see docs/REFUSALS.md\n", number);
        return 2;
    }
    bool is_right = lisp_authentic(bytes, length, (const uint8_t *)argv[1], strlen(argv[1]));
    printf("type %u, nonce %" PRIu64 ", key %u, records %u\n", it.kind, it.nonce, it.key_id, it.record_count);
    printf("the tag is %s\n", is_right ? "right" : "wrong");
    return is_right ? 0 : 1;
}
