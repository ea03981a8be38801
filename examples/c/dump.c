/*
 * dump: reads a datagram from standard input as check.c does, and prints all that it says. The status is 2 where it
 * can't be read: then it prints the records in front of the first that can't, and why.
 */
#include <arpa/inet.h>
#include <inttypes.h>
#include <lisp_registration.h>
#include <stdio.h>

static uint8_t bytes[65536];

static void print_address(const char *before, const struct lisp_address *address)
{
    char text[INET6_ADDRSTRLEN];

    inet_ntop(address->family == LISP_IPV4 ? AF_INET : AF_INET6, address->octets, text, sizeof text);
    printf("%s%s", before, text);
}

static void print_message(const struct lisp_message *it)
{
    printf("type %u, nonce %" PRIu64 ", key %u, records %u\n", it->kind, it->nonce, it->key_id, it->record_count);
    if (it->kind != LISP_MAP_REGISTER)
        return;
    printf("P %u, S %u, E %u, T %u, a %u, M %u\n", it->proxy, it->sec, it->eid_notify, it->use_ttl, it->merge,
           it->want_notify);
    printf("site %016" PRIx64 ", xTR-ID ", it->site);
    for (size_t i = 0; i < sizeof it->xtr; i++)
        printf("%02x", it->xtr[i]);
    putchar('\n');
}

static void print_record(const struct lisp_record *it)
{
    print_address("record ", &it->eid);
    printf("/%u, TTL %" PRIu32 ", ACT %u, A %u, version %u\n", it->mask_len, it->ttl, it->act, it->authoritative,
           it->version);
}

static void print_locator(const struct lisp_locator *it)
{
    print_address("  locator ", &it->address);
    printf(", priority %u, weight %u, multicast %u and %u", it->priority, it->weight, it->m_priority, it->m_weight);
    printf(", L %u, p %u, R %u\n", it->local, it->probe, it->reachable);
}

/* Prints the records of a message, and their locators; the number of the first that can't be read, or 0. */
static uint16_t print_records(size_t length, unsigned count)
{
    struct lisp_record entry;
    struct lisp_locator locator;

    for (size_t at = LISP_RECORDS_AT; count > 0; count--, at = entry.end) {
        uint16_t number = lisp_read_record(bytes, length, at, &entry);
        if (number != LISP_DONE)
            return number;
        print_record(&entry);
        /* (the locators of a record that was read can be read too) */
        for (size_t from = entry.locators_at; from < entry.end; from = locator.end) {
            lisp_read_locator(bytes, length, from, &locator);
            print_locator(&locator);
        }
    }
    return LISP_DONE;
}

int main(void)
{
    struct lisp_message message;
    size_t length = 0;

    while (length < sizeof bytes && scanf("%2" SCNx8, &bytes[length]) == 1)
        length++;
    uint16_t number = lisp_read_message(bytes, length, &message);
    if (number == LISP_RECORD)
        number = print_records(length, bytes[3]);
    if (number != LISP_DONE) {
        printf("can't be read: fault %u, see docs/REFUSALS.md\n", number);
        return 2;
    }
    print_message(&message);
    print_records(length, message.record_count);
    return 0;
}
