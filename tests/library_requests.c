/*
 * Map-Requests, Map-Replies and encapsulated Map-Requests (RFC 9301 sections 5.2, 5.4, 5.5 and 5.8): read and written, cut, with
 * faults, and over IPv4 and IPv6; null pointers, and lengths that no memory has.
 */
#include "library.h"
#include <stddef.h>
#include <stdio.h>
#include <string.h>

#define NONCE 0x11, 0x22, 0x33, 0x44, 0x55, 0x66, 0x77, 0x88

/* A Map-Request for 10.1.2.3/32 from the ITR-RLOC 127.0.0.9, and the same encapsulated from that address to the EID. */
#define REQUEST 0x10, 0, 0, 1, NONCE, 0, 0, 0, 1, 127, 0, 0, 9, 0, 0x20, 0, 1, 10, 1, 2, 3
static const uint8_t request_bytes[] = {REQUEST};
static const uint8_t encapsulated_bytes[] = {
    0x80, 0, 0, 0, 0x45, 0, 0, 0x38, 0, 0, 0, 0, 0x40, 0x11, 0xef, 0xa8, 127, 0, 0, 9, 10, 1, 2, 3,
    0x9c, 0x40, 0x10, 0xf6, 0, 0x24, 0, 0, REQUEST};

/* A negative Map-Reply of 11.0.0.0/8 for 15 minutes, and one of 10.1.0.0/16 with a locator. */
static const uint8_t negative_bytes[] = {0x20, 0, 0, 1, NONCE, 0, 0, 0, 15, 0, 8, 0x20, 0, 0, 0, 0, 1, 11, 0, 0, 0};
static const uint8_t reply_bytes[] = {0x20, 0, 0, 1, NONCE, 0, 0, 5, 0xa0, 1, 16, 0, 0, 0, 0, 0, 1, 10, 1, 0, 0,
                                      1, 100, 255, 0, 0, 1, 0, 1, 192, 0, 2, 1};

/* A Map-Request with all flags, a Source EID, two ITR-RLOCs and two EID-Prefixes of both families; EID bits past a mask are 0. */
static const uint8_t all_fields_bytes[] = {
    0x1b, 0xc0, 0x61, 2, 1, 2, 3, 4, 5, 6, 7, 8,
    0, 2, 0x20, 1, 0x0d, 0xb8, 0, 0, 0, 0, 0, 0, 0, 0, 0, 0, 0, 5,
    0, 1, 192, 0, 2, 33, 0, 2, 0x20, 1, 0x0d, 0xb8, 0, 0, 0, 0, 0, 0, 0, 0, 0, 0, 0, 6,
    0, 61, 0, 2, 0x20, 1, 0x0d, 0xb8, 0x80, 0, 0, 8, 0, 0, 0, 0, 0, 0, 0, 0, 0, 0, 0, 1, 0, 0, 0, 0};

static const struct lisp_address itr = {LISP_IPV4, {127, 0, 0, 9}};
static const struct lisp_address eid6 = {LISP_IPV6, {0x20, 1, 0x0d, 0xb8, [15] = 5}};
static const struct lisp_address itrs[] = {{LISP_IPV4, {192, 0, 2, 33}}, {LISP_IPV6, {0x20, 1, 0x0d, 0xb8, [15] = 6}}};
static const struct lisp_prefix asked = {32, {LISP_IPV4, {10, 1, 2, 3}}};
static const struct lisp_prefix prefixes[] = {{61, {LISP_IPV6, {0x20, 1, 0x0d, 0xb8, 0x80, 0, 0, 8}}}, {0, {LISP_IPV4, {0}}}};
static const struct lisp_record negative = {.ttl = 15, .act = 1, .mask_len = 8, .eid = {LISP_IPV4, {11}}, .locators_at = 28, .end = 28};
static const struct lisp_record mapping = {.ttl = 1440, .mask_len = 16, .locator_count = 1, .eid = {LISP_IPV4, {10, 1}},
                                           .locators_at = 28, .end = 40};
static const struct lisp_locator locator = {.priority = 1, .weight = 100, .m_priority = 255, .reachable = 1,
                                            .address = {LISP_IPV4, {192, 0, 2, 1}}, .end = 40};

/* A Map-Request, its parts and its bytes. */
static const struct asking {
    const char *name;
    struct lisp_request request;
    const struct lisp_address *itr_rlocs;
    const struct lisp_prefix *eids;
    const uint8_t *bytes;
    size_t length;
} askings[] = {
    {"a Map-Request", {.nonce = 0x1122334455667788, .itr_rloc_count = 1, .eid_count = 1, .itr_rlocs_at = 14, .eids_at = 20, .end = 28},
     &itr, &asked, request_bytes, sizeof request_bytes},
    {"all fields of a Map-Request",
     {.nonce = 0x0102030405060708, .authoritative = 1, .probe = 1, .smr = 1, .pitr = 1, .smr_invoked = 1, .local = 1, .no_reply = 1,
      .itr_rloc_count = 2, .eid_count = 2, .source = {LISP_IPV6, {0x20, 1, 0x0d, 0xb8, [15] = 5}}, .itr_rlocs_at = 30, .eids_at = 54,
      .end = 82}, itrs, prefixes, all_fields_bytes, sizeof all_fields_bytes},
};

/* A Map-Reply, its record, its locator and its bytes. */
static const struct answering {
    const char *name;
    struct lisp_reply reply;
    const struct lisp_record *record;
    size_t locator_count;
    const uint8_t *bytes;
    size_t length;
} answerings[] = {
    {"a negative Map-Reply", {.nonce = 0x1122334455667788, .record_count = 1, .records_at = 12}, &negative, 0, negative_bytes,
     sizeof negative_bytes},
    {"a Map-Reply", {.nonce = 0x1122334455667788, .record_count = 1, .records_at = 12}, &mapping, 1, reply_bytes, sizeof reply_bytes},
};

#define SAME(field) is(#field, got->field, wanted->field)

static void same_request(const struct lisp_request *got, const struct lisp_request *wanted)
{
    SAME(nonce), SAME(authoritative), SAME(probe), SAME(smr), SAME(pitr), SAME(smr_invoked), SAME(local), SAME(no_reply);
    SAME(itr_rloc_count), SAME(eid_count), SAME(itr_rlocs_at), SAME(eids_at), SAME(end);
    same_address("source", &got->source, &wanted->source);
}

static void same_reply(const struct lisp_reply *got, const struct lisp_reply *wanted)
{
    SAME(nonce), SAME(probe), SAME(echo_nonce), SAME(sec), SAME(record_count), SAME(records_at);
}

/* Reads all of a Map-Request; that takes no memory. */
static void reads_request(const struct asking *it)
{
    const uint8_t *bytes = at_edge(it->bytes, it->length);
    struct lisp_request got;
    struct lisp_address itr_rloc;
    struct lisp_prefix prefix;
    size_t at;

    calls = 0;
    is("lisp_read_request", lisp_read_request(bytes, it->length, &got), LISP_DONE);
    same_request(&got, &it->request);
    at = got.itr_rlocs_at;
    for (size_t i = 0; i < got.itr_rloc_count; i++) {
        is("lisp_read_itr_rloc", lisp_read_itr_rloc(bytes, it->length, at, &itr_rloc, &at), LISP_DONE);
        same_address("an ITR-RLOC", &itr_rloc, &it->itr_rlocs[i]);
    }
    is("where the ITR-RLOCs end", at, got.eids_at);
    for (size_t i = 0; i < got.eid_count; i++) {
        is("lisp_read_eid", lisp_read_eid(bytes, it->length, at, &prefix, &at), LISP_DONE);
        is("mask_len", prefix.mask_len, it->eids[i].mask_len);
        same_address("an EID-Prefix", &prefix.address, &it->eids[i].address);
    }
    is("where the records end", at, got.end);
    is("calls of malloc", calls, 0);
}

/* Reads all of a Map-Reply; that takes no memory. */
static void reads_reply(const struct answering *it)
{
    const uint8_t *bytes = at_edge(it->bytes, it->length);
    struct lisp_reply got;
    struct lisp_record record;
    struct lisp_locator one;

    calls = 0;
    is("lisp_read_reply", lisp_read_reply(bytes, it->length, &got), LISP_DONE);
    same_reply(&got, &it->reply);
    is("lisp_read_record", lisp_read_record(bytes, it->length, got.records_at, &record), LISP_DONE);
    same_record(&record, it->record);
    if (it->locator_count != 0) {
        is("lisp_read_locator", lisp_read_locator(bytes, it->length, record.locators_at, &one), LISP_DONE);
        same_locator(&one, &locator);
    }
    is("calls of malloc", calls, 0);
}

/* Each part of the bytes in front is a fault of reading, and leaves the struct as it was. */
static void reads_cuts(void)
{
    struct { struct lisp_request request; struct lisp_reply reply; struct lisp_encapsulated encapsulated; } to;

    memset(&to, OLD, sizeof to);
    for (size_t i = 0; i < COUNT(askings); i++)
        for (size_t length = 0; length < askings[i].length; length++)
            is("a cut Map-Request", lisp_read_request(at_edge(askings[i].bytes, length), length, &to.request), LISP_REQUEST_SHORT);
    for (size_t i = 0; i < COUNT(answerings); i++)
        for (size_t length = 0; length < answerings[i].length; length++)
            is("a cut Map-Reply", lisp_read_reply(at_edge(answerings[i].bytes, length), length, &to.reply), LISP_REQUEST_SHORT);
    for (size_t length = 0; length < sizeof encapsulated_bytes; length++)
        is("a cut encapsulated Map-Request",
           lisp_read_encapsulated(at_edge(encapsulated_bytes, length), length, &to.encapsulated),
           length < 24 ? LISP_REQUEST_SHORT : LISP_IP_LENGTH);
    untouched(&to, sizeof to);
}

/* One byte of a sample is another one: the fault of reading it. */
static const struct { uint8_t sample; uint8_t at, value; uint16_t number; } damages[] = {
    {0, 0, 0x20, LISP_REQUEST_KIND}, {0, 3, 0, LISP_NO_RECORD}, {0, 13, 3, LISP_REQUEST_AFI}, {0, 15, 3, LISP_REQUEST_AFI},
    {0, 23, 3, LISP_REQUEST_AFI}, {0, 21, 33, LISP_REQUEST_MASK}, {0, 2, 1, LISP_REQUEST_AFI}, {0, 3, 2, LISP_REQUEST_SHORT},
    {1, 0, 0x10, LISP_REQUEST_KIND}, {1, 23, 3, LISP_REQUEST_AFI}, {1, 17, 33, LISP_REQUEST_MASK}, {1, 3, 2, LISP_REQUEST_SHORT},
    {1, 3, 0, LISP_REQUEST_TRAILING}, {1, 16, 0, LISP_REQUEST_TRAILING}, {1, 35, 3, LISP_REQUEST_AFI},
    {2, 0, 0x10, LISP_REQUEST_KIND}, {2, 0, 0x88, LISP_SECURITY}, {2, 4, 0x55, LISP_IP_VERSION}, {2, 4, 0x44, LISP_IP_HEADER_LENGTH},
    {2, 7, 0x39, LISP_IP_LENGTH}, {2, 10, 0x20, LISP_FRAGMENT}, {2, 13, 6, LISP_PROTOCOL}, {2, 12, 0x41, LISP_IP_CHECKSUM},
    {2, 27, 0xf7, LISP_PORT}, {2, 29, 7, LISP_UDP_LENGTH}, {2, 31, 1, LISP_UDP_CHECKSUM}, {2, 4, 0x65, LISP_PROTOCOL},
};

static void reads_damages(void)
{
    for (size_t i = 0; i < COUNT(damages); i++) {
        struct { struct lisp_request request; struct lisp_reply reply; struct lisp_encapsulated encapsulated; } to;
        const uint8_t *of = damages[i].sample == 0 ? request_bytes : damages[i].sample == 1 ? reply_bytes : encapsulated_bytes;
        size_t length = damages[i].sample == 0 ? sizeof request_bytes : damages[i].sample == 1 ? sizeof reply_bytes
            : sizeof encapsulated_bytes;
        uint8_t *bytes = at_edge(of, length);
        static char name[32];

        now = name;
        snprintf(name, sizeof name, "damage %zu", i);
        bytes[damages[i].at] = damages[i].value;
        memset(&to, OLD, sizeof to);
        if (damages[i].sample == 0)
            is("its fault", lisp_read_request(bytes, length, &to.request), damages[i].number);
        else if (damages[i].sample == 1)
            is("its fault", lisp_read_reply(bytes, length, &to.reply), damages[i].number);
        else
            is("its fault", lisp_read_encapsulated(bytes, length, &to.encapsulated), damages[i].number);
        untouched(&to, sizeof to);
    }
}

/* What is written into a buffer, with this answer. */
static void was_written(uint16_t number, uint16_t wanted, const uint8_t *buffer, size_t room, size_t length, const uint8_t *bytes,
                        size_t size)
{
    is("its number", number, wanted);
    is("the length", length, wanted == LISP_DONE || wanted == LISP_ROOM ? size : 77);
    is("blocks that aren't freed", held, 0);
    if (wanted == LISP_DONE) {
        same("the message", buffer, bytes, size);
        untouched(buffer + size, room - size);
    } else {
        untouched(buffer, room);
    }
}

static void writes_request(const struct asking *it, size_t room, uint16_t wanted)
{
    size_t length = 77;
    uint8_t *buffer = edge(room);
    uint16_t number = lisp_write_request(&it->request, it->itr_rlocs, it->request.itr_rloc_count, it->eids, it->request.eid_count,
                                         buffer, room, &length);

    was_written(number, wanted, buffer, room, length, it->bytes, it->length);
}

static void writes_reply(const struct answering *it, size_t room, uint16_t wanted)
{
    size_t length = 77;
    uint8_t *buffer = edge(room);
    uint16_t number = lisp_write_reply(&it->reply, it->record, 1, &locator, it->locator_count, buffer, room, &length);

    was_written(number, wanted, buffer, room, length, it->bytes, it->length);
}

/* A UDP checksum of the sample is written, though it has none there: of its 16 bit words and those of the pseudo-header. */
static void with_checksum(uint8_t *bytes)
{
    uint32_t sum = 17 + 0x24;

    memcpy(bytes, encapsulated_bytes, sizeof encapsulated_bytes);
    for (size_t at = 16; at < sizeof encapsulated_bytes; at += 2)
        sum += (uint32_t)bytes[at] << 8 | bytes[at + 1];
    sum = (sum & 0xffff) + (sum >> 16);
    sum = 0xffff - ((sum & 0xffff) + (sum >> 16));
    bytes[30] = (uint8_t)(sum >> 8);
    bytes[31] = (uint8_t)sum;
}

static const struct lisp_encapsulated around = {.source = {LISP_IPV4, {127, 0, 0, 9}}, .destination = {LISP_IPV4, {10, 1, 2, 3}},
                                                .port = 40000, .message_at = 32, .message_length = 28};

static void writes_encapsulated(size_t room, uint16_t wanted)
{
    uint8_t bytes[sizeof encapsulated_bytes], *buffer = edge(room);
    size_t length = 77;
    uint16_t number = lisp_write_encapsulated(&around, request_bytes, sizeof request_bytes, buffer, room, &length);

    with_checksum(bytes);
    was_written(number, wanted, buffer, room, length, bytes, sizeof bytes);
}

static void reads_encapsulated(const uint8_t *sample, size_t length, const struct lisp_encapsulated *wanted)
{
    const uint8_t *bytes = at_edge(sample, length);
    struct lisp_encapsulated read, *got = &read;
    struct lisp_request request;

    calls = 0;
    is("lisp_read_encapsulated", lisp_read_encapsulated(bytes, length, got), LISP_DONE);
    SAME(port), SAME(message_at), SAME(message_length);
    same_address("source", &got->source, &wanted->source);
    same_address("destination", &got->destination, &wanted->destination);
    is("its message", lisp_read_request(bytes + got->message_at, got->message_length, &request), LISP_DONE);
    same_request(&request, &askings[0].request);
    is("calls of malloc", calls, 0);
}

/* Over IPv6 a message is written and read again, and not without a checksum; over IPv4 options go before it. */
static void other_headers(void)
{
    const struct lisp_encapsulated over6 = {.source = eid6, .destination = eid6, .port = 1, .message_at = 52, .message_length = 28};
    uint8_t bytes[80], options[64] = {0x80, 0, 0, 0, 0x46, 0, 0, 0x3c, 0, 0, 0, 0, 0x40, 0x11, 0xee, 0xa4, 127, 0, 0, 9, 10, 1, 2, 3};
    struct lisp_encapsulated long_header = around;
    size_t length;

    is("over IPv6", lisp_write_encapsulated(&over6, request_bytes, sizeof request_bytes, bytes, sizeof bytes, &length), LISP_DONE);
    is("its length", length, sizeof bytes);
    reads_encapsulated(bytes, length, &over6);
    bytes[50] = bytes[51] = 0;
    is("without a checksum", lisp_read_encapsulated(bytes, length, &long_header), LISP_UDP_CHECKSUM);
    memcpy(options + 28, encapsulated_bytes + 24, 36);
    long_header.message_at = 36;
    reads_encapsulated(options, sizeof options, &long_header);
}

/* Each call of malloc or realloc is refused in turn; the next call of the library finds memory again. */
static void want_memory(void)
{
    for (int of = 0; of < 3; of++) {
        for (long at = 1, most = 1; at <= most; at++) {
            for (int again = 0; again < 2; again++) {
                uint16_t wanted = again ? LISP_DONE : LISP_OUT_OF_MEMORY;
                calls = 0, refused = again ? 0 : at;
                if (of == 0)
                    writes_request(&askings[1], askings[1].length, wanted);
                else if (of == 1)
                    writes_reply(&answerings[1], answerings[1].length, wanted);
                else
                    writes_encapsulated(sizeof encapsulated_bytes, wanted);
                most = again ? calls : most;
            }
        }
    }
}

static void faults_of_requests(void)
{
    struct asking it = askings[0];
    struct lisp_address addresses[33];
    static struct lisp_prefix many[256];
    uint8_t buffer[2048];
    size_t length = 77;

    for (size_t i = 0; i < COUNT(addresses); i++)
        addresses[i] = itr;
    for (size_t i = 0; i < COUNT(many); i++)
        many[i] = asked;
    memset(buffer, OLD, sizeof buffer);
#define WRITE(rlocs, rloc_count, eids, eid_count) \
    lisp_write_request(&it.request, rlocs, rloc_count, eids, eid_count, buffer, sizeof buffer, &length)
    is("no ITR-RLOC", WRITE(addresses, 0, many, 1), LISP_COUNTS);
    is("33 ITR-RLOCs", WRITE(addresses, 33, many, 1), LISP_COUNTS);
    is("no EID-Prefix", WRITE(addresses, 1, many, 0), LISP_COUNTS);
    is("256 EID-Prefixes", WRITE(addresses, 1, many, 256), LISP_COUNTS);
    it.request.source.family = 3;
    is("a Source EID of no family", WRITE(addresses, 1, many, 1), LISP_FIELD);
    it.request.source.family = 0;
    addresses[31].family = 0;
    is("an ITR-RLOC of no family", WRITE(addresses, 32, many, 1), LISP_FIELD);
    addresses[31].family = LISP_IPV4;
    many[254].mask_len = 33;
    is("a mask that is too long", WRITE(addresses, 32, many, 255), LISP_FIELD);
    is("the length", length, 77);
    untouched(buffer, sizeof buffer);
    many[254].mask_len = 31;
    is("the most parts", WRITE(addresses, 32, many, 255), LISP_ROOM);
    is("their length", length, 14 + 32 * 6 + 255 * 8);
}

static void faults_of_replies(void)
{
    struct lisp_encapsulated outside = around;
    struct lisp_record record = mapping;
    static struct lisp_record many[256];
    uint8_t buffer[256];
    size_t length = 77;

    memset(buffer, OLD, sizeof buffer);
#define REPLY(records, count, locators, locator_count) \
    lisp_write_reply(&answerings[1].reply, records, count, locators, locator_count, buffer, sizeof buffer, &length)
    is("256 records", REPLY(many, 256, NULL, 0), LISP_COUNTS);
    is("too few locators", REPLY(&record, 1, NULL, 0), LISP_COUNTS);
    record.locator_count = 0;
    is("a locator is left", REPLY(&record, 1, &locator, 1), LISP_COUNTS);
    record.act = 8;
    is("ACT above 7", REPLY(&record, 1, NULL, 0), LISP_FIELD);
#define ENCAPSULATE(size) lisp_write_encapsulated(&outside, request_bytes, size, buffer, sizeof buffer, &length)
    outside.source.family = 0;
    is("a source of no family", ENCAPSULATE(28), LISP_FIELD);
    outside.source.family = LISP_IPV6;
    is("two families", ENCAPSULATE(28), LISP_FIELD);
    outside.destination.family = 3;
    is("a destination of no family", ENCAPSULATE(28), LISP_FIELD);
    is("the length", length, 77);
    untouched(buffer, sizeof buffer);
}

/* The longest message that a datagram carries, and one byte more. */
static void longest_message(void)
{
    static uint8_t message[65508];
    size_t length = 77;

    is("a message that is too long", lisp_write_encapsulated(&around, message, 65508, NULL, 0, &length), LISP_FIELD);
    is("the length", length, 77);
    is("the longest message", lisp_write_encapsulated(&around, message, 65507, NULL, 0, &length), LISP_ROOM);
    is("its length", length, 4 + 65535);
}

static void pointers_of_reading_requests(void)
{
    const size_t beyond = (size_t)PTRDIFF_MAX + 1;
    struct { struct lisp_request request; struct lisp_reply reply; struct lisp_encapsulated encapsulated; struct lisp_address address;
             struct lisp_prefix prefix; size_t end; } to;

    memset(&to, OLD, sizeof to);
    is("a Map-Request of null", lisp_read_request(NULL, 1, &to.request), LISP_NULL);
    is("an ITR-RLOC of null", lisp_read_itr_rloc(NULL, 1, 0, &to.address, &to.end), LISP_NULL);
    is("an EID-Prefix of null", lisp_read_eid(NULL, 1, 0, &to.prefix, &to.end), LISP_NULL);
    is("a Map-Reply of null", lisp_read_reply(NULL, 1, &to.reply), LISP_NULL);
    is("an encapsulated one of null", lisp_read_encapsulated(NULL, 1, &to.encapsulated), LISP_NULL);
    is("a Map-Request of no bytes", lisp_read_request(NULL, 0, &to.request), LISP_REQUEST_SHORT);
    is("an ITR-RLOC of no bytes", lisp_read_itr_rloc(NULL, 0, 0, &to.address, &to.end), LISP_REQUEST_SHORT);
    is("an EID-Prefix of no bytes", lisp_read_eid(NULL, 0, 0, &to.prefix, &to.end), LISP_REQUEST_SHORT);
    is("a Map-Reply of no bytes", lisp_read_reply(NULL, 0, &to.reply), LISP_REQUEST_SHORT);
    is("an encapsulated one of no bytes", lisp_read_encapsulated(NULL, 0, &to.encapsulated), LISP_REQUEST_SHORT);
    is("a Map-Request too long", lisp_read_request(request_bytes, beyond, &to.request), LISP_LENGTH);
    is("an ITR-RLOC too long", lisp_read_itr_rloc(request_bytes, beyond, 14, &to.address, &to.end), LISP_LENGTH);
    is("an EID-Prefix too long", lisp_read_eid(request_bytes, beyond, 20, &to.prefix, &to.end), LISP_LENGTH);
    is("a Map-Reply too long", lisp_read_reply(reply_bytes, beyond, &to.reply), LISP_LENGTH);
    is("an encapsulated one too long", lisp_read_encapsulated(encapsulated_bytes, beyond, &to.encapsulated), LISP_LENGTH);
    is("an ITR-RLOC behind the end", lisp_read_itr_rloc(request_bytes, 28, SIZE_MAX, &to.address, &to.end), LISP_REQUEST_SHORT);
    is("an EID-Prefix behind the end", lisp_read_eid(request_bytes, 28, SIZE_MAX, &to.prefix, &to.end), LISP_REQUEST_SHORT);
    is("a Map-Request to null", lisp_read_request(request_bytes, 28, NULL), LISP_NULL);
    is("an ITR-RLOC to null", lisp_read_itr_rloc(request_bytes, 28, 14, NULL, &to.end), LISP_NULL);
    is("its end to null", lisp_read_itr_rloc(request_bytes, 28, 14, &to.address, NULL), LISP_NULL);
    is("an EID-Prefix to null", lisp_read_eid(request_bytes, 28, 20, NULL, &to.end), LISP_NULL);
    is("its end to null", lisp_read_eid(request_bytes, 28, 20, &to.prefix, NULL), LISP_NULL);
    is("a Map-Reply to null", lisp_read_reply(reply_bytes, 40, NULL), LISP_NULL);
    is("an encapsulated one to null", lisp_read_encapsulated(encapsulated_bytes, 60, NULL), LISP_NULL);
    untouched(&to, sizeof to);
}

static void pointers_of_writing_requests(void)
{
    const size_t beyond = (size_t)PTRDIFF_MAX + 1;
    const struct lisp_request *request = &askings[0].request;
    const struct lisp_reply *reply = &answerings[0].reply;
    uint8_t buffer[80];
    size_t length = 77;

    memset(buffer, OLD, sizeof buffer);
    is("no Map-Request", lisp_write_request(NULL, &itr, 1, &asked, 1, buffer, 80, &length), LISP_NULL);
    is("no ITR-RLOCs", lisp_write_request(request, NULL, 1, &asked, 1, buffer, 80, &length), LISP_NULL);
    is("no EID-Prefixes", lisp_write_request(request, &itr, 1, NULL, 1, buffer, 80, &length), LISP_NULL);
    is("no buffer", lisp_write_request(request, &itr, 1, &asked, 1, NULL, 80, &length), LISP_NULL);
    is("no length", lisp_write_request(request, &itr, 1, &asked, 1, buffer, 80, NULL), LISP_NULL);
    is("too many ITR-RLOCs", lisp_write_request(request, &itr, beyond / sizeof itr + 1, &asked, 1, buffer, 80, &length), LISP_LENGTH);
    is("too many EID-Prefixes", lisp_write_request(request, &itr, 1, &asked, beyond / sizeof asked + 1, buffer, 80, &length), LISP_LENGTH);
    is("too much room", lisp_write_request(request, &itr, 1, &asked, 1, buffer, beyond, &length), LISP_LENGTH);
    is("no Map-Reply", lisp_write_reply(NULL, &negative, 1, NULL, 0, buffer, 80, &length), LISP_NULL);
    is("no records", lisp_write_reply(reply, NULL, 1, NULL, 0, buffer, 80, &length), LISP_NULL);
    is("no locators", lisp_write_reply(reply, &negative, 1, NULL, 1, buffer, 80, &length), LISP_NULL);
    is("no buffer", lisp_write_reply(reply, &negative, 1, NULL, 0, NULL, 80, &length), LISP_NULL);
    is("no length", lisp_write_reply(reply, &negative, 1, NULL, 0, buffer, 80, NULL), LISP_NULL);
    is("too many records", lisp_write_reply(reply, &negative, beyond / sizeof negative + 1, NULL, 0, buffer, 80, &length), LISP_LENGTH);
    is("too many locators", lisp_write_reply(reply, &negative, 1, &locator, beyond / sizeof locator + 1, buffer, 80, &length), LISP_LENGTH);
    is("too much room", lisp_write_reply(reply, &negative, 1, NULL, 0, buffer, beyond, &length), LISP_LENGTH);
    is("no headers", lisp_write_encapsulated(NULL, request_bytes, 28, buffer, 80, &length), LISP_NULL);
    is("no message", lisp_write_encapsulated(&around, NULL, 28, buffer, 80, &length), LISP_NULL);
    is("no buffer", lisp_write_encapsulated(&around, request_bytes, 28, NULL, 80, &length), LISP_NULL);
    is("no length", lisp_write_encapsulated(&around, request_bytes, 28, buffer, 80, NULL), LISP_NULL);
    is("a message too long", lisp_write_encapsulated(&around, request_bytes, beyond, buffer, 80, &length), LISP_LENGTH);
    is("too much room", lisp_write_encapsulated(&around, request_bytes, 28, buffer, beyond, &length), LISP_LENGTH);
    is("the length", length, 77);
    untouched(buffer, sizeof buffer);
}

/* Bits that aren't read: M, R, I, the reserved ones, an EID's bits past its mask, and what follows the records. */
static void ignored_bits(void)
{
    uint8_t bytes[sizeof request_bytes + 8] = {REQUEST};
    struct lisp_request request;
    struct lisp_prefix prefix;
    size_t end;

    bytes[0] |= 0x04, bytes[1] |= 0x3f, bytes[2] |= 0x80, bytes[20] = 0xff, bytes[21] = 24;
    is("with ignored bits", lisp_read_request(bytes, sizeof bytes, &request), LISP_DONE);
    same_request(&request, &askings[0].request);
    is("its EID-Prefix", lisp_read_eid(bytes, sizeof bytes, 20, &prefix, &end), LISP_DONE);
    is("its last byte", prefix.address.octets[3], 0);
}

void requests(void)
{
    for (size_t i = 0; i < COUNT(askings); i++) {
        now = askings[i].name;
        reads_request(&askings[i]);
        writes_request(&askings[i], askings[i].length, LISP_DONE);
        writes_request(&askings[i], askings[i].length + 100, LISP_DONE);
        writes_request(&askings[i], askings[i].length - 1, LISP_ROOM);
        writes_request(&askings[i], 0, LISP_ROOM);
    }
    for (size_t i = 0; i < COUNT(answerings); i++) {
        now = answerings[i].name;
        reads_reply(&answerings[i]);
        writes_reply(&answerings[i], answerings[i].length, LISP_DONE);
        writes_reply(&answerings[i], answerings[i].length + 100, LISP_DONE);
        writes_reply(&answerings[i], answerings[i].length - 1, LISP_ROOM);
    }
    now = "an encapsulated Map-Request";
    reads_encapsulated(encapsulated_bytes, sizeof encapsulated_bytes, &around);
    writes_encapsulated(sizeof encapsulated_bytes, LISP_DONE);
    writes_encapsulated(sizeof encapsulated_bytes + 100, LISP_DONE);
    writes_encapsulated(sizeof encapsulated_bytes - 1, LISP_ROOM);
    other_headers();
    longest_message();
    now = "Map-Requests and Map-Replies";
    reads_cuts();
    ignored_bits();
    want_memory();
    faults_of_requests();
    faults_of_replies();
    pointers_of_reading_requests();
    pointers_of_writing_requests();
    reads_damages();
}
