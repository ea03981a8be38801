/*
 * library CONFIGURATION SECRET DATAGRAM..: tests liblisp_registration.a as a C program sees it, by its header. The arguments are the
 * text of a configuration, then the secret and the datagram of each message in `worked`, in hexadecimal digits: library.py has them.
 * It is linked with --wrap for malloc, realloc and free, which it counts and refuses. Prints each check that fails, and ends with 1
 * where one does.
 */
#define _DEFAULT_SOURCE
#include "library.h"
#include <stdio.h>
#include <stdlib.h>
#include <string.h>
#include <sys/mman.h>

#define RECORD_10_1 {.ttl = 1440, .authoritative = 1, .mask_len = 16, .locator_count = 1, .eid = {LISP_IPV4, {10, 1}}, \
    .locators_at = 48, .end = 60}
#define LOCATOR_192 {.priority = 1, .weight = 100, .m_priority = 255, .local = 1, .reachable = 1, \
    .address = {LISP_IPV4, {192, 0, 2, 1}}, .end = 60}
#define RECORD_10_1_9 {.ttl = 1440, .authoritative = 1, .mask_len = 24, .locator_count = 1, .eid = {LISP_IPV4, {10, 1, 9}}, \
    .locators_at = 48, .end = 60}
#define FIRST_OF_NOTICES 0x8000000000000000

struct worked worked[WORKED] = {
    {"Map-Register", {.kind = LISP_MAP_REGISTER, .nonce = 1, .key_id = 1, .site = 1, .xtr = {[15] = 10}, .proxy = 1, .want_notify = 1,
     .record_count = 1, .records_at = 32, .records_end = 60}, {RECORD_10_1}, {LOCATOR_192}, 1, 1, 0, 0, NULL, NULL},
    {"Map-Notify", {.kind = LISP_MAP_NOTIFY, .nonce = 1, .key_id = 1, .record_count = 1, .records_at = 32, .records_end = 60},
     {RECORD_10_1}, {LOCATOR_192}, 1, 1, 0, 0, NULL, NULL},
    {"Map-Notify-Ack", {.kind = LISP_MAP_NOTIFY_ACK, .nonce = UINT64_MAX, .key_id = 255, .records_at = 32, .records_end = 32},
     {{0}}, {{0}}, 0, 0, 0, 0, NULL, NULL},
    {"all fields", {.kind = LISP_MAP_REGISTER, .nonce = 0x0102030405060708, .key_id = 9, .site = 0xa1a2a3a4a5a6a7a8,
     .xtr = {1, 2, 3, 4, 5, 6, 7, 8, 9, 10, 11, 12, 13, 14, 15, 16}, .proxy = 1, .sec = 1, .eid_notify = 1, .use_ttl = 1, .merge = 1,
     .want_notify = 1, .record_count = 3, .records_at = 32, .records_end = 140},
     {{.ttl = 0x11223344, .version = 0xabc, .act = 5, .authoritative = 1, .mask_len = 61, .locator_count = 2,
       .eid = {LISP_IPV6, {0x20, 1, 0x0d, 0xb8, 0x80, 0, 0, 8}}, .locators_at = 60, .end = 96},
      {.version = 0xfff, .mask_len = 32, .locator_count = 1, .eid = {LISP_IPV4, {198, 51, 100, 7}}, .locators_at = 112, .end = 124},
      {.ttl = 7, .act = 7, .eid = {LISP_IPV4, {0}}, .locators_at = 140, .end = 140}},
     {{1, 2, 3, 4, 1, 0, 1, {LISP_IPV4, {192, 0, 2, 33}}, 72},
      {254, 5, 6, 7, 0, 1, 0, {LISP_IPV6, {0x20, 1, 0x0d, 0xb8, [13] = 1, [15] = 2}}, 96},
      {255, 0, 254, 1, 0, 0, 0, {LISP_IPV4, {203, 0, 113, 9}}, 124}}, 3, 3, 0, 0, NULL, NULL},
    {"255 records", {.kind = LISP_MAP_REGISTER, .record_count = 255, .records_at = 32, .records_end = 32 + 255 * 28},
     {RECORD_10_1}, {LOCATOR_192}, 255, 255, 0, 0, NULL, NULL},
    {"a notice", {.kind = LISP_MAP_NOTIFY, .nonce = FIRST_OF_NOTICES, .key_id = 1, .record_count = 1, .records_at = 32, .records_end = 60},
     {RECORD_10_1}, {LOCATOR_192}, 1, 1, 0, 0, NULL, NULL},
    {"its acknowledgement", {.kind = LISP_MAP_NOTIFY_ACK, .nonce = FIRST_OF_NOTICES, .key_id = 1, .record_count = 1, .records_at = 32,
     .records_end = 60}, {RECORD_10_1}, {LOCATOR_192}, 1, 1, 0, 0, NULL, NULL},
    {"the next Map-Register", {.kind = LISP_MAP_REGISTER, .nonce = 2, .key_id = 1, .site = 1, .xtr = {[15] = 10}, .proxy = 1,
     .want_notify = 1, .record_count = 1, .records_at = 32, .records_end = 60}, {RECORD_10_1}, {LOCATOR_192}, 1, 1, 0, 0, NULL, NULL},
    {"another record", {.kind = LISP_MAP_REGISTER, .nonce = 2, .key_id = 1, .site = 1, .xtr = {[15] = 10}, .proxy = 1,
     .want_notify = 1, .record_count = 1, .records_at = 32, .records_end = 60}, {RECORD_10_1_9}, {LOCATOR_192}, 1, 1, 0, 0, NULL, NULL},
    {"the second router", {.kind = LISP_MAP_REGISTER, .nonce = 1, .key_id = 1, .site = 1, .xtr = {[15] = 11}, .want_notify = 1,
     .record_count = 1, .records_at = 32, .records_end = 60},
     {{.ttl = 1440, .authoritative = 1, .mask_len = 24, .locator_count = 1, .eid = {LISP_IPV4, {10, 1, 2}}, .locators_at = 48, .end = 60}},
     {{.priority = 1, .weight = 100, .m_priority = 255, .local = 1, .reachable = 1, .address = {LISP_IPV4, {192, 0, 2, 2}}, .end = 60}},
     1, 1, 0, 0, NULL, NULL},
    {"255 locators", {.kind = LISP_MAP_REGISTER, .nonce = 1, .key_id = 1, .site = 1, .xtr = {[15] = 10}, .proxy = 1, .want_notify = 1,
     .record_count = 1, .records_at = 32, .records_end = 48 + 255 * 12},
     {{.ttl = 1440, .authoritative = 1, .mask_len = 16, .locator_count = 255, .eid = {LISP_IPV4, {10, 1}}, .locators_at = 48,
       .end = 48 + 255 * 12}},
     {LOCATOR_192}, 1, 255, 0, 0, NULL, NULL},
};

/* Fills the lists of records and of locators, which are alike but for their places: each record has 28 bytes, each locator `size`. */
static void repeat(struct worked *it, size_t size)
{
    for (size_t i = 1; i < it->record_count; i++) {
        it->records[i] = it->records[0];
        it->records[i].locators_at += 28 * i;
        it->records[i].end += 28 * i;
    }
    for (size_t i = 1; i < it->locator_count; i++) {
        it->locators[i] = it->locators[0];
        it->locators[i].end += size * i;
    }
}

const char *text;
size_t text_length;
const struct lisp_address r1 = {LISP_IPV4, {127, 0, 0, 21}}, r2 = {LISP_IPV4, {127, 0, 0, 22}};
const struct lisp_address s1 = {LISP_IPV4, {127, 0, 0, 11}}, s2 = {LISP_IPV4, {127, 0, 0, 12}};
const char *now = "";
static int failed;

void is(const char *what, unsigned long long got, unsigned long long wanted)
{
    if (got != wanted) {
        failed = 1;
        printf("library.c: %s: %s: %llu, wanted %llu\n", now, what, got, wanted);
    }
}

void same(const char *what, const void *got, const void *wanted, size_t length)
{
    is(what, memcmp(got, wanted, length) == 0, 1);
}

void untouched(const void *it, size_t size)
{
    for (size_t at = 0; at < size; at++)
        is("a byte that was there", ((const uint8_t *)it)[at], OLD);
}

long calls, refused, held;

void *__real_malloc(size_t size), *__real_realloc(void *old, size_t size), __real_free(void *block);
void *__wrap_malloc(size_t size), *__wrap_realloc(void *old, size_t size), __wrap_free(void *block);

void *__wrap_malloc(size_t size)
{
    void *block = ++calls == refused ? NULL : __real_malloc(size);

    held += block != NULL;
    return block;
}

void *__wrap_realloc(void *old, size_t size)
{
    void *block = ++calls == refused ? NULL : __real_realloc(old, size);

    held += old == NULL && block != NULL;
    return block;
}

void __wrap_free(void *block)
{
    held -= block != NULL;
    __real_free(block);
}

uint8_t *edge(size_t length)
{
    enum { SPACE = 65536 };
    static uint8_t *end;

    if (end == NULL) {
        uint8_t *start = mmap(NULL, 2 * SPACE, PROT_READ | PROT_WRITE, MAP_PRIVATE | MAP_ANONYMOUS, -1, 0);
        if (start == MAP_FAILED || mprotect(start + SPACE, SPACE, PROT_NONE) != 0)
            abort();
        end = start + SPACE;
    }
    return memset(end - length, OLD, length);
}

uint8_t *at_edge(const uint8_t *bytes, size_t length)
{
    return memcpy(edge(length), bytes, length);
}

#define SAME(field) is(#field, got->field, wanted->field)

void same_address(const char *what, const struct lisp_address *got, const struct lisp_address *wanted)
{
    is(what, got->family, wanted->family);
    same(what, got->octets, wanted->octets, 16);
}

void same_record(const struct lisp_record *got, const struct lisp_record *wanted)
{
    SAME(ttl), SAME(version), SAME(act), SAME(authoritative), SAME(mask_len), SAME(locator_count), SAME(locators_at), SAME(end);
    same_address("eid", &got->eid, &wanted->eid);
}

void same_locator(const struct lisp_locator *got, const struct lisp_locator *wanted)
{
    SAME(priority), SAME(weight), SAME(m_priority), SAME(m_weight), SAME(local), SAME(probe), SAME(reachable), SAME(end);
    same_address("address", &got->address, &wanted->address);
}

static void reads_message(const uint8_t *bytes, size_t length, const struct lisp_message *wanted)
{
    struct lisp_message message, *got = &message;

    is("lisp_read_message", lisp_read_message(bytes, length, got), LISP_DONE);
    SAME(nonce), SAME(site), SAME(kind), SAME(key_id), SAME(record_count), SAME(records_at), SAME(records_end);
    SAME(proxy), SAME(sec), SAME(eid_notify), SAME(use_ttl), SAME(merge), SAME(want_notify);
    same("xtr", got->xtr, wanted->xtr, 16);
}

static void reads_record(const uint8_t *bytes, size_t length, size_t at, const struct lisp_record *wanted)
{
    struct lisp_record got;

    is("lisp_read_record", lisp_read_record(bytes, length, at, &got), LISP_DONE);
    same_record(&got, wanted);
}

static void reads_locator(const uint8_t *bytes, size_t length, size_t at, const struct lisp_locator *wanted)
{
    struct lisp_locator got;

    is("lisp_read_locator", lisp_read_locator(bytes, length, at, &got), LISP_DONE);
    same_locator(&got, wanted);
}

/* Reads all of a datagram, looks at its tag and makes it again; that takes no memory. */
static void reads(const struct worked *it)
{
    uint8_t *bytes = at_edge(it->bytes, it->length);
    const struct lisp_locator *locator = it->locators;

    calls = 0;
    reads_message(bytes, it->length, &it->message);
    for (size_t i = 0, at = LISP_RECORDS_AT; i < it->record_count; at = it->records[i++].end) {
        reads_record(bytes, it->length, at, &it->records[i]);
        for (size_t from = it->records[i].locators_at; from < it->records[i].end; from = locator++->end)
            reads_locator(bytes, it->length, from, locator);
    }
    is("its tag", lisp_authentic(bytes, it->length, it->secret, it->secret_length), true);
    is("its tag under another secret", lisp_authentic(bytes, it->length, (const uint8_t *)"other", 5), false);
    memset(bytes + 16, OLD, 16);
    is("another tag", lisp_authentic(bytes, it->length, it->secret, it->secret_length), false);
    is("lisp_sign", lisp_sign(bytes, it->length, it->secret, it->secret_length), LISP_DONE);
    same("the signed datagram", bytes, it->bytes, it->length);
    is("calls of malloc", calls, 0);
}

void writes(const struct worked *it, size_t room, uint16_t wanted)
{
    size_t length = 77;
    uint8_t *buffer = edge(room);

    is("lisp_write_message", lisp_write_message(&it->message, it->records, it->record_count, it->locators, it->locator_count, it->secret,
                                                it->secret_length, buffer, room, &length), wanted);
    is("the length", length, wanted == LISP_DONE || wanted == LISP_ROOM ? it->length : 77);
    is("blocks that aren't freed", held, 0);
    if (wanted == LISP_DONE) {
        same("the datagram", buffer, it->bytes, it->length);
        untouched(buffer + it->length, room - it->length);
    } else {
        untouched(buffer, room);
    }
}

/* Each call of malloc or realloc is refused in turn; the next call of the library finds memory again. */
static void wants_memory(const struct worked *it)
{
    calls = 0;
    writes(it, it->length, LISP_DONE);
    is("whether it took memory", calls > 0, true);
    for (long most = calls, at = 1; at <= most; at++) {
        calls = 0, refused = at;
        writes(it, it->length, LISP_OUT_OF_MEMORY);
        refused = 0;
        writes(it, it->length, LISP_DONE);
    }
}

/* The flags: where each is in `struct worked`, and which bit it is in the datagram of the worked Map-Register. */
static const struct { const char *name; size_t place, at; uint8_t bit; } flags[] = {
#define FLAG(field, at, bit) {#field, offsetof(struct worked, field), at, bit}
    FLAG(message.proxy, 0, 0x08), FLAG(message.sec, 0, 0x04), FLAG(message.eid_notify, 2, 0x10), FLAG(message.use_ttl, 2, 0x08),
    FLAG(message.merge, 2, 0x04), FLAG(message.want_notify, 2, 0x01), FLAG(records[0].authoritative, 38, 0x10),
    FLAG(locators[0].local, 53, 0x04), FLAG(locators[0].probe, 53, 0x02), FLAG(locators[0].reachable, 53, 0x01),
};

static void changes_flags(void)
{
    for (size_t i = 0; i < COUNT(flags); i++) {
        struct worked it = worked[0];
        uint8_t bytes[84];

        now = flags[i].name;
        it.bytes = memcpy(bytes, it.bytes, sizeof bytes);
        ((uint8_t *)&it)[flags[i].place] ^= 1;
        bytes[flags[i].at] ^= flags[i].bit;
        lisp_sign(bytes, sizeof bytes, it.secret, it.secret_length);
        reads(&it);
        writes(&it, sizeof bytes, LISP_DONE);
    }
}

/* The bytes of hexadecimal digits, in memory of their own. */
static uint8_t *bytes_of(const char *digits, size_t *length)
{
    uint8_t *bytes = malloc(strlen(digits) / 2 + 1);
    unsigned value;

    if (bytes == NULL)
        abort();
    for (*length = 0; sscanf(digits + 2 * *length, "%2x", &value) == 1; ++*length)
        bytes[*length] = (uint8_t)value;
    return bytes;
}

int main(int argc, char **argv)
{
    if (argc != 2 + 2 * WORKED)
        return 2;
    for (size_t i = 0; i < WORKED; i++) {
        worked[i].secret = bytes_of(argv[2 + 2 * i], &worked[i].secret_length);
        worked[i].bytes = bytes_of(argv[3 + 2 * i], &worked[i].length);
    }
    repeat(&worked[MOST_RECORDS], 28);
    repeat(&worked[MOST_LOCATORS], 12);
    text = argv[1];
    text_length = strlen(text);
    /* (what the arguments have counts for nothing) */
    held = 0;
    for (size_t i = 0; i < WORKED; i++) {
        now = worked[i].name;
        reads(&worked[i]);
        writes(&worked[i], worked[i].length, LISP_DONE);
        writes(&worked[i], worked[i].length + 100, LISP_DONE);
        writes(&worked[i], worked[i].length - 1, LISP_ROOM);
        writes(&worked[i], 0, LISP_ROOM);
        wants_memory(&worked[i]);
    }
    changes_flags();
    faults_of_reading();
    faults_of_writing();
    faults_of_pointers();
    requests();
    servers();
    held_rows();
    notices();
    routers();
    replies();
    for (size_t i = 0; i < WORKED; i++)
        free(worked[i].secret), free(worked[i].bytes);
    return failed;
}
