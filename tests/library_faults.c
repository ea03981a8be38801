/*
 * Calls of the library that are refused: faults in datagrams and in structs, null pointers, and lengths that no memory has. Each
 * leaves all as it was.
 */
#include "library.h"
#include <stddef.h>
#include <stdio.h>
#include <string.h>

/* The worked Map-Register with a fault of each kind and a byte too many. In each step a byte is mended, and the first `length` bytes
 * are read: the message, its record, and its locator. */
static const struct { size_t at; uint8_t value; size_t length; uint16_t message, entry, locator; } steps[] = {
    {0, 0x28, 15, LISP_SHORT, LISP_SHORT, LISP_SHORT}, {0, 0x28, 16, LISP_KIND, LISP_SHORT, LISP_SHORT},
    {0, 0x38, 85, LISP_ALGORITHM, LISP_AFI, LISP_AFI}, {13, 2, 85, LISP_AUTH_LENGTH, LISP_AFI, LISP_AFI},
    {15, 16, 31, LISP_SHORT, LISP_SHORT, LISP_SHORT}, {15, 16, 43, LISP_RECORD, LISP_SHORT, LISP_SHORT},
    {15, 16, 85, LISP_RECORD, LISP_AFI, LISP_AFI}, {43, 1, 47, LISP_RECORD, LISP_MASK, LISP_SHORT},
    {37, 16, 47, LISP_RECORD, LISP_SHORT, LISP_SHORT}, {37, 16, 85, LISP_RECORD, LISP_AFI, LISP_AFI},
    {55, 1, 59, LISP_RECORD, LISP_SHORT, LISP_SHORT}, {55, 1, 85, LISP_NO_IDS, LISP_DONE, LISP_DONE},
    {0, 0x3a, 85, LISP_TRAILING, LISP_DONE, LISP_DONE}, {0, 0x3a, 83, LISP_SHORT, LISP_DONE, LISP_DONE},
    {0, 0x3a, 84, LISP_DONE, LISP_DONE, LISP_DONE},
};

void faults_of_reading(void)
{
    static const uint8_t damage[][2] = {{13, 1}, {15, 20}, {37, 33}, {43, 3}, {55, 3}};
    uint8_t bytes[85] = {0};
    static char name[32];

    now = name;
    memcpy(bytes, worked[REGISTER].bytes, 84);
    for (size_t i = 0; i < COUNT(damage); i++)
        bytes[damage[i][0]] = damage[i][1];
    for (size_t i = 0; i < COUNT(steps); i++) {
        struct { struct lisp_message message; struct lisp_record entry; struct lisp_locator locator; } to;
        size_t length = steps[i].length;

        snprintf(name, sizeof name, "step %zu", i);
        bytes[steps[i].at] = steps[i].value;
        const uint8_t *datagram = at_edge(bytes, length);
        memset(&to, OLD, sizeof to);
        is("a message", lisp_read_message(datagram, length, &to.message), steps[i].message);
        is("a record", lisp_read_record(datagram, length, 32, &to.entry), steps[i].entry);
        is("a locator", lisp_read_locator(datagram, length, 48, &to.locator), steps[i].locator);
        untouched(&to.message, steps[i].message == LISP_DONE ? 0 : sizeof to.message);
        untouched(&to.entry, steps[i].entry == LISP_DONE ? 0 : sizeof to.entry);
        untouched(&to.locator, steps[i].locator == LISP_DONE ? 0 : sizeof to.locator);
        is("a record behind the end", lisp_read_record(datagram, length, SIZE_MAX, &to.entry), LISP_SHORT);
        is("a locator behind the end", lisp_read_locator(datagram, length, SIZE_MAX, &to.locator), LISP_SHORT);
    }
}

/* Faults of the structs of the worked Map-Register, in the order in which they are told. */
static const struct { const char *name; size_t place, size, value; uint16_t number; } wrong[] = {
#define WRONG(field, value, number) {#field, offsetof(struct worked, field), sizeof worked->field, value, number}
    WRONG(message.kind, 6, LISP_FIELD), WRONG(record_count, 256, LISP_COUNTS), WRONG(records[0].locator_count, 3, LISP_COUNTS),
    WRONG(records[0].eid.family, 3, LISP_FIELD), WRONG(records[0].mask_len, 33, LISP_FIELD),
    WRONG(locators[0].address.family, 0, LISP_FIELD), WRONG(records[0].act, 8, LISP_FIELD),
    WRONG(records[0].version, 4096, LISP_FIELD), WRONG(locator_count, 2, LISP_COUNTS),
};

static void set(struct worked *it, size_t fault)
{
    void *field = (uint8_t *)it + wrong[fault].place;
    uint16_t value = (uint16_t)wrong[fault].value;

    if (wrong[fault].size == sizeof value)
        memcpy(field, &value, sizeof value);
    else if (wrong[fault].size == 1)
        memset(field, value, 1);
    else
        memcpy(field, &wrong[fault].value, sizeof wrong[fault].value);
}

/* Each fault alone; then all of them, which are mended one after the other. */
void faults_of_writing(void)
{
    struct worked all = worked[REGISTER];

    for (size_t i = 0; i < COUNT(wrong); i++) {
        struct worked one = worked[REGISTER];
        now = wrong[i].name;
        set(&one, i);
        writes(&one, one.length, wrong[i].number);
        set(&all, i);
    }
    for (size_t i = 0; i < COUNT(wrong); i++) {
        now = wrong[i].name;
        writes(&all, 0, wrong[i].number);
        memcpy((uint8_t *)&all + wrong[i].place, (uint8_t *)&worked[REGISTER] + wrong[i].place, wrong[i].size);
    }
    writes(&all, 0, LISP_ROOM);
    writes(&all, all.length, LISP_DONE);
}

/* What lisp_write_message takes. */
struct arguments {
    const struct lisp_message *message;
    const struct lisp_record *records;
    const struct lisp_locator *locators;
    const uint8_t *secret;
    uint8_t *buffer;
    size_t *length;
    size_t record_count, locator_count, secret_length, room;
};

static uint16_t call(const struct arguments *it)
{
    return lisp_write_message(it->message, it->records, it->record_count, it->locators, it->locator_count, it->secret,
                              it->secret_length, it->buffer, it->room, it->length);
}

static void pointers_of_writing(void)
{
    static const struct { size_t pointer, count, size; } lists[] = {
#define LIST(pointer, count, type) {offsetof(struct arguments, pointer), offsetof(struct arguments, count), sizeof(type)}
        LIST(records, record_count, struct lisp_record), LIST(locators, locator_count, struct lisp_locator),
        LIST(secret, secret_length, uint8_t), LIST(buffer, room, uint8_t)};
    const struct worked *it = &worked[REGISTER];
    uint8_t buffer[100], *datagram = memset(buffer, OLD, sizeof buffer);
    size_t length = 77;
    const struct arguments right = {&it->message, it->records, it->locators, it->secret, datagram, &length,
                                    it->record_count, it->locator_count, it->secret_length, sizeof buffer};
    struct arguments given = right;

    given.message = NULL;
    is("no message", call(&given), LISP_NULL);
    given = right, given.length = NULL;
    is("no place for the length", call(&given), LISP_NULL);
    for (size_t i = 0; i < COUNT(lists); i++) {
        size_t beyond = PTRDIFF_MAX / lists[i].size + 1;
        given = right;
        memcpy((char *)&given + lists[i].count, &beyond, sizeof beyond);
        is("a list that is too long", call(&given), LISP_LENGTH);
        given = right;
        memset((char *)&given + lists[i].pointer, 0, sizeof given.buffer);
        is("a list that is null", call(&given), LISP_NULL);
    }
    is("the length", length, 77);
    untouched(buffer, sizeof buffer);
}

static void pointers_of_reading(void)
{
    const uint8_t *bytes = worked[REGISTER].bytes, *secret = worked[REGISTER].secret;
    const size_t length = worked[REGISTER].length, beyond = (size_t)PTRDIFF_MAX + 1;
    struct { struct lisp_message message; struct lisp_record entry; struct lisp_locator locator; } to;

    memset(&to, OLD, sizeof to);
    is("a message of null", lisp_read_message(NULL, 1, &to.message), LISP_NULL);
    is("a record of null", lisp_read_record(NULL, 1, 0, &to.entry), LISP_NULL);
    is("a locator of null", lisp_read_locator(NULL, 1, 0, &to.locator), LISP_NULL);
    is("a message of no bytes", lisp_read_message(NULL, 0, &to.message), LISP_SHORT);
    is("a record of no bytes", lisp_read_record(NULL, 0, 0, &to.entry), LISP_SHORT);
    is("a locator of no bytes", lisp_read_locator(NULL, 0, 0, &to.locator), LISP_SHORT);
    is("a message too long", lisp_read_message(bytes, beyond, &to.message), LISP_LENGTH);
    is("a record too long", lisp_read_record(bytes, beyond, 32, &to.entry), LISP_LENGTH);
    is("a locator too long", lisp_read_locator(bytes, beyond, 48, &to.locator), LISP_LENGTH);
    untouched(&to, sizeof to);
    is("a message to null", lisp_read_message(bytes, length, NULL), LISP_NULL);
    is("a record to null", lisp_read_record(bytes, length, 32, NULL), LISP_NULL);
    is("a locator to null", lisp_read_locator(bytes, length, 48, NULL), LISP_NULL);
    is("the tag of null", lisp_authentic(NULL, length, secret, 6), false);
    is("a tag under null", lisp_authentic(bytes, length, NULL, 6), false);
    is("a tag of too many bytes", lisp_authentic(bytes, beyond, secret, 6), false);
    is("a tag under too many bytes", lisp_authentic(bytes, length, secret, beyond), false);
}

void faults_of_pointers(void)
{
    const struct worked *ack = &worked[ACK];
    uint8_t *bytes = at_edge(worked[REGISTER].bytes, worked[REGISTER].length);
    size_t length = 0;

    now = "pointers and lengths";
    pointers_of_reading();
    pointers_of_writing();
    is("signing null", lisp_sign(NULL, 84, ack->secret, 0), LISP_NULL);
    is("signing no bytes", lisp_sign(NULL, 0, NULL, 0), LISP_SHORT);
    is("signing 31 bytes", lisp_sign(bytes, 31, NULL, 0), LISP_SHORT);
    is("signing under null", lisp_sign(bytes, 84, NULL, 1), LISP_NULL);
    is("signing too many bytes", lisp_sign(bytes, (size_t)PTRDIFF_MAX + 1, NULL, 0), LISP_LENGTH);
    same("what wasn't signed", bytes, worked[REGISTER].bytes, 84);

    /* The worked Map-Notify-Ack has an empty secret and no records. */
    is("a tag under no bytes", lisp_authentic(ack->bytes, ack->length, NULL, 0), true);
    is("no room at null", lisp_write_message(&ack->message, NULL, 0, NULL, 0, NULL, 0, NULL, 0, &length), LISP_ROOM);
    is("the length that it needs", length, ack->length);
    is("no lists", lisp_write_message(&ack->message, NULL, 0, NULL, 0, NULL, 0, edge(length), length, &length), LISP_DONE);
    same("the Map-Notify-Ack", edge(0) - length, ack->bytes, length);
}
