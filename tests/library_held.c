/*
 * What a Map-Server's core tells a C program of what it holds: its rows one by one, who answers for an address, and
 * that rows which outlived their lifetime are dropped. None of these calls takes memory.
 */
#include "library.h"
#include <string.h>

/* How long the records of these Map-Registers live, in ms: bit T is clear (docs/PROTOCOL.md). */
enum { LIFE = 180000 };

static const uint64_t last_time = (uint64_t)1 << 62;

/* The Map-Registers that fill a Map-Server, by their routers: which they are, where they come from, and when. */
static const struct { int message; const struct lisp_address *from; uint64_t at; } registered[] = {
    {REGISTER, &r1, 1000}, {SECOND, &r2, 2000}};

static void fill(struct lisp_server *server)
{
    start(server);
    for (size_t i = 0; i < COUNT(registered); i++)
        takes(server, registered[i].message, registered[i].from, registered[i].at);
}

/* So many locators, all of them OLD, behind which memory ends. */
static struct lisp_locator *places_for(size_t count)
{
    return (struct lisp_locator *)(void *)edge(count * sizeof(struct lisp_locator));
}

/* A record and its locators, in front of so many places, are those of a message. They lie in no datagram: `end` is 0. */
static void is_record_of(const struct lisp_record *got, const struct lisp_locator *locators, size_t room,
                         const struct worked *it)
{
    struct lisp_record wanted = it->records[0];

    wanted.locators_at = wanted.end = 0;
    same_record(got, &wanted);
    for (size_t i = 0; i < it->locator_count; i++) {
        struct lisp_locator locator = it->locators[i];
        locator.end = 0;
        same_locator(&locators[i], &locator);
    }
    untouched(locators + it->locator_count, (room - it->locator_count) * sizeof *locators);
}

/* No row is told: all is 0, and no locator is written. */
static void is_none(const struct lisp_row *got, const struct lisp_locator *locators, size_t room)
{
    static const struct lisp_row nothing;

    is("is_there", got->is_there, 0);
    is("nonce, site, accepted and life", got->nonce | got->site | got->accepted | got->life, 0);
    is("key_id and proxy", got->key_id | got->proxy, 0);
    same("xtr", got->xtr, nothing.xtr, 16);
    same_address("from", &got->from, &nothing.from);
    same_record(&got->record, &nothing.record);
    untouched(locators, room * sizeof *locators);
}

/* The rows from `first` on are told at a time, in their order, and no other, with so many places for their locators. */
static void walks(struct lisp_server *server, uint64_t at, size_t first, size_t room)
{
    struct lisp_row row;
    size_t place = 0, before = 0;

    for (size_t i = first; i < COUNT(registered); i++) {
        const struct worked *it = &worked[registered[i].message];
        struct lisp_locator *locators = places_for(room);
        memset(&row, OLD, sizeof row);
        is("lisp_server_row", lisp_server_row(server, at, &place, &row, locators, room), LISP_DONE);
        is("is_there", row.is_there, 1);
        is("nonce", row.nonce, it->message.nonce);
        is("site", row.site, it->message.site);
        is("accepted", row.accepted, registered[i].at);
        is("life", row.life, LIFE);
        same("xtr", row.xtr, it->message.xtr, 16);
        same_address("from", &row.from, registered[i].from);
        is("key_id", row.key_id, it->message.key_id);
        is("proxy", row.proxy, it->message.proxy);
        is_record_of(&row.record, locators, room, it);
        is("whether it goes on", place > before, true);
        before = place;
    }
    for (int i = 0; i < 2; i++) {
        struct lisp_locator *locators = places_for(room);
        memset(&row, OLD, sizeof row);
        is("lisp_server_row behind the last", lisp_server_row(server, at, &place, &row, locators, room), LISP_DONE);
        is_none(&row, locators, room);
        is("the place", place, before);
    }
}

static void rows(struct lisp_server *server)
{
    now = "rows";
    fill(server);
    calls = 0;
    walks(server, 2000, 0, 1);
    walks(server, 0, 0, LISP_LOCATORS);
    walks(server, 1000 + LIFE - 1, 0, 2);
    walks(server, 1000 + LIFE, 1, 1);
    walks(server, 2000 + LIFE, 2, 0);
    walks(server, UINT64_MAX, 2, 0);
    is("calls of malloc", calls, 0);
    now = "rows after a restart";
    is("restart", lisp_server_restart(server), LISP_DONE);
    walks(server, 2000, 2, 0);
}

/* Who answers for an address at a time: the record is that of a message, where that isn't null. */
static void answers(struct lisp_server *server, const struct lisp_address *address, uint64_t at, uint8_t kind,
                    const struct worked *it, const struct lisp_address *to)
{
    static const struct lisp_address nowhere;
    static const struct lisp_record nothing;
    struct lisp_locator *locators = places_for(1);
    struct lisp_answer answer;

    memset(&answer, OLD, sizeof answer);
    is("lisp_server_answer", lisp_server_answer(server, address, at, &answer, locators, 1), LISP_DONE);
    is("kind", answer.kind, kind);
    same_address("to", &answer.to, to == NULL ? &nowhere : to);
    if (it != NULL) {
        is_record_of(&answer.record, locators, 1, it);
    } else {
        same_record(&answer.record, &nothing);
        untouched(locators, sizeof *locators);
    }
}

static void asks(struct lisp_server *server)
{
    static const struct lisp_address in_first = {LISP_IPV4, {10, 1, 0, 9}}, in_both = {LISP_IPV4, {10, 1, 2, 3}};
    static const struct lisp_address outside = {LISP_IPV4, {10, 2, 0, 1}}, other_family = {LISP_IPV6, {10, 1, 0, 9}};

    now = "who answers";
    start(server);
    calls = 0;
    answers(server, &in_first, 0, LISP_ANSWER_NOT_REGISTERED, NULL, NULL);
    answers(server, &outside, 0, LISP_ANSWER_NO_SITE, NULL, NULL);
    answers(server, &other_family, 0, LISP_ANSWER_NO_SITE, NULL, NULL);
    is("calls of malloc", calls, 0);
    fill(server);
    calls = 0;
    answers(server, &in_first, 2000, LISP_ANSWER_REPLY, &worked[REGISTER], NULL);
    answers(server, &in_both, 2000, LISP_ANSWER_FORWARD, NULL, &r2);
    answers(server, &outside, 2000, LISP_ANSWER_NO_SITE, NULL, NULL);
    answers(server, &in_first, 1000 + LIFE, LISP_ANSWER_NOT_REGISTERED, NULL, NULL);
    answers(server, &in_both, 1000 + LIFE, LISP_ANSWER_FORWARD, NULL, &r2);
    answers(server, &in_both, UINT64_MAX, LISP_ANSWER_NOT_REGISTERED, NULL, NULL);
    is("calls of malloc", calls, 0);
}

/* Records with as many locators as there can be. */
static void most_locators(struct lisp_server *server)
{
    static const struct lisp_address asked = {LISP_IPV4, {10, 1, 0, 9}};
    struct lisp_locator *locators = places_for(LISP_LOCATORS - 1);
    struct lisp_row row;
    struct lisp_answer answer;
    size_t place = 0;

    now = "255 locators";
    start(server);
    takes(server, MOST_LOCATORS, &r1, 0);
    memset(&row, OLD, sizeof row);
    memset(&answer, OLD, sizeof answer);
    is("254 places", lisp_server_row(server, 0, &place, &row, locators, LISP_LOCATORS - 1), LISP_ROOM);
    is("no places", lisp_server_row(server, 0, &place, &row, NULL, 0), LISP_ROOM);
    is("the place", place, 0);
    is("254 places", lisp_server_answer(server, &asked, 0, &answer, locators, LISP_LOCATORS - 1), LISP_ROOM);
    is("no places", lisp_server_answer(server, &asked, 0, &answer, NULL, 0), LISP_ROOM);
    untouched(locators, (LISP_LOCATORS - 1) * sizeof *locators);
    untouched(&row, sizeof row);
    untouched(&answer, sizeof answer);

    locators = places_for(LISP_LOCATORS);
    is("255 places", lisp_server_row(server, 0, &place, &row, locators, LISP_LOCATORS), LISP_DONE);
    is_record_of(&row.record, locators, LISP_LOCATORS, &worked[MOST_LOCATORS]);
    locators = places_for(LISP_LOCATORS);
    is("255 places", lisp_server_answer(server, &asked, 0, &answer, locators, LISP_LOCATORS), LISP_DONE);
    is_record_of(&answer.record, locators, LISP_LOCATORS, &worked[MOST_LOCATORS]);
}

/* A row that was dropped isn't told at a time at which it was alive. */
static void expires(struct lisp_server *server)
{
    long before;

    now = "rows that are dropped";
    fill(server);
    before = held;
    calls = 0;
    is("too late a time", lisp_server_expire(server, last_time + 1), LISP_CLOCK);
    is("the latest time there is", lisp_server_expire(server, UINT64_MAX), LISP_CLOCK);
    is("before one is dead", lisp_server_expire(server, 1000 + LIFE - 1), LISP_DONE);
    is("blocks that aren't freed", held, before);
    walks(server, 2000, 0, 1);
    is("where one is dead", lisp_server_expire(server, 1000 + LIFE), LISP_DONE);
    is("whether memory was freed", held < before, true);
    walks(server, 2000, 1, 1);
    is("where all are dead", lisp_server_expire(server, last_time), LISP_DONE);
    walks(server, 2000, 2, 0);
    is("calls of malloc", calls, 0);
    now = "after rows were dropped";
    fill(server);
    walks(server, 2000, 0, 1);
}

/* Calls with null pointers, lengths that no memory has, no address, and a handle that holds nothing. */
static void arguments(struct lisp_server *server)
{
    static const struct lisp_address seven = {7, {0}};
    const size_t beyond = PTRDIFF_MAX / sizeof(struct lisp_locator) + 1;
    struct lisp_server empty = {NULL};
    struct lisp_locator *locators = places_for(1);
    struct lisp_row row;
    struct lisp_answer answer;
    size_t place = 0;

    now = "arguments of what is held";
    fill(server);
    memset(&row, OLD, sizeof row);
    memset(&answer, OLD, sizeof answer);
    is("expiring null", lisp_server_expire(NULL, 0), LISP_NULL);
    is("expiring none", lisp_server_expire(&empty, 0), LISP_NULL);
    is("expiring none too late", lisp_server_expire(&empty, last_time + 1), LISP_NULL);
    is("no server", lisp_server_row(NULL, 0, &place, &row, locators, 1), LISP_NULL);
    is("no place", lisp_server_row(server, 0, NULL, &row, locators, 1), LISP_NULL);
    is("no row", lisp_server_row(server, 0, &place, NULL, locators, 1), LISP_NULL);
    is("no locators", lisp_server_row(server, 0, &place, &row, NULL, 1), LISP_NULL);
    is("too many places", lisp_server_row(server, 0, &place, &row, locators, beyond), LISP_LENGTH);
    is("an empty handle", lisp_server_row(&empty, 0, &place, &row, locators, 1), LISP_NULL);
    is("an empty handle first", lisp_server_row(&empty, 0, &place, &row, NULL, 0), LISP_NULL);
    is("the place", place, 0);
    is("no server", lisp_server_answer(NULL, &r1, 0, &answer, locators, 1), LISP_NULL);
    is("no address", lisp_server_answer(server, NULL, 0, &answer, locators, 1), LISP_NULL);
    is("no answer", lisp_server_answer(server, &r1, 0, NULL, locators, 1), LISP_NULL);
    is("no locators", lisp_server_answer(server, &r1, 0, &answer, NULL, 1), LISP_NULL);
    is("too many places", lisp_server_answer(server, &r1, 0, &answer, locators, beyond), LISP_LENGTH);
    is("family 7", lisp_server_answer(server, &seven, 0, &answer, locators, 1), LISP_FIELD);
    is("family 7 first", lisp_server_answer(&empty, &seven, 0, &answer, NULL, 0), LISP_FIELD);
    is("an empty handle", lisp_server_answer(&empty, &r1, 0, &answer, locators, 1), LISP_NULL);
    untouched(&row, sizeof row);
    untouched(&answer, sizeof answer);
    untouched(locators, sizeof *locators);
    is("a place behind all", (place = SIZE_MAX, lisp_server_row(server, 0, &place, &row, locators, 1)), LISP_DONE);
    is_none(&row, locators, 1);
    is("no places for no record", lisp_server_answer(server, &r1, 0, &answer, NULL, 0), LISP_DONE);
    is("kind", answer.kind, LISP_ANSWER_NO_SITE);
}

void held_rows(void)
{
    static void (*const tests[])(struct lisp_server *) = {rows, asks, most_locators, expires, arguments};
    struct lisp_server server = {NULL};

    for (size_t i = 0; i < COUNT(tests); i++)
        tests[i](&server);
    lisp_server_stop(&server);
    is("blocks that aren't freed", held, 0);
}
