/*
 * A Map-Server's core as a C program holds it: the worked exchange, replays, a restart, other sites, each refusal, null pointers, and
 * memory that is refused.
 */
#include "library.h"
#include <stdio.h>
#include <stdlib.h>
#include <string.h>

/* Out of memory for a configuration, and for a datagram; and how long the secret is. */
enum { MEMORY_TOML = 24, MEMORY = 58, SECRET = 6 };

static const struct lisp_nonce none = {0, 0}, one = {1, 1};

void start(struct lisp_server *server)
{
    is("lisp_server_start", lisp_server_start(server, text, text_length), LISP_DONE);
}

void takes(struct lisp_server *server, int message, const struct lisp_address *from, uint64_t at)
{
    static uint8_t buffer[8192];
    const struct worked *it = &worked[message];
    struct lisp_received received;

    is("lisp_server_receive", lisp_server_receive(server, &none, from, it->bytes, it->length, at, buffer, sizeof buffer, &received),
       LISP_DONE);
}

/* Receives a datagram with this answer. Where it is refused, nothing is written, and the handle is as it was. */
static void receives(struct lisp_server *server, const struct lisp_nonce *kept, const uint8_t *bytes, size_t length, uint16_t wanted)
{
    const struct worked *it = &worked[REGISTER], *reply = &worked[NOTIFY];
    const void *core = server->core;
    const long before = held;
    struct lisp_received received;
    uint8_t *copy = malloc(length + 1), *buffer = edge(length);

    if (copy == NULL)
        abort();
    memcpy(copy, bytes, length);
    memset(&received, OLD, sizeof received);
    is("lisp_server_receive", lisp_server_receive(server, kept, &r1, copy, length, 0, buffer, length, &received), wanted);
    same("the datagram", copy, bytes, length);
    is("the handle", server->core == core, true);
    if (wanted == LISP_DONE) {
        is("accepted", received.accepted, 1);
        is("nonce", received.nonce, it->message.nonce);
        is("site", received.site, it->message.site);
        same("xtr", received.xtr, it->message.xtr, 16);
        is("key_id", received.key_id, it->message.key_id);
        is("reply_length", received.reply_length, reply->length);
        same("the answer", buffer, reply->bytes, reply->length);
        untouched(buffer + reply->length, length - reply->length);
    } else {
        untouched(&received, sizeof received);
        untouched(buffer, length);
    }
    free(copy);
    /* (where memory is refused, the server may keep room that it took) */
    if (wanted != LISP_DONE && wanted != MEMORY)
        is("blocks that aren't freed", held, before);
}

static void exchange(struct lisp_server *server)
{
    const struct worked *it = &worked[REGISTER];

    now = "the exchange";
    start(server);
    receives(server, &none, it->bytes, it->length, LISP_DONE);
    receives(server, &none, it->bytes, it->length, LISP_REPLAY);
    receives(server, &one, it->bytes, it->length, LISP_REPLAY);
    now = "after a restart";
    calls = 0;
    is("restart", lisp_server_restart(server), LISP_DONE);
    is("calls of malloc", calls, 0);
    receives(server, &one, it->bytes, it->length, LISP_REPLAY);
    receives(server, NULL, it->bytes, it->length, LISP_DONE);
    receives(server, NULL, it->bytes, it->length, LISP_REPLAY);
}

static void pairs(void)
{
    const struct worked *it = &worked[REGISTER];
    struct lisp_pair pair, zeros;

    now = "pairs";
    calls = 0;
    memset(&pair, OLD, sizeof pair);
    is("lisp_server_pair", lisp_server_pair(at_edge(it->bytes, it->length), it->length, &pair), LISP_DONE);
    is("is_there", pair.is_there, 1);
    is("site", pair.site, it->message.site);
    is("key_id", pair.key_id, it->message.key_id);
    same("xtr", pair.xtr, it->message.xtr, 16);
    memset(&zeros, 0, sizeof zeros);
    for (int i = 0; i < 3; i++) {
        const struct worked *other = i == 0 ? it : &worked[i];
        size_t length = i == 0 ? it->length - 1 : other->length;
        memset(&pair, OLD, sizeof pair);
        is("of other bytes", lisp_server_pair(at_edge(other->bytes, length), length, &pair), LISP_DONE);
        is("is_there", pair.is_there, 0);
        is("site", pair.site, 0);
        is("key_id", pair.key_id, 0);
        same("xtr", pair.xtr, zeros.xtr, 16);
    }
    is("calls of malloc", calls, 0);
    memset(&pair, OLD, sizeof pair);
    is("null", lisp_server_pair(NULL, 1, &pair), LISP_NULL);
    is("too many bytes", lisp_server_pair(it->bytes, (size_t)PTRDIFF_MAX + 1, &pair), LISP_LENGTH);
    untouched(&pair, sizeof pair);
    is("to null", lisp_server_pair(it->bytes, it->length, NULL), LISP_NULL);
    is("no bytes", lisp_server_pair(NULL, 0, &pair), LISP_DONE);
    is("is_there", pair.is_there, 0);
}

/* Datagrams that a new server refuses; it accepts the worked one after them. */
static void refuses(struct lisp_server *server)
{
    static const struct { const char *name; size_t at, length; uint8_t value; bool is_signed; uint16_t number; } wrong[] = {
        {"a wrong tag", 31, 84, 0, false, LISP_BAD_AUTH}, {"cut short", 0, 59, 0x3a, false, LISP_READ},
        {"no bytes", 0, 0, 0x3a, false, LISP_READ}, {"another site", 83, 84, 2, true, LISP_UNKNOWN_SITE},
        {"another key", 12, 84, 2, true, LISP_UNKNOWN_KEY}, {"a merge", 2, 84, 5, true, LISP_MERGE_ASKED},
        {"another prefix", 45, 84, 2, true, LISP_NOT_ALLOWED}};
    const struct worked *it = &worked[REGISTER];
    uint8_t bytes[84];

    start(server);
    for (size_t i = 0; i < COUNT(wrong); i++) {
        now = wrong[i].name;
        memcpy(bytes, it->bytes, sizeof bytes);
        bytes[wrong[i].at] = wrong[i].at == 31 ? bytes[31] ^ 1 : wrong[i].value;
        if (wrong[i].is_signed)
            lisp_sign(bytes, sizeof bytes, it->secret, SECRET);
        receives(server, &none, bytes, wrong[i].length, wrong[i].number);
    }
    now = "other messages";
    receives(server, &none, worked[NOTIFY].bytes, worked[NOTIFY].length, LISP_NOT_MINE);
    memcpy(bytes, worked[NOTIFY].bytes, worked[NOTIFY].length);
    bytes[0] = 0x50;
    lisp_sign(bytes, worked[NOTIFY].length, it->secret, SECRET);
    receives(server, &none, bytes, worked[NOTIFY].length, LISP_NO_NOTICE);
    receives(server, &none, it->bytes, it->length, LISP_DONE);
}

/* Calls with null pointers, lengths that no memory has, no room, and a handle that holds nothing. */
static void arguments(struct lisp_server *server)
{
    const struct lisp_address seven = {7, {0}};
    const size_t length = worked[REGISTER].length, beyond = (size_t)PTRDIFF_MAX + 1;
    const uint8_t *bytes = worked[REGISTER].bytes;
    struct lisp_server empty = {NULL};
    struct lisp_received to;
    uint8_t *buffer = edge(length);

    now = "arguments";
    start(server);
    memset(&to, OLD, sizeof to);
    is("no server", lisp_server_receive(NULL, &none, &r1, bytes, length, 0, buffer, length, &to), LISP_NULL);
    is("no source", lisp_server_receive(server, &none, NULL, bytes, length, 0, buffer, length, &to), LISP_NULL);
    is("no bytes", lisp_server_receive(server, &none, &r1, NULL, length, 0, buffer, length, &to), LISP_NULL);
    is("no buffer", lisp_server_receive(server, &none, &r1, bytes, length, 0, NULL, length, &to), LISP_NULL);
    is("nothing received", lisp_server_receive(server, &none, &r1, bytes, length, 0, buffer, length, NULL), LISP_NULL);
    is("too many bytes", lisp_server_receive(server, &none, &r1, bytes, beyond, 0, buffer, length, &to), LISP_LENGTH);
    is("too much room", lisp_server_receive(server, &none, &r1, bytes, length, 0, buffer, beyond, &to), LISP_LENGTH);
    is("family 7", lisp_server_receive(server, &none, &seven, bytes, length, 0, buffer, length, &to), LISP_FIELD);
    is("family 7 first", lisp_server_receive(&empty, &none, &seven, bytes, length, 0, buffer, 0, &to), LISP_FIELD);
    is("no room", lisp_server_receive(server, &none, &r1, bytes, length, 0, buffer, length - 1, &to), LISP_ROOM);
    is("no room at null", lisp_server_receive(server, &none, &r1, bytes, length, 0, NULL, 0, &to), LISP_ROOM);
    is("no room first", lisp_server_receive(&empty, &none, &r1, bytes, length, 0, buffer, 0, &to), LISP_ROOM);
    is("an empty handle", lisp_server_receive(&empty, &none, &r1, bytes, length, 0, buffer, length, &to), LISP_NULL);
    is("an empty handle, no bytes", lisp_server_receive(&empty, NULL, &r1, NULL, 0, 0, NULL, 0, &to), LISP_NULL);
    untouched(&to, sizeof to);
    untouched(buffer, length);
    receives(server, &none, bytes, length, LISP_DONE);

    is("starting null", lisp_server_start(NULL, text, text_length), LISP_NULL);
    is("a configuration of null", lisp_server_start(&empty, NULL, 1), LISP_NULL);
    is("too long a configuration", lisp_server_start(&empty, text, beyond), LISP_LENGTH);
    is("restarting null", lisp_server_restart(NULL), LISP_NULL);
    is("restarting none", lisp_server_restart(&empty), LISP_NULL);
    lisp_server_stop(NULL);
    lisp_server_stop(&empty);
    is("the empty handle", empty.core == NULL, true);
}

const struct wrong_text wrong_texts[5] = {
    {"x=", LISP_TOML}, {"x = \"\xff\"", LISP_NOT_UTF8}, {"[[site]]\n", LISP_MISSING}, {"[[site]]\nid = \"1\"\n", LISP_BAD_VALUE},
    {"[[site]]\nid = \"0000000000000001\"\n[[site]]\nid = \"0000000000000001\"\n", LISP_REPEATED}};

/* Configurations with faults, over a server that runs: it goes on, and has its nonce. Then one without sites, which replaces it. */
static void configurations(struct lisp_server *server)
{
    const struct worked *it = &worked[REGISTER];
    struct lisp_server empty = {NULL};

    start(server);
    receives(server, &none, it->bytes, it->length, LISP_DONE);
    for (size_t i = 0; i < COUNT(wrong_texts); i++) {
        const void *core = server->core;
        long before = held;
        now = wrong_texts[i].text;
        is("start", lisp_server_start(&empty, now, strlen(now)), wrong_texts[i].number);
        is("the empty handle", empty.core == NULL, true);
        is("start over another", lisp_server_start(server, now, strlen(now)), wrong_texts[i].number);
        is("the handle", server->core == core, true);
        is("blocks that aren't freed", held, before);
        receives(server, &none, it->bytes, it->length, LISP_REPLAY);
    }
    now = "start over another";
    start(server);
    receives(server, &none, it->bytes, it->length, LISP_DONE);
    is("an empty configuration", lisp_server_start(server, NULL, 0), LISP_DONE);
    receives(server, &none, it->bytes, it->length, LISP_UNKNOWN_SITE);
}

#define SITE(id) "[[site]]\nid = \"000000000000000" id "\"\n"
#define KEY(id, secret) "[[site.key]]\nid = " id "\nsecret = \"" secret "\"\n"
#define PREFIX(eid) "[[site.prefix]]\neid = \"" eid "\"\nmore_specifics = true\n"
#define WORKED_KEY KEY("1", "736563726574")
#define WORKED_SITE SITE("1") WORKED_KEY PREFIX("10.1.0.0/16")

/* The worked configuration's one site; with another site, key or prefix; and without something that it has, and whether it has all that
 * these have. */
static const char same_site[] = WORKED_SITE, another_site[] = SITE("2") WORKED_KEY PREFIX("10.2.0.0/16") WORKED_SITE;
static const char no_key_1[] = SITE("1") KEY("2", "736563726574") PREFIX("10.1.0.0/16");
static const char *const more[] = {another_site, WORKED_SITE KEY("2", "00"), WORKED_SITE PREFIX("10.2.0.0/16")};
static const struct { const char *text; uint8_t has_all; } less[] = {
    {"", true}, {SITE("2") WORKED_KEY PREFIX("10.1.0.0/16"), false}, {no_key_1, false},
    {SITE("1") KEY("1", "736563726575") PREFIX("10.1.0.0/16"), false}, {SITE("1") WORKED_KEY PREFIX("10.1.0.0/24"), false},
    {SITE("1") "most_rows = 1\n" WORKED_KEY PREFIX("10.1.0.0/16"), true}};

/* Whether the Map-Server holds a row. */
static void holds_a_row(struct lisp_server *server, uint8_t wanted)
{
    static struct lisp_locator locators[LISP_LOCATORS];
    struct lisp_row row;
    size_t place = 0;

    is("lisp_server_row", lisp_server_row(server, 0, &place, &row, locators, LISP_LOCATORS), LISP_DONE);
    is("whether it holds a row", row.is_there, wanted);
}

/* The sites of another configuration are taken; whether the Map-Server goes on with what it held. */
static void reload(struct lisp_server *server, const char *configuration, uint8_t wanted)
{
    const void *core = server->core;
    uint8_t goes_on = OLD;

    is("lisp_server_reload", lisp_server_reload(server, configuration, strlen(configuration), &goes_on), LISP_DONE);
    is("goes_on", goes_on, wanted);
    is("the handle", server->core == core, true);
}

/* Starts a Map-Server that holds a row. */
static void hold(struct lisp_server *server)
{
    start(server);
    receives(server, &none, worked[REGISTER].bytes, worked[REGISTER].length, LISP_DONE);
    holds_a_row(server, true);
}

/* Sites that have all that the old ones have, and such as don't. */
static void reloads(struct lisp_server *server)
{
    const struct worked *it = &worked[REGISTER];
    long before;

    now = "sites that have all";
    for (size_t i = 0; i < COUNT(more); i++) {
        hold(server);
        before = held;
        reload(server, same_site, true);
        is("blocks that aren't freed", held, before);
        reload(server, more[i], true);
        holds_a_row(server, true);
        receives(server, &none, it->bytes, it->length, LISP_REPLAY);
    }
    now = "sites that lack something";
    for (size_t i = 0; i < COUNT(less); i++) {
        hold(server);
        reload(server, less[i].text, false);
        holds_a_row(server, false);
        reload(server, same_site, less[i].has_all);
        receives(server, &one, it->bytes, it->length, LISP_REPLAY);
        receives(server, &none, it->bytes, it->length, LISP_DONE);
    }
}

/* Which sites a Map-Server serves, as the answers to Map-Registers of two sites tell. */
static void other_sites(struct lisp_server *server)
{
    const struct worked *it = &worked[REGISTER];
    uint8_t bytes[84];

    now = "other sites";
    hold(server);
    memcpy(bytes, it->bytes, sizeof bytes);
    bytes[83] = 2;
    lisp_sign(bytes, sizeof bytes, it->secret, SECRET);
    receives(server, &none, bytes, sizeof bytes, LISP_UNKNOWN_SITE);
    reload(server, another_site, true);
    receives(server, &none, bytes, sizeof bytes, LISP_NOT_ALLOWED);
    reload(server, no_key_1, false);
    receives(server, &none, bytes, sizeof bytes, LISP_UNKNOWN_SITE);
    receives(server, &none, it->bytes, it->length, LISP_UNKNOWN_KEY);
    is("restart", lisp_server_restart(server), LISP_DONE);
    receives(server, &none, it->bytes, it->length, LISP_UNKNOWN_KEY);
}

/* Tries to take other sites, with this answer: the Map-Server is as it was, and holds its row. */
static void refuses_sites(struct lisp_server *server, const char *configuration, size_t length, uint16_t wanted)
{
    const void *core = server->core;
    const long before = held;
    uint8_t goes_on = OLD;

    is("lisp_server_reload", lisp_server_reload(server, configuration, length, &goes_on), wanted);
    untouched(&goes_on, sizeof goes_on);
    is("the handle", server->core == core, true);
    is("blocks that aren't freed", held, before);
    if (core != NULL) {
        holds_a_row(server, true);
        receives(server, &none, worked[REGISTER].bytes, worked[REGISTER].length, LISP_REPLAY);
    }
}

/* Configurations with faults, a handle that holds nothing, null pointers, and a length that no memory has. */
static void refused_reloads(struct lisp_server *server)
{
    struct lisp_server empty = {NULL};
    uint8_t goes_on = OLD;

    hold(server);
    for (size_t i = 0; i < COUNT(wrong_texts); i++) {
        now = wrong_texts[i].text;
        refuses_sites(&empty, now, strlen(now), wrong_texts[i].number);
        refuses_sites(server, now, strlen(now), wrong_texts[i].number);
    }
    now = "refused reloads";
    refuses_sites(&empty, text, text_length, LISP_NULL);
    refuses_sites(server, NULL, 1, LISP_NULL);
    refuses_sites(server, text, (size_t)PTRDIFF_MAX + 1, LISP_LENGTH);
    is("no server", lisp_server_reload(NULL, text, text_length, &goes_on), LISP_NULL);
    untouched(&goes_on, sizeof goes_on);
    is("no place for goes_on", lisp_server_reload(server, no_key_1, strlen(no_key_1), NULL), LISP_NULL);
    holds_a_row(server, true);
    is("no text", lisp_server_reload(server, NULL, 0, &goes_on), LISP_DONE);
    is("goes_on", goes_on, false);
    receives(server, &none, worked[REGISTER].bytes, worked[REGISTER].length, LISP_UNKNOWN_SITE);
}

/* Each call of malloc or realloc is refused in turn; the next call of the library finds memory again. */
static void wants_memory_to_start(struct lisp_server *server)
{
    const struct worked *it = &worked[REGISTER];
    struct lisp_server other = {NULL};

    now = "memory to start";
    start(server);
    receives(server, &none, it->bytes, it->length, LISP_DONE);
    calls = 0;
    start(&other);
    lisp_server_stop(&other);
    is("whether it took memory", calls > 0, true);
    for (long most = calls, at = 1; at <= most; at++) {
        struct lisp_server *both[] = {server, &other};
        for (size_t i = 0; i < COUNT(both); i++) {
            const void *core = both[i]->core;
            long before = held;
            calls = 0, refused = at;
            uint16_t number = lisp_server_start(both[i], text, text_length);
            refused = 0;
            is("a number of no memory", number == MEMORY_TOML || number == LISP_OUT_OF_MEMORY ? 0 : at * 1000 + number, 0);
            is("the handle", both[i]->core == core, true);
            is("blocks that aren't freed", held, before);
        }
        receives(server, &none, it->bytes, it->length, LISP_REPLAY);
        start(&other);
        receives(&other, &none, it->bytes, it->length, LISP_DONE);
        lisp_server_stop(&other);
    }
}

/* The same of a reload, one call: the Map-Server is as it was. */
static void refuses_memory_to_reload(struct lisp_server *server, const char *configuration, long at)
{
    const void *core = server->core;
    const long before = held;
    uint8_t goes_on = OLD;

    calls = 0, refused = at;
    uint16_t number = lisp_server_reload(server, configuration, strlen(configuration), &goes_on);
    refused = 0;
    is("a number of no memory", number == MEMORY_TOML || number == LISP_OUT_OF_MEMORY ? 0 : at * 1000 + number, 0);
    untouched(&goes_on, sizeof goes_on);
    is("the handle", server->core == core, true);
    is("blocks that aren't freed", held, before);
    holds_a_row(server, true);
    receives(server, &none, worked[REGISTER].bytes, worked[REGISTER].length, LISP_REPLAY);
}

static void wants_memory_to_reload(struct lisp_server *server)
{
    const char *const texts[] = {no_key_1, another_site};
    long most;

    for (size_t i = 0; i < COUNT(texts); i++) {
        now = "memory to reload";
        hold(server);
        calls = 0;
        reload(server, texts[i], i == 1);
        most = calls;
        is("whether it took memory", most > 0, true);
        hold(server);
        for (long at = 1; at <= most; at++)
            refuses_memory_to_reload(server, texts[i], at);
        reload(server, texts[i], i == 1);
    }
}

static void wants_memory_to_receive(struct lisp_server *server)
{
    const struct worked *it = &worked[REGISTER];
    long most;

    now = "memory to receive";
    start(server);
    calls = 0;
    receives(server, &none, it->bytes, it->length, LISP_DONE);
    /* (the first is of the test's own copy) */
    most = calls;
    is("whether it took memory", most > 1, true);
    for (long at = 2; at <= most; at++) {
        start(server);
        calls = 0, refused = at;
        receives(server, &none, it->bytes, it->length, MEMORY);
        refused = 0;
        receives(server, &none, it->bytes, it->length, LISP_DONE);
        receives(server, &none, it->bytes, it->length, LISP_REPLAY);
    }
}

void servers(void)
{
    static void (*const tests[])(struct lisp_server *) = {
        exchange, refuses, arguments, configurations, reloads, other_sites, refused_reloads, wants_memory_to_start,
        wants_memory_to_reload, wants_memory_to_receive};
    struct lisp_server server = {NULL};

    for (size_t i = 0; i < COUNT(tests); i++) {
        tests[i](&server);
        lisp_server_stop(&server);
        is("the stopped handle", server.core == NULL, true);
        is("blocks that aren't freed", held, 0);
        lisp_server_stop(&server);
        is("restart of a stopped one", lisp_server_restart(&server), LISP_NULL);
    }
    pairs();
}
