/*
 * A router's core as a C program holds it: the worked exchange with a Map-Server in the same process, byte for byte;
 * nonces that the program keeps, and blocks of them; a large database in parts; each refusal; memory that is refused.
 */
#include "library.h"
#include <stdio.h>
#include <stdlib.h>
#include <string.h>

/* Out of memory for a configuration, and for a datagram; and the length of a secret. */
enum { MEMORY_TOML = 24, MEMORY = 48, SECRET = 6 };

static const uint64_t last_time = (uint64_t)1 << 62, last_nonce = ((uint64_t)1 << 63) - 1;
static uint8_t datagram[LISP_MESSAGE_ROOM];

/* The configuration, in which one text stands in place of another. */
static const char *with(const char *old, const char *new)
{
    static char changed[16384];
    const char *at = strstr(text, old);

    if (at == NULL)
        abort();
    snprintf(changed, sizeof changed, "%.*s%s%s", (int)(at - text), text, new, at + strlen(old));
    return changed;
}

static void begin(struct lisp_router *router, const char *configuration, const struct lisp_nonce *kept, uint64_t at)
{
    is("lisp_router_start", lisp_router_start(router, configuration, strlen(configuration), "r1", kept, at), LISP_DONE);
}

/* What is due at a time: a part at a Map-Server, or nothing. */
static void is_due(struct lisp_router *router, uint64_t at, bool wanted, size_t server, size_t part)
{
    struct lisp_due due;

    memset(&due, OLD, sizeof due);
    calls = 0;
    is("lisp_router_due", lisp_router_due(router, at, &due), LISP_DONE);
    is("calls of malloc", calls, 0);
    is("is_there", due.is_there, wanted);
    is("server", due.server, server);
    is("part", due.part, part);
}

/* Sends a part to a Map-Server under a nonce, before which one has to be saved, or none (0). The datagram stays. */
static size_t sends(struct lisp_router *router, size_t server, size_t part, uint64_t at, uint64_t nonce, uint64_t saved)
{
    uint8_t *buffer = edge(LISP_MESSAGE_ROOM);
    struct lisp_message message;
    struct lisp_sent sent;

    memset(&sent, OLD, sizeof sent);
    is("lisp_router_send", lisp_router_send(router, server, part, at, buffer, LISP_MESSAGE_ROOM, &sent), LISP_DONE);
    is("must_save", sent.must_save, saved != 0);
    is("the nonce to save", sent.nonce, saved);
    same_address("to", &sent.to, server == 0 ? &s1 : &s2);
    untouched(buffer + sent.length, LISP_MESSAGE_ROOM - sent.length);
    is("lisp_read_message", lisp_read_message(buffer, sent.length, &message), LISP_DONE);
    is("nonce", message.nonce, nonce);
    memcpy(datagram, buffer, sent.length);
    return sent.length;
}

/* The same of a datagram that is that of a worked message. */
static void sends_worked(struct lisp_router *router, size_t server, uint64_t at, int message, uint64_t saved)
{
    const struct worked *it = &worked[message];

    is("length", sends(router, server, 0, at, it->message.nonce, saved), it->length);
    same("the Map-Register", datagram, it->bytes, it->length);
}

/* A router doesn't send, with this answer: nothing is written. */
static void sends_none(struct lisp_router *router, size_t server, size_t part, uint64_t at, uint16_t wanted)
{
    uint8_t *buffer = edge(LISP_MESSAGE_ROOM);
    struct lisp_sent sent;

    memset(&sent, OLD, sizeof sent);
    is("lisp_router_send", lisp_router_send(router, server, part, at, buffer, LISP_MESSAGE_ROOM, &sent), wanted);
    untouched(&sent, sizeof sent);
    untouched(buffer, LISP_MESSAGE_ROOM);
}

/* Receives bytes from an address with this answer. Where they are taken, as `seen` says, their answer stays. */
static void receives(struct lisp_router *router, const struct lisp_address *from, const uint8_t *bytes, size_t length,
                     uint16_t wanted, const struct lisp_seen *seen)
{
    uint8_t copy[128], *buffer = edge(length);
    struct lisp_seen got;

    memcpy(copy, bytes, length);
    memset(&got, OLD, sizeof got);
    is("lisp_router_receive", lisp_router_receive(router, from, copy, length, 0, buffer, length, &got), wanted);
    same("the datagram", copy, bytes, length);
    if (wanted == LISP_DONE) {
        is("nonce", got.nonce, seen->nonce);
        is("server", got.server, seen->server);
        is("part", got.part, seen->part);
        is("is_notice", got.is_notice, seen->is_notice);
        is("reply_length", got.reply_length, seen->reply_length);
        memcpy(datagram, buffer, got.reply_length);
        untouched(buffer + got.reply_length, length - got.reply_length);
    } else {
        untouched(&got, sizeof got);
        untouched(buffer, length);
    }
}

/* A Map-Server takes the datagram that a router made, with an answer of so many bytes, which stays. */
static void is_taken(struct lisp_server *server, size_t length, size_t reply_length)
{
    uint8_t *buffer = edge(length);
    struct lisp_received received;

    is("lisp_server_receive", lisp_server_receive(server, NULL, &r1, datagram, length, 0, buffer, length, &received),
       LISP_DONE);
    is("reply_length", received.reply_length, reply_length);
    memcpy(datagram, buffer, reply_length);
}

/* A router and a Map-Server register with each other, and a notice is acknowledged. */
static void exchange(struct lisp_router *router)
{
    const struct worked *it = &worked[REGISTER], *reply = &worked[NOTIFY];
    const struct worked *notice = &worked[NOTICE], *ack = &worked[NOTICE_ACK];
    const struct lisp_seen counted = {1, 0, 0, 0, 0}, noticed = {notice->message.nonce, 0, 0, 1, ack->length};
    struct lisp_server server = {NULL};
    struct lisp_notice made;

    now = "a router's exchange";
    start(&server);
    begin(router, text, NULL, 0);
    is_due(router, 0, true, 0, 0);
    sends_worked(router, 0, 0, REGISTER, 1);
    is_taken(&server, it->length, reply->length);
    same("the Map-Notify", datagram, reply->bytes, reply->length);
    receives(router, &s1, reply->bytes, reply->length, LISP_DONE, &counted);
    receives(router, &s1, reply->bytes, reply->length, LISP_DONE, &counted);
    is_due(router, 0, true, 1, 0);
    sends_worked(router, 1, 0, AGAIN, 2);
    is_due(router, 999, false, 0, 0);
    is_due(router, 1000, true, 1, 0);
    is_due(router, 59999, true, 1, 0);
    is_due(router, 60000, true, 0, 0);
    sends(router, 1, 0, 1000, 3, 3);
    is_due(router, 2999, false, 0, 0);
    is_due(router, UINT64_MAX, true, 0, 0);

    now = "a router's notice";
    lisp_server_notify(&server, NULL, &(struct lisp_router_id){1, {[15] = 10}, 1}, 0, datagram, sizeof datagram, &made);
    is("length", made.length, notice->length);
    receives(router, &s1, datagram, made.length, LISP_DONE, &noticed);
    same("its acknowledgement", datagram, ack->bytes, ack->length);
    is_taken(&server, ack->length, 0);
    lisp_server_stop(&server);
}

/* Datagrams that a router refuses which registered with both Map-Servers; then it takes the worked Map-Notify. */
static void refuses(struct lisp_router *router)
{
    static const struct { const char *name; size_t at, length; uint8_t value; bool sign; uint16_t number; } wrong[] = {
        {"cut short", 0, 59, 0x40, false, LISP_ROUTER_READ}, {"no bytes", 0, 0, 0x40, false, LISP_ROUTER_READ},
        {"another key", 12, 60, 2, true, LISP_WRONG_KEY}, {"another key first", 12, 60, 2, false, LISP_WRONG_KEY},
        {"a wrong tag", 31, 60, 0, false, LISP_ROUTER_BAD_AUTH},
        {"another record", 44, 60, 11, false, LISP_ROUTER_BAD_AUTH}, {"the next nonce", 11, 60, 3, true, LISP_STALE},
        {"that of another Map-Server", 11, 60, 2, true, LISP_STALE},
        {"an acknowledgement", 0, 60, 0x50, true, LISP_ROUTER_NOT_MINE}};
    const struct worked *it = &worked[NOTIFY];
    const struct lisp_seen counted = {1, 0, 0, 0, 0};
    uint8_t bytes[60];

    begin(router, text, NULL, 0);
    sends_worked(router, 0, 0, REGISTER, 1);
    sends_worked(router, 1, 0, AGAIN, 2);
    for (size_t i = 0; i < COUNT(wrong); i++) {
        now = wrong[i].name;
        memcpy(bytes, it->bytes, sizeof bytes);
        bytes[wrong[i].at] = wrong[i].value;
        if (wrong[i].sign)
            lisp_sign(bytes, sizeof bytes, it->secret, SECRET);
        receives(router, &s1, bytes, wrong[i].length, wrong[i].number, NULL);
    }
    now = "from others";
    receives(router, &s2, it->bytes, it->length, LISP_STALE, NULL);
    receives(router, &r2, it->bytes, it->length, LISP_ROUTER_NOT_MINE, NULL);
    receives(router, &s1, worked[REGISTER].bytes, worked[REGISTER].length, LISP_ROUTER_NOT_MINE, NULL);
    is_due(router, 1000, true, 0, 0);
    receives(router, &s1, it->bytes, it->length, LISP_DONE, &counted);
    is_due(router, 1000, true, 1, 0);
}

/* Nonces go on above what was kept, one save serves a block of them, and a save that fails is a start. */
static void nonces(struct lisp_router *router)
{
    const char *blocks = with("proxy = true\n", "proxy = true\nnonce_block = 3\n");
    const struct lisp_nonce kept = {3, 1}, nearly = {last_nonce - 1, 1}, spent = {last_nonce, 1};

    now = "nonces of a router";
    begin(router, text, NULL, 0);
    sends_worked(router, 0, 0, REGISTER, 1);
    begin(router, text, NULL, 0);
    sends_worked(router, 0, 0, REGISTER, 1);
    begin(router, text, &(struct lisp_nonce){1, 1}, 0);
    sends_worked(router, 0, 0, AGAIN, 2);
    now = "blocks of nonces";
    begin(router, blocks, NULL, 0);
    sends_worked(router, 0, 0, REGISTER, 3);
    sends_worked(router, 0, 0, AGAIN, 0);
    sends(router, 1, 0, 0, 3, 0);
    sends(router, 1, 0, 0, 4, 6);
    begin(router, blocks, &kept, 0);
    sends(router, 0, 0, 0, 4, 6);
    sends(router, 0, 0, 0, 5, 0);
    now = "spent nonces";
    begin(router, blocks, &nearly, 0);
    sends(router, 0, 0, 0, last_nonce, last_nonce);
    sends_none(router, 0, 0, 0, LISP_ROUTER_NONCE_SPENT);
    begin(router, text, &spent, 0);
    sends_none(router, 2, 1, last_time + 1, LISP_CLOCK);
    sends_none(router, 2, 1, last_time, LISP_NO_SERVER);
    sends_none(router, 1, 1, last_time, LISP_NO_PART);
    sends_none(router, 1, 0, last_time, LISP_ROUTER_NONCE_SPENT);
}

/* The configuration with 256 records of the first router. */
static const char *with_records(void)
{
    static char records[16384];
    int length = 0;

    for (int i = 0; i < 256; i++)
        length += snprintf(records + length, sizeof records - (size_t)length, "%s\"10.1.%d.0/24=1440+192.0.2.1\"",
                           i == 0 ? "" : ", ", i);
    return with("\"10.1.0.0/16=1440+192.0.2.1\"", records);
}

/* A database that takes two Map-Registers, of which each has its own nonce, timer and acknowledgement. */
static void parts(struct lisp_router *router)
{
    const struct lisp_seen counted = {2, 0, 1, 0, 0};
    struct lisp_message message;
    uint8_t bytes[60];
    size_t length;

    now = "parts";
    begin(router, with_records(), NULL, 0);
    is_due(router, 0, true, 0, 0);
    length = sends(router, 0, 0, 0, 1, 1);
    lisp_read_message(datagram, length, &message);
    is("records", message.record_count, 255);
    is_due(router, 0, true, 0, 1);
    length = sends(router, 0, 1, 0, 2, 2);
    lisp_read_message(datagram, length, &message);
    is("records", message.record_count, 1);
    is_due(router, 0, true, 1, 0);
    sends_none(router, 0, 2, 0, LISP_NO_PART);
    memcpy(bytes, worked[NOTIFY].bytes, sizeof bytes);
    bytes[11] = 2;
    lisp_sign(bytes, sizeof bytes, worked[NOTIFY].secret, SECRET);
    receives(router, &s1, bytes, sizeof bytes, LISP_DONE, &counted);
}

/* Other records: all Map-Servers are due at once. A configuration with a fault changes nothing. */
static void changes(struct lisp_router *router)
{
    const char *changed = with("10.1.0.0/16=1440+192.0.2.1", "10.1.9.0/24=1440+192.0.2.1");
    struct lisp_router empty = {NULL};

    now = "a change";
    begin(router, text, NULL, 0);
    sends_worked(router, 0, 0, REGISTER, 1);
    is("lisp_router_change", lisp_router_change(router, changed, strlen(changed), "r1", 500), LISP_DONE);
    is_due(router, 499, false, 0, 0);
    is_due(router, 500, true, 0, 0);
    sends_worked(router, 0, 500, CHANGED, 2);
    begin(router, text, NULL, 0);
    sends_worked(router, 0, 0, REGISTER, 1);
    for (size_t i = 0; i < COUNT(wrong_texts); i++) {
        now = wrong_texts[i].text;
        is("a change", lisp_router_change(router, now, strlen(now), "r1", 500), wrong_texts[i].number);
        is("an empty handle", lisp_router_change(&empty, now, strlen(now), "r1", 500), wrong_texts[i].number);
    }
    now = "no change";
    is("no router", lisp_router_change(router, changed, strlen(changed), "r3", 500), LISP_NO_ROUTER);
    is("an empty handle", lisp_router_change(&empty, changed, strlen(changed), "r1", 500), LISP_NULL);
    is_due(router, 500, true, 1, 0);
    sends_worked(router, 0, 500, AGAIN, 2);
}

/* What the nonces of a router are kept for; and configurations with faults, over a router that runs: it goes on. */
static void configurations(struct lisp_router *router)
{
    static const char *const others[] = {"r3", "s1", "", "r11"};
    struct lisp_pair pair;

    now = "pairs of routers";
    for (int i = 0; i < 2; i++) {
        memset(&pair, OLD, sizeof pair);
        is("lisp_router_pair", lisp_router_pair(text, text_length, i == 0 ? "r1" : "r2", &pair), LISP_DONE);
        is("is_there", pair.is_there, 1);
        is("site", pair.site, 1);
        is("key_id", pair.key_id, 1);
        same("xtr", pair.xtr, worked[i == 0 ? REGISTER : SECOND].message.xtr, 16);
    }
    begin(router, text, NULL, 0);
    sends_worked(router, 0, 0, REGISTER, 1);
    memset(&pair, OLD, sizeof pair);
    const void *core = router->core;
    const long before = held;
    for (size_t i = 0; i < COUNT(others); i++) {
        now = others[i];
        is("lisp_router_pair", lisp_router_pair(text, text_length, now, &pair), LISP_NO_ROUTER);
        is("lisp_router_start", lisp_router_start(router, text, text_length, now, NULL, 0), LISP_NO_ROUTER);
    }
    for (size_t i = 0; i < COUNT(wrong_texts); i++) {
        now = wrong_texts[i].text;
        is("lisp_router_pair", lisp_router_pair(now, strlen(now), "r1", &pair), wrong_texts[i].number);
        is("lisp_router_start", lisp_router_start(router, now, strlen(now), "r1", NULL, 0), wrong_texts[i].number);
    }
    now = "no configuration";
    is("lisp_router_pair", lisp_router_pair(NULL, 0, "r1", &pair), LISP_NO_ROUTER);
    is("lisp_router_start", lisp_router_start(router, NULL, 0, "r1", NULL, 0), LISP_NO_ROUTER);
    untouched(&pair, sizeof pair);
    is("the handle", router->core == core, true);
    is("blocks that aren't freed", held, before);
    sends_worked(router, 0, 0, AGAIN, 2);
}

/* Null pointers and lengths that no memory has. */
static void pointers(struct lisp_router *router)
{
    const size_t room = LISP_MESSAGE_ROOM, length = worked[NOTIFY].length, beyond = (size_t)PTRDIFF_MAX + 1;
    const uint8_t *bytes = worked[NOTIFY].bytes;
    uint8_t *buffer = edge(room);
    struct { struct lisp_pair pair; struct lisp_due due; struct lisp_sent sent; struct lisp_seen seen; } to;

    now = "pointers for routers";
    begin(router, text, NULL, 0);
    memset(&to, OLD, sizeof to);
    is("no text", lisp_router_pair(NULL, 1, "r1", &to.pair), LISP_NULL);
    is("too long a text", lisp_router_pair(text, beyond, "r1", &to.pair), LISP_LENGTH);
    is("no name", lisp_router_pair(text, text_length, NULL, &to.pair), LISP_NULL);
    is("no pair", lisp_router_pair(text, text_length, "r1", NULL), LISP_NULL);
    is("no router", lisp_router_start(NULL, text, text_length, "r1", NULL, 0), LISP_NULL);
    is("no text", lisp_router_start(router, NULL, 1, "r1", NULL, 0), LISP_NULL);
    is("too long a text", lisp_router_start(router, text, beyond, "r1", NULL, 0), LISP_LENGTH);
    is("no name", lisp_router_start(router, text, text_length, NULL, NULL, 0), LISP_NULL);
    is("no router", lisp_router_change(NULL, text, text_length, "r1", 0), LISP_NULL);
    is("no text", lisp_router_change(router, NULL, 1, "r1", 0), LISP_NULL);
    is("too long a text", lisp_router_change(router, text, beyond, "r1", 0), LISP_LENGTH);
    is("no name", lisp_router_change(router, text, text_length, NULL, 0), LISP_NULL);
    is("no router", lisp_router_due(NULL, 0, &to.due), LISP_NULL);
    is("nothing due", lisp_router_due(router, 0, NULL), LISP_NULL);
    is("no router", lisp_router_send(NULL, 0, 0, 0, buffer, room, &to.sent), LISP_NULL);
    is("no buffer", lisp_router_send(router, 0, 0, 0, NULL, room, &to.sent), LISP_NULL);
    is("nothing sent", lisp_router_send(router, 0, 0, 0, buffer, room, NULL), LISP_NULL);
    is("too much room", lisp_router_send(router, 0, 0, 0, buffer, beyond, &to.sent), LISP_LENGTH);
    is("no router", lisp_router_receive(NULL, &s1, bytes, length, 0, buffer, room, &to.seen), LISP_NULL);
    is("no source", lisp_router_receive(router, NULL, bytes, length, 0, buffer, room, &to.seen), LISP_NULL);
    is("no bytes", lisp_router_receive(router, &s1, NULL, length, 0, buffer, room, &to.seen), LISP_NULL);
    is("no buffer", lisp_router_receive(router, &s1, bytes, length, 0, NULL, room, &to.seen), LISP_NULL);
    is("nothing seen", lisp_router_receive(router, &s1, bytes, length, 0, buffer, room, NULL), LISP_NULL);
    is("too many bytes", lisp_router_receive(router, &s1, bytes, beyond, 0, buffer, room, &to.seen), LISP_LENGTH);
    is("too much room", lisp_router_receive(router, &s1, bytes, length, 0, buffer, beyond, &to.seen), LISP_LENGTH);
    untouched(&to, sizeof to);
    untouched(buffer, room);
    lisp_router_stop(NULL);
    sends_worked(router, 0, 0, REGISTER, 1);
}

/* No room, no address, and a handle that holds nothing. */
static void arguments(struct lisp_router *router)
{
    static const struct lisp_address seven = {7, {0}};
    const size_t room = LISP_MESSAGE_ROOM, length = worked[NOTIFY].length;
    const uint8_t *bytes = worked[NOTIFY].bytes;
    uint8_t *buffer = edge(room);
    struct lisp_router empty = {NULL};
    struct { struct lisp_due due; struct lisp_sent sent; struct lisp_seen seen; } to;

    now = "arguments of routers";
    begin(router, text, NULL, 0);
    memset(&to, OLD, sizeof to);
    is("an empty handle", lisp_router_due(&empty, 0, &to.due), LISP_NULL);
    is("no room", lisp_router_send(router, 0, 0, 0, buffer, room - 1, &to.sent), LISP_ROOM);
    is("no room first", lisp_router_send(&empty, 9, 9, UINT64_MAX, NULL, 0, &to.sent), LISP_ROOM);
    is("too late", lisp_router_send(router, 0, 0, last_time + 1, buffer, room, &to.sent), LISP_CLOCK);
    is("too late second", lisp_router_send(&empty, 9, 9, UINT64_MAX, buffer, room, &to.sent), LISP_CLOCK);
    is("an empty handle", lisp_router_send(&empty, 9, 9, 0, buffer, room, &to.sent), LISP_NULL);
    is("no room", lisp_router_receive(router, &s1, bytes, length, 0, buffer, length - 1, &to.seen), LISP_ROOM);
    is("no room first", lisp_router_receive(&empty, &s1, bytes, length, 0, NULL, 0, &to.seen), LISP_ROOM);
    is("family 7", lisp_router_receive(router, &seven, bytes, length, 0, buffer, length, &to.seen), LISP_FIELD);
    is("an address first", lisp_router_receive(&empty, &seven, bytes, length, 0, NULL, 0, &to.seen), LISP_FIELD);
    is("an empty handle", lisp_router_receive(&empty, &s1, bytes, length, 0, buffer, length, &to.seen), LISP_NULL);
    untouched(&to, sizeof to);
    untouched(buffer, room);
    lisp_router_stop(&empty);
    is("the empty handle", empty.core == NULL, true);
    sends_worked(router, 0, 0, REGISTER, 1);
}

/* A number of no memory for what reads a configuration. */
static void is_memory(const char *what, uint16_t number)
{
    is(what, number == MEMORY_TOML || number == LISP_OUT_OF_MEMORY ? 0 : calls * 1000 + number, 0);
}

/* Each call of malloc or realloc of a pair, a start and a change is refused in turn; the next finds memory again. */
static void wants_memory_to_start(struct lisp_router *router)
{
    struct lisp_pair pair;

    now = "memory for a router's configuration";
    for (int i = 0; i < 4; i++) {
        struct lisp_router other = {NULL};
        for (long at = 1, most = 1; at <= most; at++) {
            begin(router, text, NULL, 0);
            sends_worked(router, 0, 0, REGISTER, 1);
            const void *core = router->core;
            const long before = held;
            for (refused = at;; refused = 0) {
                calls = 0;
                uint16_t number = i == 0 ? lisp_router_pair(text, text_length, "r1", &pair)
                    : i == 1 ? lisp_router_start(&other, text, text_length, "r1", &(struct lisp_nonce){1, 1}, 0)
                    : i == 2 ? lisp_router_start(router, text, text_length, "r1", &(struct lisp_nonce){1, 1}, 0)
                    : lisp_router_change(router, text, text_length, "r1", 0);
                if (refused == 0) {
                    is("with memory", number, LISP_DONE);
                    break;
                }
                is_memory("a number of no memory", number);
                is("the handle", router->core == core, true);
                is("the other handle", other.core == NULL, true);
                is("blocks that aren't freed", held, before);
            }
            most = calls;
            sends_worked(i == 1 ? &other : router, 0, 0, AGAIN, 2);
            lisp_router_stop(&other);
        }
    }
}

/* The same of a send, and of what is received. */
static void wants_memory_to_run(struct lisp_router *router)
{
    const struct worked *notice = &worked[NOTICE], *reply = &worked[NOTIFY], *ack = &worked[NOTICE_ACK];
    const struct lisp_seen noticed = {notice->message.nonce, 0, 0, 1, ack->length}, counted = {1, 0, 0, 0, 0};
    long most[3];

    now = "memory for a router's datagrams";
    begin(router, text, NULL, 0);
    calls = 0;
    sends_worked(router, 0, 0, REGISTER, 1);
    most[0] = calls, calls = 0;
    receives(router, &s1, notice->bytes, notice->length, LISP_DONE, &noticed);
    most[1] = calls, calls = 0;
    receives(router, &s1, reply->bytes, reply->length, LISP_DONE, &counted);
    most[2] = calls;
    is("whether they took memory", most[0] > 0 && most[1] > 0 && most[2] > 0, true);
    for (long at = 1; at <= most[0]; at++) {
        begin(router, text, NULL, 0);
        calls = 0, refused = at;
        sends_none(router, 0, 0, 0, MEMORY);
        refused = 0;
        is_due(router, 0, true, 0, 0);
        sends_worked(router, 0, 0, REGISTER, 1);
    }
    for (int i = 1; i < 3; i++) {
        const struct worked *it = i == 1 ? notice : reply;
        for (long at = 1; at <= most[i]; at++) {
            calls = 0, refused = at;
            receives(router, &s1, it->bytes, it->length, MEMORY, NULL);
            refused = 0;
            is_due(router, 1000, true, 0, 0);
        }
        receives(router, &s1, it->bytes, it->length, LISP_DONE, i == 1 ? &noticed : &counted);
    }
    same("the acknowledgement", datagram, ack->bytes, ack->length);
}

void routers(void)
{
    static void (*const tests[])(struct lisp_router *) = {
        exchange, refuses, nonces, parts, changes, configurations, pointers, arguments, wants_memory_to_start,
        wants_memory_to_run};
    struct lisp_router router = {NULL};

    for (size_t i = 0; i < COUNT(tests); i++) {
        tests[i](&router);
        lisp_router_stop(&router);
        is("the stopped handle", router.core == NULL, true);
        is("blocks that aren't freed", held, 0);
        lisp_router_stop(&router);
    }
}
