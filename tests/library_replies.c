/*
 * What a Map-Server and a router send for an EID-Prefix that a Map-Request asks for, as a C program is told it: Map-Replies byte for
 * byte, Map-Requests that go on, and nothing in the first moments; each fault, and memory that is refused. The bytes were put together by
 * hand, by RFC 9301 section 5.4.
 */
#include "library.h"
#include <string.h>

/* How long the records of these Map-Registers live, in ms: bit T is clear (docs/PROTOCOL.md). */
enum { LIFE = 180000 };

#define NONCE 0x1122334455667788
#define HEAD(kind, count) kind, 0, 0, count, 0x11, 0x22, 0x33, 0x44, 0x55, 0x66, 0x77, 0x88
#define RECORD_HEAD(ttl, count, mask, flags, family) 0, 0, (ttl) / 256, (ttl) % 256, count, mask, flags, 0, 0, 0, 0, family
#define LOCATOR(flags) 1, 100, 255, 0, 0, flags, 0, 1, 192, 0, 2, 1
#define ALIKE(bytes) bytes, sizeof bytes

static const uint8_t by_proxy[] = {HEAD(0x20, 1), RECORD_HEAD(1440, 1, 16, 0, 1), 10, 1, 0, 0, LOCATOR(1)};
/* (the second router asked for no proxy replies: ACT 2, Send-Map-Request) */
static const uint8_t with_more[] = {HEAD(0x20, 2), RECORD_HEAD(1440, 1, 16, 0, 1), 10, 1, 0, 0, LOCATOR(1),
    RECORD_HEAD(1440, 0, 24, 0x40, 1), 10, 1, 2, 0};
static const uint8_t no_site[] = {HEAD(0x20, 1), RECORD_HEAD(15, 0, 8, 0x20, 1), 11, 0, 0, 0};
static const uint8_t of_no_family[] = {HEAD(0x20, 1), RECORD_HEAD(15, 0, 0, 0x20, 2), 0, 0, 0, 0, 0, 0, 0, 0, 0, 0, 0, 0, 0, 0, 0, 0};
static const uint8_t not_registered[] = {HEAD(0x20, 1), RECORD_HEAD(1, 0, 16, 0x20, 1), 10, 1, 0, 0};
static const uint8_t beside_a_row[] = {HEAD(0x20, 1), RECORD_HEAD(1, 0, 23, 0x20, 1), 10, 1, 0, 0};

static const uint8_t its_own[] = {HEAD(0x20, 1), RECORD_HEAD(1440, 1, 16, 0x10, 1), 10, 1, 0, 0, LOCATOR(5)};
static const uint8_t to_a_probe[] = {HEAD(0x28, 1), RECORD_HEAD(1440, 1, 16, 0x10, 1), 10, 1, 0, 0, LOCATOR(5)};
static const uint8_t probed_locator[] = {HEAD(0x28, 1), RECORD_HEAD(1440, 1, 16, 0x10, 1), 10, 1, 0, 0, LOCATOR(7)};
static const uint8_t none_of_its_own[] = {HEAD(0x20, 1), RECORD_HEAD(1, 0, 8, 0x30, 1), 11, 0, 0, 0};

static const struct lisp_prefix in_first = {32, {LISP_IPV4, {10, 1, 0, 9}}}, in_both = {32, {LISP_IPV4, {10, 1, 2, 3}}};
static const struct lisp_prefix all_of_it = {16, {LISP_IPV4, {10, 1, 0, 9}}}, outside = {32, {LISP_IPV4, {11, 0, 0, 1}}};
static const struct lisp_prefix other_family = {128, {LISP_IPV6, {0x20, 1}}};
static const struct lisp_prefix seven = {0, {7, {0}}}, too_long = {33, {LISP_IPV4, {10, 1}}};

/* What was told is this: the Map-Reply at the start of so much room, and no byte behind it. */
static void is_told(const struct lisp_replied *got, const uint8_t *buffer, size_t room, uint8_t kind, const struct lisp_address *to,
                    const uint8_t *bytes, size_t length)
{
    static const struct lisp_address nowhere;

    is("kind", got->kind, kind);
    same_address("to", &got->to, to == NULL ? &nowhere : to);
    is("length", got->length, length);
    if (length > 0)
        same("the Map-Reply", buffer, bytes, length);
    untouched(buffer + length, room - length);
}

/* A Map-Server sends this for an EID-Prefix at a time. */
static void server_sends(struct lisp_server *server, const struct lisp_prefix *eid, uint8_t starting, uint64_t at, uint8_t kind,
                         const struct lisp_address *to, const uint8_t *bytes, size_t length)
{
    const size_t rooms[] = {length, length + 100};
    struct lisp_replied got;

    for (size_t i = 0; i < COUNT(rooms); i++) {
        uint8_t *buffer = edge(rooms[i]);
        long before = held;
        memset(&got, OLD, sizeof got);
        is("lisp_server_reply", lisp_server_reply(server, eid, NONCE, starting, at, buffer, rooms[i], &got), LISP_DONE);
        is_told(&got, buffer, rooms[i], kind, to, bytes, length);
        is("blocks that aren't freed", held, before);
    }
}

/* A router sends this Map-Reply for an EID-Prefix. */
static void router_sends(struct lisp_router *router, const struct lisp_prefix *eid, uint8_t probe, const struct lisp_address *probed,
                         uint8_t kind, const uint8_t *bytes, size_t length)
{
    uint8_t *buffer = edge(length);
    struct lisp_replied got;
    long before = held;

    memset(&got, OLD, sizeof got);
    is("lisp_router_reply", lisp_router_reply(router, eid, NONCE, probe, probed, buffer, length, &got), LISP_DONE);
    is_told(&got, buffer, length, kind, NULL, bytes, length);
    is("blocks that aren't freed", held, before);
}

static void replies_of_a_server(struct lisp_server *server)
{
    now = "replies of a Map-Server that holds nothing";
    start(server);
    server_sends(server, &in_first, 0, 0, LISP_REPLIED_NEGATIVE, NULL, ALIKE(not_registered));
    server_sends(server, &outside, 0, 0, LISP_REPLIED_NEGATIVE, NULL, ALIKE(no_site));
    server_sends(server, &other_family, 0, 0, LISP_REPLIED_NEGATIVE, NULL, ALIKE(of_no_family));
    now = "replies of a Map-Server that has just started";
    server_sends(server, &in_first, 1, 0, LISP_REPLIED_SILENT, NULL, NULL, 0);
    server_sends(server, &outside, 255, 0, LISP_REPLIED_SILENT, NULL, NULL, 0);
    now = "replies of a Map-Server";
    takes(server, REGISTER, &r1, 1000);
    server_sends(server, &in_first, 0, 2000, LISP_REPLIED_RECORDS, NULL, ALIKE(by_proxy));
    server_sends(server, &in_first, 1, 2000, LISP_REPLIED_RECORDS, NULL, ALIKE(by_proxy));
    server_sends(server, &all_of_it, 0, 2000, LISP_REPLIED_RECORDS, NULL, ALIKE(by_proxy));
    takes(server, SECOND, &r2, 2000);
    server_sends(server, &in_first, 0, 2000, LISP_REPLIED_RECORDS, NULL, ALIKE(with_more));
    server_sends(server, &in_both, 0, 2000, LISP_REPLIED_FORWARD, &r2, NULL, 0);
    server_sends(server, &in_both, 1, 2000, LISP_REPLIED_FORWARD, &r2, NULL, 0);
    server_sends(server, &outside, 0, 2000, LISP_REPLIED_NEGATIVE, NULL, ALIKE(no_site));
    now = "replies where a row is dead";
    server_sends(server, &in_first, 0, 1000 + LIFE, LISP_REPLIED_NEGATIVE, NULL, ALIKE(beside_a_row));
    server_sends(server, &in_both, 0, 1000 + LIFE, LISP_REPLIED_FORWARD, &r2, NULL, 0);
    server_sends(server, &in_both, 0, UINT64_MAX, LISP_REPLIED_NEGATIVE, NULL, ALIKE(not_registered));
}

static void replies_of_a_router(struct lisp_router *router)
{
    static const struct lisp_address its_locator = {LISP_IPV4, {192, 0, 2, 1}}, none = {0, {192, 0, 2, 1}};

    now = "replies of a router";
    is("lisp_router_start", lisp_router_start(router, text, text_length, "r1", NULL, 0), LISP_DONE);
    router_sends(router, &in_first, 0, NULL, LISP_REPLIED_RECORDS, ALIKE(its_own));
    router_sends(router, &all_of_it, 0, &none, LISP_REPLIED_RECORDS, ALIKE(its_own));
    router_sends(router, &outside, 0, NULL, LISP_REPLIED_NEGATIVE, ALIKE(none_of_its_own));
    now = "probes of a router";
    router_sends(router, &in_first, 1, &its_locator, LISP_REPLIED_RECORDS, ALIKE(probed_locator));
    router_sends(router, &in_first, 255, &r1, LISP_REPLIED_RECORDS, ALIKE(to_a_probe));
    router_sends(router, &in_first, 1, NULL, LISP_REPLIED_RECORDS, ALIKE(to_a_probe));
}

/* No room, no EID-Prefix, null pointers, a length that no memory has, and handles that hold nothing: nothing is written. */
static void arguments(struct lisp_server *server, struct lisp_router *router)
{
    static const struct lisp_address family_seven = {7, {0}};
    const size_t room = sizeof its_own - 1, beyond = (size_t)PTRDIFF_MAX + 1;
    struct lisp_server no_server = {NULL};
    struct lisp_router no_router = {NULL};
    uint8_t *buffer = edge(room);
    struct lisp_replied got;

    now = "arguments of replies";
    start(server);
    takes(server, REGISTER, &r1, 0);
    buffer = edge(room);
    memset(&got, OLD, sizeof got);
    is("39 bytes", lisp_server_reply(server, &in_first, NONCE, 0, 0, buffer, room, &got), LISP_ROOM);
    is("no bytes", lisp_server_reply(server, &in_first, NONCE, 0, 0, NULL, 0, &got), LISP_ROOM);
    is("family 7", lisp_server_reply(&no_server, &seven, NONCE, 0, 0, buffer, room, &got), LISP_FIELD);
    is("33 bits", lisp_server_reply(server, &too_long, NONCE, 0, 0, buffer, room, &got), LISP_FIELD);
    is("an empty handle", lisp_server_reply(&no_server, &in_first, NONCE, 0, 0, buffer, room, &got), LISP_NULL);
    is("no server", lisp_server_reply(NULL, &in_first, NONCE, 0, 0, buffer, room, &got), LISP_NULL);
    is("no EID-Prefix", lisp_server_reply(server, NULL, NONCE, 0, 0, buffer, room, &got), LISP_NULL);
    is("no struct", lisp_server_reply(server, &in_first, NONCE, 0, 0, buffer, room, NULL), LISP_NULL);
    is("no buffer", lisp_server_reply(server, &in_first, NONCE, 0, 0, NULL, 1, &got), LISP_NULL);
    is("too much room", lisp_server_reply(server, &in_first, NONCE, 0, 0, buffer, beyond, &got), LISP_LENGTH);
    is("39 bytes", lisp_router_reply(router, &in_first, NONCE, 0, NULL, buffer, room, &got), LISP_ROOM);
    is("no bytes", lisp_router_reply(router, &in_first, NONCE, 0, NULL, NULL, 0, &got), LISP_ROOM);
    is("family 7", lisp_router_reply(&no_router, &seven, NONCE, 0, NULL, buffer, room, &got), LISP_FIELD);
    is("33 bits", lisp_router_reply(router, &too_long, NONCE, 0, NULL, buffer, room, &got), LISP_FIELD);
    is("a probe of family 7", lisp_router_reply(&no_router, &in_first, NONCE, 1, &family_seven, buffer, room, &got), LISP_FIELD);
    is("an empty handle", lisp_router_reply(&no_router, &in_first, NONCE, 0, NULL, buffer, room, &got), LISP_NULL);
    is("no router", lisp_router_reply(NULL, &in_first, NONCE, 0, NULL, buffer, room, &got), LISP_NULL);
    is("no EID-Prefix", lisp_router_reply(router, NULL, NONCE, 0, NULL, buffer, room, &got), LISP_NULL);
    is("no struct", lisp_router_reply(router, &in_first, NONCE, 0, NULL, buffer, room, NULL), LISP_NULL);
    is("no buffer", lisp_router_reply(router, &in_first, NONCE, 0, NULL, NULL, 1, &got), LISP_NULL);
    is("too much room", lisp_router_reply(router, &in_first, NONCE, 0, NULL, buffer, beyond, &got), LISP_LENGTH);
    untouched(&got, sizeof got);
    untouched(buffer, room);
    /* (no Map-Reply is sent, and none needs room) */
    is("nothing, without room", lisp_server_reply(server, &outside, NONCE, 1, 0, NULL, 0, &got), LISP_DONE);
    is("kind", got.kind, LISP_REPLIED_SILENT);
}

/* Each call of malloc or realloc is refused in turn: nothing is written, and the next call finds memory again. */
static void wants_memory(struct lisp_server *server, struct lisp_router *router)
{
    struct lisp_replied got;
    long most;

    now = "replies without memory";
    calls = 0;
    server_sends(server, &in_first, 0, 0, LISP_REPLIED_RECORDS, NULL, ALIKE(by_proxy));
    most = calls / 2;
    is("whether it took memory", most > 0, true);
    for (long at = 1; at <= most; at++) {
        uint8_t *buffer = edge(sizeof by_proxy);
        long before = held;
        memset(&got, OLD, sizeof got);
        calls = 0, refused = at;
        is("lisp_server_reply", lisp_server_reply(server, &in_first, NONCE, 0, 0, buffer, sizeof by_proxy, &got), LISP_OUT_OF_MEMORY);
        refused = 0;
        untouched(&got, sizeof got);
        untouched(buffer, sizeof by_proxy);
        is("blocks that aren't freed", held, before);
        server_sends(server, &in_first, 0, 0, LISP_REPLIED_RECORDS, NULL, ALIKE(by_proxy));
    }
    calls = 0;
    router_sends(router, &in_first, 0, NULL, LISP_REPLIED_RECORDS, ALIKE(its_own));
    most = calls;
    is("whether it took memory", most > 0, true);
    for (long at = 1; at <= most; at++) {
        uint8_t *buffer = edge(sizeof its_own);
        long before = held;
        memset(&got, OLD, sizeof got);
        calls = 0, refused = at;
        is("lisp_router_reply", lisp_router_reply(router, &in_first, NONCE, 0, NULL, buffer, sizeof its_own, &got), LISP_OUT_OF_MEMORY);
        refused = 0;
        untouched(&got, sizeof got);
        untouched(buffer, sizeof its_own);
        is("blocks that aren't freed", held, before);
        router_sends(router, &in_first, 0, NULL, LISP_REPLIED_RECORDS, ALIKE(its_own));
    }
}

void replies(void)
{
    struct lisp_server server = {NULL};
    struct lisp_router router = {NULL};

    replies_of_a_server(&server);
    replies_of_a_router(&router);
    arguments(&server, &router);
    wants_memory(&server, &router);
    lisp_server_stop(&server);
    lisp_router_stop(&router);
    is("blocks that aren't freed", held, 0);
}
