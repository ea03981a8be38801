/*
 * Notices of a Map-Server's core: made under the nonce that the program keeps, due again until they are acknowledged,
 * each refusal, and memory that is refused.
 */
#include "library.h"
#include <string.h>

/* Out of memory for a notice; and how long a record lives, in ms. */
enum { MEMORY = 66, LIFE = 180000 };

static const uint64_t first_nonce = (uint64_t)1 << 63, last_time = (uint64_t)1 << 62;
static const struct lisp_nonce none = {0, 0}, low = {5, 1};
static const struct lisp_router_id first = {1, {[15] = 10}, 0}, second = {1, {[15] = 11}, 1};

/* Starts a Map-Server that holds the record of the first router. */
static void fill(struct lisp_server *server)
{
    start(server);
    takes(server, REGISTER, &r1, 0);
}

/* A notice was made: it is the worked one, to the first router. */
static void is_worked(const struct lisp_notice *notice, const uint8_t *buffer, uint64_t nonce)
{
    const struct worked *it = &worked[NOTICE];

    is("nonce", notice->nonce, nonce);
    same_address("to", &notice->to, &r1);
    is("length", notice->length, it->length);
    same("the notice", buffer, it->bytes, it->length);
    untouched(buffer + it->length, LISP_MESSAGE_ROOM - it->length);
}

/* Makes a notice with this answer, at a time. Where it is refused, nothing is written. */
static void notifies(struct lisp_server *server, const struct lisp_nonce *kept, const struct lisp_router_id *router,
                     uint64_t at, uint16_t wanted)
{
    uint8_t *buffer = edge(LISP_MESSAGE_ROOM);
    struct lisp_notice notice;

    memset(&notice, OLD, sizeof notice);
    is("lisp_server_notify", lisp_server_notify(server, kept, router, at, buffer, LISP_MESSAGE_ROOM, &notice), wanted);
    if (wanted == LISP_DONE) {
        is_worked(&notice, buffer, first_nonce);
    } else {
        untouched(&notice, sizeof notice);
        untouched(buffer, LISP_MESSAGE_ROOM);
    }
}

/* The same for a notice that is sent again. */
static void resends(struct lisp_server *server, const struct lisp_router_id *router, uint64_t at, uint16_t wanted)
{
    uint8_t *buffer = edge(LISP_MESSAGE_ROOM);
    struct lisp_notice notice;

    memset(&notice, OLD, sizeof notice);
    is("lisp_server_resend", lisp_server_resend(server, router, at, buffer, LISP_MESSAGE_ROOM, &notice), wanted);
    if (wanted == LISP_DONE) {
        is_worked(&notice, buffer, 0);
    } else {
        untouched(&notice, sizeof notice);
        untouched(buffer, LISP_MESSAGE_ROOM);
    }
}

/* Whether a notice is due at a time: to the first router, or to none. */
static void is_due(struct lisp_server *server, uint64_t at, uint8_t wanted)
{
    static const struct lisp_router_id nobody;
    const struct lisp_router_id *to = wanted ? &first : &nobody;
    struct lisp_router_id router;

    memset(&router, OLD, sizeof router);
    calls = 0;
    is("lisp_server_due", lisp_server_due(server, at, &router), LISP_DONE);
    is("calls of malloc", calls, 0);
    is("is_there", router.is_there, wanted);
    is("site", router.site, to->site);
    same("xtr", router.xtr, to->xtr, 16);
}

/* The first router acknowledges the worked notice, with this answer. */
static void acknowledges(struct lisp_server *server, const struct lisp_address *from, uint16_t wanted)
{
    const struct worked *it = &worked[NOTICE_ACK];
    uint8_t *buffer = edge(it->length);
    struct lisp_received received;

    memset(&received, OLD, sizeof received);
    is("lisp_server_receive", lisp_server_receive(server, &none, from, it->bytes, it->length, 4000, buffer, it->length,
                                                  &received), wanted);
    untouched(buffer, it->length);
    if (wanted == LISP_DONE) {
        is("accepted", received.accepted, 0);
        is("nonce", received.nonce, first_nonce);
        is("site", received.site, first.site);
        same("xtr", received.xtr, first.xtr, 16);
        is("key_id", received.key_id, 0);
        is("reply_length", received.reply_length, 0);
    } else {
        untouched(&received, sizeof received);
    }
}

/* When the worked notice is sent again, and that its acknowledgement ends it. */
static void exchange(struct lisp_server *server)
{
    static const uint64_t again[] = {3000, 6000, 9000, 15000, 27000, 51000};

    now = "a notice";
    fill(server);
    is_due(server, last_time, false);
    notifies(server, NULL, &first, 0, LISP_DONE);
    for (size_t i = 0; i < COUNT(again); i++) {
        is_due(server, again[i] - 1, false);
        resends(server, &first, again[i] - 1, LISP_NOT_DUE);
        is_due(server, again[i], true);
        resends(server, &second, again[i], LISP_NOT_DUE);
        resends(server, &first, again[i], LISP_DONE);
    }
    is_due(server, UINT64_MAX, false);
    acknowledges(server, &r2, LISP_NO_NOTICE);
    acknowledges(server, &r1, LISP_DONE);
    acknowledges(server, &r1, LISP_NO_NOTICE);
    now = "an acknowledged notice";
    fill(server);
    notifies(server, &none, &first, 0, LISP_DONE);
    is_due(server, 3000, true);
    acknowledges(server, &r1, LISP_DONE);
    is_due(server, UINT64_MAX, false);
    resends(server, &first, 3000, LISP_NOT_DUE);
}

/* A notice stands where the Map-Server goes on with what it held, and else not. */
static void reloads(struct lisp_server *server)
{
    uint8_t goes_on = OLD;

    now = "a notice over other sites";
    fill(server);
    notifies(server, &none, &first, 0, LISP_DONE);
    is("lisp_server_reload", lisp_server_reload(server, text, text_length, &goes_on), LISP_DONE);
    is("goes_on", goes_on, true);
    is_due(server, 3000, true);
    acknowledges(server, &r1, LISP_DONE);
    fill(server);
    notifies(server, &none, &first, 0, LISP_DONE);
    is("lisp_server_reload", lisp_server_reload(server, NULL, 0, &goes_on), LISP_DONE);
    is("goes_on", goes_on, false);
    is_due(server, 3000, false);
    acknowledges(server, &r1, LISP_NO_NOTICE);
}

/* Makes a notice: its nonce is this one. */
static void is_under(struct lisp_server *server, const struct lisp_nonce *kept, uint64_t nonce)
{
    uint8_t *buffer = edge(LISP_MESSAGE_ROOM);
    struct lisp_notice notice;
    struct lisp_message message;

    is("lisp_server_notify", lisp_server_notify(server, kept, &first, 0, buffer, LISP_MESSAGE_ROOM, &notice),
       LISP_DONE);
    is("nonce", notice.nonce, nonce);
    is("lisp_read_message", lisp_read_message(buffer, notice.length, &message), LISP_DONE);
    is("the nonce of the datagram", message.nonce, nonce);
    is("its tag", lisp_authentic(buffer, notice.length, worked[NOTICE].secret, worked[NOTICE].secret_length), true);
}

/* The nonce is above the last one since the start or, where there is none, above the one that was kept. */
static void nonces(struct lisp_server *server)
{
    static const struct lisp_nonce kept = {((uint64_t)1 << 63) + 6, 1}, last = {UINT64_MAX - 1, 1};
    static const struct lisp_nonce spent = {UINT64_MAX, 1};

    now = "nonces of notices";
    fill(server);
    is_under(server, &low, first_nonce);
    is_under(server, &kept, first_nonce + 1);
    is_under(server, NULL, first_nonce + 2);
    fill(server);
    is_under(server, &kept, first_nonce + 7);
    is("restart", lisp_server_restart(server), LISP_DONE);
    takes(server, REGISTER, &r1, 0);
    notifies(server, &spent, &first, 0, LISP_NONCE_SPENT);
    is_under(server, &last, UINT64_MAX);
    notifies(server, NULL, &first, 0, LISP_NONCE_SPENT);
}

/* 256 records of the first router: two Map-Registers that are written here. */
static void registers_too_many(struct lisp_server *server)
{
    static struct worked it;
    static uint8_t bytes[LISP_MESSAGE_ROOM], buffer[LISP_MESSAGE_ROOM];
    struct lisp_received received;
    size_t length;

    for (int part = 0; part < 2; part++) {
        it = worked[REGISTER];
        it.message.nonce = (uint64_t)part + 1;
        it.record_count = part == 0 ? 255 : 1;
        for (size_t i = 0; i < it.record_count; i++) {
            it.records[i] = it.records[0];
            it.records[i].mask_len = 24;
            it.records[i].eid.octets[2] = (uint8_t)(part == 0 ? i : 255);
            it.locators[i] = it.locators[0];
        }
        lisp_write_message(&it.message, it.records, it.record_count, it.locators, it.record_count, it.secret,
                           it.secret_length, bytes, sizeof bytes, &length);
        is("lisp_server_receive",
           lisp_server_receive(server, NULL, &r1, bytes, length, 0, buffer, sizeof buffer, &received), LISP_DONE);
    }
}

/* Refusals, alone and in their order. */
static void refuses(struct lisp_server *server)
{
    static const struct lisp_router_id unknown = {2, {[15] = 10}, 1};
    static const struct lisp_nonce spent = {UINT64_MAX, 1};

    now = "refused notices";
    fill(server);
    notifies(server, &none, &first, last_time + 1, LISP_CLOCK);
    notifies(server, &none, &first, UINT64_MAX, LISP_CLOCK);
    notifies(server, &none, &first, last_time, LISP_NOT_REGISTERED);
    notifies(server, &spent, &first, LIFE, LISP_NOT_REGISTERED);
    notifies(server, &none, &second, 0, LISP_NOT_REGISTERED);
    notifies(server, &none, &unknown, 0, LISP_NOT_REGISTERED);
    notifies(server, &none, &first, LIFE - 1, LISP_DONE);
    resends(server, &first, last_time + 1, LISP_CLOCK);
    resends(server, &first, last_time, LISP_DONE);
    now = "too many records";
    start(server);
    registers_too_many(server);
    notifies(server, &spent, &first, 0, LISP_TOO_LARGE);
}

/* Calls with null pointers, lengths that no memory has, no room, and a handle that holds nothing. */
static void arguments(struct lisp_server *server)
{
    const size_t room = LISP_MESSAGE_ROOM, beyond = (size_t)PTRDIFF_MAX + 1;
    uint8_t *buffer = edge(room);
    struct lisp_server empty = {NULL};
    struct lisp_router_id router;
    struct lisp_notice notice;

    now = "arguments of notices";
    fill(server);
    memset(&router, OLD, sizeof router);
    memset(&notice, OLD, sizeof notice);
    is("no server", lisp_server_notify(NULL, &none, &first, 0, buffer, room, &notice), LISP_NULL);
    is("no router", lisp_server_notify(server, &none, NULL, 0, buffer, room, &notice), LISP_NULL);
    is("no buffer", lisp_server_notify(server, &none, &first, 0, NULL, room, &notice), LISP_NULL);
    is("no notice", lisp_server_notify(server, &none, &first, 0, buffer, room, NULL), LISP_NULL);
    is("too much room", lisp_server_notify(server, &none, &first, 0, buffer, beyond, &notice), LISP_LENGTH);
    is("no room", lisp_server_notify(server, &none, &first, 0, buffer, room - 1, &notice), LISP_ROOM);
    is("no room first", lisp_server_notify(&empty, &none, &first, UINT64_MAX, NULL, 0, &notice), LISP_ROOM);
    is("too late second", lisp_server_notify(&empty, &none, &first, UINT64_MAX, buffer, room, &notice), LISP_CLOCK);
    is("an empty handle", lisp_server_notify(&empty, NULL, &first, 0, buffer, room, &notice), LISP_NULL);
    is("no server", lisp_server_due(NULL, 0, &router), LISP_NULL);
    is("no router", lisp_server_due(server, 0, NULL), LISP_NULL);
    is("an empty handle", lisp_server_due(&empty, 0, &router), LISP_NULL);
    notifies(server, &none, &first, 0, LISP_DONE);
    buffer = edge(room);
    is("no server", lisp_server_resend(NULL, &first, 3000, buffer, room, &notice), LISP_NULL);
    is("no router", lisp_server_resend(server, NULL, 3000, buffer, room, &notice), LISP_NULL);
    is("no buffer", lisp_server_resend(server, &first, 3000, NULL, room, &notice), LISP_NULL);
    is("no notice", lisp_server_resend(server, &first, 3000, buffer, room, NULL), LISP_NULL);
    is("too much room", lisp_server_resend(server, &first, 3000, buffer, beyond, &notice), LISP_LENGTH);
    is("no room", lisp_server_resend(server, &first, 3000, buffer, room - 1, &notice), LISP_ROOM);
    is("no room first", lisp_server_resend(&empty, &first, UINT64_MAX, NULL, 0, &notice), LISP_ROOM);
    is("too late second", lisp_server_resend(&empty, &first, UINT64_MAX, buffer, room, &notice), LISP_CLOCK);
    is("an empty handle", lisp_server_resend(&empty, &first, 3000, buffer, room, &notice), LISP_NULL);
    untouched(buffer, room);
    untouched(&notice, sizeof notice);
    untouched(&router, sizeof router);
    resends(server, &first, 3000, LISP_DONE);
}

/* Each call of malloc or realloc is refused in turn; the next call of the library finds memory again. */
static void wants_memory(struct lisp_server *server)
{
    long most[2];

    now = "memory for notices";
    fill(server);
    calls = 0;
    notifies(server, &low, &first, 0, LISP_DONE);
    most[0] = calls, calls = 0;
    resends(server, &first, 3000, LISP_DONE);
    most[1] = calls;
    is("whether they took memory", most[0] > 0 && most[1] > 0, true);
    for (long at = 1; at <= most[0]; at++) {
        fill(server);
        calls = 0, refused = at;
        notifies(server, &low, &first, 0, MEMORY);
        refused = 0;
        is_due(server, UINT64_MAX, false);
        notifies(server, &low, &first, 0, LISP_DONE);
    }
    for (long at = 1; at <= most[1]; at++) {
        calls = 0, refused = at;
        resends(server, &first, 3000, MEMORY);
        refused = 0;
        is_due(server, 3000, true);
    }
    resends(server, &first, 3000, LISP_DONE);
}

void notices(void)
{
    static void (*const tests[])(struct lisp_server *) = {exchange, reloads, nonces, refuses, arguments, wants_memory};
    struct lisp_server server = {NULL};

    for (size_t i = 0; i < COUNT(tests); i++) {
        tests[i](&server);
        lisp_server_stop(&server);
        is("blocks that aren't freed", held, 0);
    }
}
