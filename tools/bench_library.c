/*
 * bench_library: what the calls of the library for C programs take: messages and their tags, Map-Registers that a Map-Server accepts,
 * look-ups and Map-Replies, a large database in its parts, and reading a configuration; and how often a router saves. Each call that is
 * timed has to answer as it should, else nothing more is printed.
 */
#include <inttypes.h>
#include <lisp_registration.h>
#include <stdarg.h>
#include <stdio.h>
#include <stdlib.h>
#include <string.h>
#include <time.h>

#define COUNT(items) (sizeof(items) / sizeof *(items))

/* How many rows one Map-Register brings, until enough are held; and the most bytes that one has. */
enum { BLOCK = 250, MOST_RECORDS = 255, MOST_BYTES = 32 + 16 * MOST_RECORDS + 24 };
/* So many rounds are enough for a mean, or so many nanoseconds. */
enum { ENOUGH_ROUNDS = 1000, ENOUGH_NANOS = 100000000 };
/* Calls that take less are timed together, in rounds of which the shortest counts. */
enum { ROUNDS = 40, CALLS = 5000 };
/* Where the nonce of a message stands; and the bytes after the records of a Map-Register, which its Map-Notify lacks. */
enum { NONCE_AT = 4, IDS_LENGTH = 24 };
/* The records of a large database, in so many parts; the rows beside which many are compared; the Map-Registers whose saves are counted. */
enum { LARGE = 1024, PARTS = 5, FEW = 10, SENDS = 1000 };

/* A Map-Register with one record of one locator. */
static const uint8_t worked[] = {
    0x3a, 0x00, 0x01, 0x01, 0, 0, 0, 0, 0, 0, 0, 1, 0x01, 0x02, 0x00, 0x10, 0xcf, 0x84, 0x57, 0xee, 0x97, 0xfb, 0x53, 0x1b, 0x55, 0x49, 0x86, 0x25,
    0x74, 0xf7, 0x76, 0xad, 0, 0, 0x05, 0xa0, 0x01, 0x10, 0x10, 0, 0, 0, 0, 0x01, 0x0a, 0x01, 0, 0, 0x01, 0x64, 0xff, 0, 0, 0x05, 0, 0x01, 0xc0, 0,
    0x02, 0x01, 0, 0, 0, 0, 0, 0, 0, 0, 0, 0, 0, 0, 0, 0, 0, 0x0a, 0, 0, 0, 0, 0, 0, 0, 0x01};
/* A Map-Request for 10.1.2.3 with one ITR-RLOC, encapsulated, with its UDP checksum; it may also have none, zeros. */
static const uint8_t asked[] = {
    0x80, 0, 0, 0, 0x45, 0, 0, 56, 0, 0, 0, 0, 64, 17, 0xef, 0xa8, 127, 0, 0, 9, 10, 1, 2, 3, 0x9c, 0x40, 0x10, 0xf6, 0, 36, 0x1a, 0xdd,
    0x10, 0, 0, 1, 0x11, 0x22, 0x33, 0x44, 0x55, 0x66, 0x77, 0x88, 0, 0, 0, 1, 127, 0, 0, 9, 0, 32, 0, 1, 10, 1, 2, 3};
enum { CHECKSUM_AT = 30 };
static uint8_t asked_without_sum[sizeof asked];
static const char configuration[] =
    "[[site]]\nid = \"0000000000000001\"\n[[site.key]]\nid = 1\nsecret = \"736563726574\"\n"
    "[[site.prefix]]\neid = \"10.0.0.0/8\"\nmore_specifics = true\n";
static const uint8_t secret[] = {'s', 'e', 'c', 'r', 'e', 't'};
static const struct lisp_address source = {LISP_IPV4, {127, 0, 0, 21}};
static const struct lisp_locator locator = {.priority = 1, .weight = 100, .m_priority = 255, .local = 1, .reachable = 1,
                                            .address = {LISP_IPV4, {192, 0, 2, 1}}};
/* A host that has a row, whose prefix is the first that is sought; and one of the site that none has: every length is sought. */
static const struct lisp_prefix host = {32, {LISP_IPV4, {10}}}, no_host = {32, {LISP_IPV4, {10, 255, 255, 255}}};
static const unsigned rows[] = {1, 1000, 100000}, records[] = {1, 10, MOST_RECORDS}, sites[] = {1000, 10000}, blocks[] = {1, 16, 1024};

/* A Map-Server, its time, and the last Map-Register that it was sent. */
struct network {
    struct lisp_server server;
    uint64_t now, nonce;
    size_t length;
    uint8_t datagram[MOST_BYTES];
};

/* What is timed in rounds: whether a call over a network answers as it should. */
typedef bool timed(struct network *it);

static void expect(bool holds, const char *what)
{
    if (!holds) {
        fprintf(stderr, "bench_library: %s\n", what);
        exit(1);
    }
}

static uint64_t nanos(void)
{
    struct timespec time;

    expect(clock_gettime(CLOCK_MONOTONIC, &time) == 0, "the clock failed");
    return (uint64_t)time.tv_sec * 1000000000 + (uint64_t)time.tv_nsec;
}

/* ---- calls in rounds */

static double mean_of_round(timed *call, struct network *it)
{
    const uint64_t start = nanos();

    for (int i = 0; i < CALLS; i++)
        expect(call(it), "a call fails");
    return (double)(nanos() - start) / CALLS;
}

static double least(double one, double other)
{
    return one < other ? one : other;
}

/* The mean nanoseconds of the shortest round of a call; and of another, whose rounds take turns with its own. */
static double compared(timed *call, struct network *it, timed *with, struct network *beside, double *other)
{
    double own = mean_of_round(call, it);

    *other = mean_of_round(with, beside);
    for (int i = 1; i < ROUNDS; i++) {
        own = least(own, mean_of_round(call, it));
        *other = least(*other, mean_of_round(with, beside));
    }
    return own;
}

static double mean_of(timed *call, struct network *it)
{
    double other;

    return compared(call, it, call, it, &other);
}

/* ---- messages */

static bool is_read(struct network *it)
{
    struct lisp_message message;

    (void)it;
    return lisp_read_message(worked, sizeof worked, &message) == LISP_DONE;
}

static bool is_authentic(struct network *it)
{
    (void)it;
    return lisp_authentic(worked, sizeof worked, secret, sizeof secret);
}

/* The record of the Map-Register, in the Map-Notify that answers it and in a Map-Reply. */
static struct lisp_record record_of(uint8_t mask_len, uint8_t second, uint8_t third, uint8_t fourth, uint8_t locators)
{
    const struct lisp_record made = {.ttl = 1440, .authoritative = 1, .mask_len = mask_len, .locator_count = locators,
                                     .eid = {LISP_IPV4, {10, second, third, fourth}}};

    return made;
}

static bool is_notified(struct network *it)
{
    static uint8_t buffer[MOST_BYTES];
    const struct lisp_message notify = {.nonce = 1, .kind = LISP_MAP_NOTIFY, .key_id = 1};
    const struct lisp_record one = record_of(16, 1, 0, 0, 1);
    size_t length;

    (void)it;
    return lisp_write_message(&notify, &one, 1, &locator, 1, secret, sizeof secret, buffer, sizeof buffer, &length) == LISP_DONE
           && length == sizeof worked - IDS_LENGTH;
}

/* The tags of a Map-Register, which is checked, and of the Map-Notify that answers it, which is made. */
static bool has_tags(const uint8_t *bytes, size_t length)
{
    static uint8_t notify[MOST_BYTES];

    memcpy(notify, bytes, length - IDS_LENGTH);
    notify[0] = LISP_MAP_NOTIFY << 4;
    notify[1] = notify[2] = 0;
    return lisp_authentic(bytes, length, secret, sizeof secret)
           && lisp_sign(notify, length - IDS_LENGTH, secret, sizeof secret) == LISP_DONE;
}

static bool has_worked_tags(struct network *it)
{
    (void)it;
    return has_tags(worked, sizeof worked);
}

static bool request_is_read(const uint8_t *bytes)
{
    struct lisp_encapsulated around;
    struct lisp_request request;

    return lisp_read_encapsulated(bytes, sizeof asked, &around) == LISP_DONE
           && lisp_read_request(bytes + around.message_at, around.message_length, &request) == LISP_DONE;
}

static bool is_asked(struct network *it)
{
    (void)it;
    return request_is_read(asked_without_sum);
}

static bool is_asked_with_sum(struct network *it)
{
    (void)it;
    return request_is_read(asked);
}

static bool is_replied(struct network *it)
{
    static uint8_t buffer[MOST_BYTES];
    const struct lisp_reply reply = {.nonce = 1};
    const struct lisp_record one = record_of(16, 1, 0, 0, 1);
    size_t length;

    (void)it;
    return lisp_write_reply(&reply, &one, 1, &locator, 1, buffer, sizeof buffer, &length) == LISP_DONE && length == 40;
}

static void measure_messages(void)
{
    static const struct {
        const char *name;
        timed *call;
    } calls[] = {{"the 84 byte Map-Register is read", is_read},
                 {"its tag is checked", is_authentic},
                 {"the 60 byte Map-Notify that answers it is written", is_notified},
                 {"the tags of both alone", has_worked_tags},
                 {"a 60 byte encapsulated Map-Request is read", is_asked},
                 {"it is read with its UDP checksum", is_asked_with_sum},
                 {"a 40 byte Map-Reply is written", is_replied}};

    memcpy(asked_without_sum, asked, sizeof asked);
    memset(asked_without_sum + CHECKSUM_AT, 0, 2);
    for (size_t i = 0; i < COUNT(calls); i++) {
        double read;
        const double own = compared(calls[i].call, NULL, is_read, NULL, &read);

        printf("%s: %.0f ns, %.2f times reading the Map-Register\n", calls[i].name, own, own / read);
    }
}

/* ---- registrations */

/* The next Map-Registers have these records. */
static void name_records(struct network *it, const struct lisp_record *named, unsigned count, const struct lisp_locator *locators,
                         size_t locator_count)
{
    struct lisp_message message = {.site = 1, .kind = LISP_MAP_REGISTER, .key_id = 1, .proxy = 1, .want_notify = 1};

    memset(message.xtr, 10, sizeof message.xtr);
    expect(lisp_write_message(&message, named, count, locators, locator_count, secret, sizeof secret, it->datagram, MOST_BYTES, &it->length)
               == LISP_DONE,
           "a Map-Register isn't written");
}

/* They have a record for each of so many hosts of 10.0.0.0/8 from one on. */
static void name_hosts(struct network *it, unsigned first, unsigned count)
{
    static struct lisp_record hosts[MOST_RECORDS];

    for (unsigned place = 0; place < count; place++) {
        const unsigned number = first + place;
        hosts[place] = record_of(32, (uint8_t)(number >> 16), (uint8_t)(number >> 8), (uint8_t)number, 0);
    }
    name_records(it, hosts, count, NULL, 0);
}

/* They have a record for the first host, with a locator. */
static void name_reached(struct network *it)
{
    const struct lisp_record one = record_of(32, 0, 0, 0, 1);

    name_records(it, &one, 1, &locator, 1);
}

/* Gives the Map-Register the next nonce. */
static void renew(struct network *it)
{
    it->nonce++;
    for (int i = 0; i < 8; i++)
        it->datagram[NONCE_AT + i] = (uint8_t)(it->nonce >> (56 - 8 * i));
    expect(lisp_sign(it->datagram, it->length, secret, sizeof secret) == LISP_DONE, "a Map-Register isn't signed");
}

/* The nanoseconds in which the Map-Server accepts a Map-Register and answers it. */
static uint64_t received(struct network *it, const struct lisp_nonce *kept, const uint8_t *bytes, size_t length)
{
    static uint8_t buffer[LISP_MESSAGE_ROOM];
    struct lisp_received took;
    const uint64_t start = nanos();
    const uint16_t number = lisp_server_receive(&it->server, kept, &source, bytes, length, it->now, buffer, sizeof buffer, &took);
    const uint64_t taken = nanos() - start;

    expect(number == LISP_DONE && took.accepted == 1 && took.reply_length > 0, "a Map-Register isn't accepted");
    return taken;
}

/* Has the Map-Server accept the next Map-Register, a millisecond after the last one. */
static uint64_t accepted(struct network *it)
{
    const struct lisp_nonce kept = {it->nonce, it->nonce != 0};

    renew(it);
    it->now++;
    return received(it, &kept, it->datagram, it->length);
}

/* The nanoseconds of the two tags of the next Map-Register and of the Map-Notify that would answer it. */
static uint64_t signed_twice(struct network *it)
{
    renew(it);
    const uint64_t start = nanos();
    expect(has_tags(it->datagram, it->length), "a tag is wrong");
    return nanos() - start;
}

static uint64_t mean(uint64_t (*call)(struct network *), struct network *it, unsigned *calls)
{
    uint64_t taken = 0;

    for (*calls = 0; *calls < ENOUGH_ROUNDS && taken < ENOUGH_NANOS; ++*calls)
        taken += call(it);
    return taken / *calls;
}

/* Registers rows, where so many are held, until it is so many: whole blocks, but for less than one. */
static void fill(struct network *it, unsigned before, unsigned held)
{
    for (unsigned block = before / BLOCK; block < held / BLOCK; block++) {
        name_hosts(it, block * BLOCK, BLOCK);
        accepted(it);
    }
}

static void measure_registrations(struct network *it, unsigned held)
{
    for (size_t i = 0; i < COUNT(records); i++) {
        unsigned calls;

        name_hosts(it, held > records[i] ? held - records[i] : 0, records[i]);
        const uint64_t tags = mean(signed_twice, it, &calls), own = mean(accepted, it, &calls);
        printf("%u rows held, %u records: %" PRIu64 " ns, their two tags alone %" PRIu64 " ns, %.2f times that, the mean of %u calls\n", held,
               records[i], own, tags, (double)own / (double)tags, calls);
    }
}

/* ---- look-ups */

static bool answers(struct network *it, const struct lisp_prefix *of, uint8_t kind)
{
    static struct lisp_locator locators[LISP_LOCATORS];
    struct lisp_answer answer;

    return lisp_server_answer(&it->server, &of->address, it->now, &answer, locators, COUNT(locators)) == LISP_DONE && answer.kind == kind;
}

static bool is_found(struct network *it)
{
    return answers(it, &host, LISP_ANSWER_REPLY);
}

static bool is_not_found(struct network *it)
{
    return answers(it, &no_host, LISP_ANSWER_NOT_REGISTERED);
}

static bool replies(struct network *it, const struct lisp_prefix *to, uint8_t kind)
{
    static uint8_t buffer[LISP_MESSAGE_ROOM];
    struct lisp_replied replied;

    return lisp_server_reply(&it->server, to, 1, 0, it->now, buffer, sizeof buffer, &replied) == LISP_DONE && replied.kind == kind;
}

static bool has_reply(struct network *it)
{
    return replies(it, &host, LISP_REPLIED_RECORDS);
}

static bool has_negative(struct network *it)
{
    return replies(it, &no_host, LISP_REPLIED_NEGATIVE);
}

static bool expires(struct network *it)
{
    return lisp_server_expire(&it->server, it->now) == LISP_DONE;
}

static void measure_lookups(struct network *it, unsigned held)
{
    static const struct {
        const char *name;
        timed *call;
    } calls[] = {{"a look-up that finds the longest prefix first", is_found},
                 {"a look-up that finds none", is_not_found},
                 {"a Map-Reply of one record", has_reply},
                 {"a negative Map-Reply", has_negative},
                 {"dropping dead rows where there are none", expires}};

    for (size_t i = 0; i < COUNT(calls); i++)
        printf("%u rows held, %s: %.0f ns\n", held, calls[i].name, mean_of(calls[i].call, it));
}

static void start(struct network *it)
{
    expect(lisp_server_start(&it->server, configuration, sizeof configuration - 1) == LISP_DONE, "the Map-Server isn't started");
}

static void compare_lookups(struct network *many)
{
    static struct network few;
    double long_one;

    start(&few);
    name_hosts(&few, 0, FEW);
    accepted(&few);
    name_reached(&few);
    accepted(&few);
    name_reached(many);
    accepted(many);
    const double short_one = compared(has_reply, &few, has_reply, many, &long_one);
    printf("a Map-Reply of one record with a locator: %.0f ns with %d rows, %.0f ns with many, %.2f times as long\n", short_one, FEW, long_one,
           long_one / short_one);
    lisp_server_stop(&few.server);
}

static void measure_rows(void)
{
    static struct network it;
    unsigned before = 0;

    start(&it);
    for (size_t i = 0; i < COUNT(rows); i++) {
        fill(&it, before, rows[i]);
        before = rows[i];
        measure_registrations(&it, rows[i]);
        measure_lookups(&it, before > MOST_RECORDS ? before : MOST_RECORDS);
    }
    compare_lookups(&it);
    lisp_server_stop(&it.server);
}

/* ---- texts of configurations */

struct text {
    char *bytes;
    size_t length, room;
};

static void put(struct text *it, const char *form, ...)
{
    va_list words;

    if (it->room - it->length < 400) {
        it->room = 2 * it->room + 400;
        it->bytes = realloc(it->bytes, it->room);
        expect(it->bytes != NULL, "no memory");
    }
    va_start(words, form);
    const int count = vsnprintf(it->bytes + it->length, it->room - it->length, form, words);
    va_end(words);
    expect(count >= 0 && (size_t)count < it->room - it->length, "a text is too long");
    it->length += (size_t)count;
}

/* A configuration of one router, with a Map-Server, and so many hosts of 10.0.0.0/8 as its records. */
static struct text router_text(unsigned block, unsigned hosts)
{
    struct text it = {NULL, 0, 0};

    put(&it, "%s[[server]]\nname = \"s\"\naddress = \"127.0.0.11\"\n", configuration);
    put(&it, "[[router]]\nname = \"r\"\naddress = \"127.0.0.21\"\nsite = \"0000000000000001\"\nxtr = \"%032x\"\nkey = 1\nservers = [\"s\"]\n", 10u);
    put(&it, "proxy = true\nnonce_block = %u\nrecords = [", block);
    for (unsigned place = 0; place < hosts; place++)
        put(&it, "\"10.0.%u.%u/32=1440\", ", place >> 8, place & 255);
    put(&it, "]\n");
    return it;
}

static uint64_t started(struct lisp_router *router, const struct text *text)
{
    const uint64_t begun = nanos();

    expect(lisp_router_start(router, text->bytes, text->length, "r", NULL, 0) == LISP_DONE, "the router isn't started");
    return nanos() - begun;
}

/* ---- a large database */

struct parts {
    uint8_t bytes[PARTS][LISP_MESSAGE_ROOM];
    size_t lengths[PARTS];
};

/* The Map-Registers of all parts of a router's database, with the next nonces. */
static void send_parts(struct lisp_router *router, struct parts *made)
{
    struct lisp_sent sent;

    for (size_t part = 0; part < PARTS; part++) {
        expect(lisp_router_send(router, 0, part, 0, made->bytes[part], LISP_MESSAGE_ROOM, &sent) == LISP_DONE, "a part isn't sent");
        made->lengths[part] = sent.length;
    }
    expect(lisp_router_send(router, 0, PARTS, 0, made->bytes[0], LISP_MESSAGE_ROOM, &sent) == LISP_NO_PART, "there are more parts");
}

/* The nanoseconds of reading all parts; of their tags and those of the Map-Notifies that answer them; and of their registration. */
static void time_parts(struct network *it, const struct parts *sent, uint64_t taken[3])
{
    const uint64_t begun = nanos();

    for (size_t part = 0; part < PARTS; part++) {
        struct lisp_message message;
        expect(lisp_read_message(sent->bytes[part], sent->lengths[part], &message) == LISP_DONE, "a part isn't read");
    }
    const uint64_t are_read = nanos();
    for (size_t part = 0; part < PARTS; part++)
        expect(has_tags(sent->bytes[part], sent->lengths[part]), "a tag is wrong");
    taken[0] += are_read - begun;
    taken[1] += nanos() - are_read;
    it->now++;
    for (size_t part = 0; part < PARTS; part++)
        taken[2] += received(it, NULL, sent->bytes[part], sent->lengths[part]);
}

static void measure_parts(void)
{
    static struct network it;
    static struct parts sent;
    struct lisp_router router = {0};
    struct text text = router_text(1, LARGE);
    uint64_t start_taken = 0, taken[3] = {0, 0, 0};
    unsigned rounds;

    for (rounds = 0; rounds < ENOUGH_ROUNDS && start_taken < ENOUGH_NANOS; rounds++)
        start_taken += started(&router, &text);
    printf("a router with %d records: started in %" PRIu64 " ns, the mean of %u rounds\n", LARGE, start_taken / rounds, rounds);
    start(&it);
    send_parts(&router, &sent);
    time_parts(&it, &sent, taken);
    memset(taken, 0, sizeof taken);
    for (rounds = 0; rounds < ENOUGH_ROUNDS && taken[2] < 10ull * ENOUGH_NANOS; rounds++) {
        send_parts(&router, &sent);
        time_parts(&it, &sent, taken);
    }
    printf("%d records in %d parts: read in %" PRIu64 " ns, registered in %" PRIu64 " ns, their tags alone %" PRIu64
           " ns, %.2f times that, the mean of %u rounds\n",
           LARGE, PARTS, taken[0] / rounds, taken[2] / rounds, taken[1] / rounds, (double)taken[2] / (double)taken[1], rounds);
    lisp_server_stop(&it.server);
    lisp_router_stop(&router);
    free(text.bytes);
}

/* ---- configurations, and saves */

static void measure_configurations(void)
{
    for (size_t i = 0; i < COUNT(sites); i++) {
        struct lisp_server server = {0};
        struct text text = {NULL, 0, 0};

        for (unsigned site = 0; site < sites[i]; site++)
            put(&text, "[[site]]\nid = \"%016x\"\n[[site.key]]\nid = 1\nsecret = \"736563726574\"\n[[site.prefix]]\neid = \"10.1.0.0/16\"\n", site);
        for (unsigned site = 0; site < sites[i]; site++)
            put(&text, "[[router]]\nname = \"r%u\"\naddress = \"10.0.0.1\"\nsite = \"%016x\"\nxtr = \"%032x\"\nkey = 1\nservers = []\n", site, site,
                site);
        const uint64_t begun = nanos();
        expect(lisp_server_start(&server, text.bytes, text.length) == LISP_DONE, "a configuration isn't read");
        printf("a Map-Server of %u sites and as many routers is started in %" PRIu64 " us\n", sites[i], (nanos() - begun) / 1000);
        lisp_server_stop(&server);
        free(text.bytes);
    }
}

static void count_saves(void)
{
    for (size_t i = 0; i < COUNT(blocks); i++) {
        static uint8_t buffer[LISP_MESSAGE_ROOM];
        struct lisp_router router = {0};
        struct text text = router_text(blocks[i], 1);
        struct lisp_sent sent;
        unsigned saves = 0;

        started(&router, &text);
        for (unsigned sends = 0; sends < SENDS; sends++) {
            expect(lisp_router_send(&router, 0, 0, 0, buffer, sizeof buffer, &sent) == LISP_DONE, "a Map-Register isn't sent");
            saves += sent.must_save;
        }
        printf("%d sends with blocks of %u nonces: %u saves\n", SENDS, blocks[i], saves);
        lisp_router_stop(&router);
        free(text.bytes);
    }
}

int main(void)
{
    measure_messages();
    measure_rows();
    measure_parts();
    measure_configurations();
    count_saves();
    return 0;
}
