/*
 * LISP registration (RFC 9301) for programs in C and C++: Map-Register, Map-Notify and Map-Notify-Ack, Map-Request and
 * Map-Reply, and the cores of a Map-Server and of a router. docs/EMBEDDING.md says how to use it.
 *
 * The functions of liblisp_registration.a are proved: each does what is said here for every input, if the caller keeps
 * what no proof can see:
 *
 *   - a pointer is to so many bytes or structs as the length or count behind it says, aligned as C aligns them, for as
 *     long as the call takes;
 *   - what a call writes (a struct, a buffer, a length) overlaps nothing else that the call is given, and no other
 *     thread writes meanwhile what a call is given;
 *   - malloc, realloc and free are of one allocator, which aligns as C wants it, and no call that takes memory is made
 *     from a signal handler, nor from the forked child of a process with threads;
 *   - a struct lisp_server and a struct lisp_router are zeros at first, are not copied, are changed by these calls
 *     alone, and stay on one thread;
 *   - header and library are of one version.
 *
 * A null pointer and a length above PTRDIFF_MAX are answered by the functions below (LISP_NULL, LISP_LENGTH), which are
 * C and not proved. A length of 0 goes with any pointer, also a null one. What a call only writes needs no value
 * before.
 *
 * Of the calls for messages nothing is kept, so that threads need no lock. Only those that write take memory
 * (lisp_write_..), and give all of it back before they return. What a handle (struct lisp_server, struct lisp_router)
 * keeps is given back by lisp_server_stop and lisp_router_stop.
 *
 * Each function but lisp_authentic answers LISP_DONE or the number of the first fault that it met, LISP_NULL and
 * LISP_LENGTH before all others; at a fault nothing was written, but where it is said. The numbers are those of
 * docs/REFUSALS.md and of `lispd explain`.
 */
#ifndef LISP_REGISTRATION_H
#define LISP_REGISTRATION_H

#include <stdbool.h>
#include <stddef.h>
#include <stdint.h>
#include <string.h>

#ifdef __cplusplus
extern "C" {
#endif

/*
 * What a function answers. Out of memory has other numbers too: 24 of a configuration, 48 of a router, 58 of a datagram
 * for a Map-Server, 66 of a notice.
 */
enum {
    LISP_DONE = 0,
    LISP_SHORT = 1,                 /* the bytes end before the message, the record or the locator does */
    LISP_AFI = 2,                   /* an address family that is neither IPv4 nor IPv6 */
    LISP_MASK = 3,                  /* an EID mask longer than its address */
    LISP_KIND = 10,                 /* a type other than 3, 4 and 5 */
    LISP_ALGORITHM = 11,            /* an Algorithm ID other than 2, HMAC-SHA-256-128-None */
    LISP_AUTH_LENGTH = 12,          /* an Authentication Data Length other than 16 */
    LISP_NO_IDS = 13,               /* a Map-Register with bit I clear: it has no xTR-ID and Site-ID */
    LISP_TRAILING = 14,             /* bytes after the end of the message */
    LISP_RECORD = 15,               /* a record that can't be read: lisp_read_record, called for each, says why */
    LISP_TOML = 20,                 /* a configuration that is not valid TOML */
    LISP_MISSING = 21,              /* a field of a configuration is absent, and has no default */
    LISP_BAD_VALUE = 22,            /* a value of a configuration has another form, or names what isn't there */
    LISP_REPEATED = 23,             /* two entries of a configuration are alike where no two may be */
    LISP_NO_SERVER = 40,            /* the router has no Map-Server with that number */
    LISP_ROUTER_NONCE_SPENT = 41,   /* the router's last nonce is 2^63 - 1 or more: it needs a new key */
    LISP_ROUTER_READ = 43,          /* a datagram for a router that can't be read: lisp_read_message says why */
    LISP_ROUTER_NOT_MINE = 44,      /* no Map-Notify, or not from the address of a Map-Server of the router */
    LISP_WRONG_KEY = 45,            /* the Key ID is not the router's */
    LISP_ROUTER_BAD_AUTH = 46,      /* the Authentication Data is wrong under the router's secret */
    LISP_STALE = 47,                /* the nonce is below 2^63, and of no part the last one to that Map-Server */
    LISP_NO_PART = 49,              /* the router's database has no such part */
    LISP_READ = 50,                 /* a datagram for a Map-Server that can't be read: lisp_read_message says why */
    LISP_UNKNOWN_SITE = 51,         /* no such Site-ID is configured */
    LISP_UNKNOWN_KEY = 52,          /* the site has no secret for the Key ID */
    LISP_BAD_AUTH = 53,             /* the Authentication Data is wrong */
    LISP_MERGE_ASKED = 54,          /* the merge bit is set */
    LISP_NOT_ALLOWED = 55,          /* a record's prefix is not one that the site may register */
    LISP_REPLAY = 57,               /* the nonce is not above the last one of that router under that key */
    LISP_NO_NOTICE = 60,            /* a Map-Notify-Ack that no notice waits for */
    LISP_NOT_MINE = 61,             /* a Map-Notify, which is for routers */
    LISP_NOT_REGISTERED = 62,       /* no record of the router is alive */
    LISP_TOO_LARGE = 63,            /* its live records are more than 255, or have more than 16,384 bytes */
    LISP_NONCE_SPENT = 64,          /* the last nonce of the notices is 2^64 - 1 */
    LISP_NOT_DUE = 67,              /* no notice of the router is due */
    LISP_ROUTER = 69,               /* the site lists its routers, and this one isn't among them */
    LISP_CLOCK = 73,                /* a time above 2^62 ms */
    LISP_NOT_UTF8 = 95,             /* a configuration that is not UTF-8 */
    LISP_NULL = 100,                /* a pointer is null, or a handle holds nothing */
    LISP_LENGTH = 101,              /* a length or a count is more than memory can have */
    LISP_ROOM = 102,                /* the buffer has no room */
    LISP_FIELD = 103,               /* a field has no place in a message */
    LISP_COUNTS = 104,              /* so many records, locators, ITR-RLOCs or EID-Prefixes have no place */
    LISP_OUT_OF_MEMORY = 105,       /* malloc or realloc gave no memory */
    LISP_NO_ROUTER = 106,           /* no router of the configuration has the name */
    LISP_REQUEST_SHORT = 110,       /* the bytes end before the Map-Request, the Map-Reply or a part of it does */
    LISP_REQUEST_KIND = 111,        /* another type than the one that is read: 1, 2 or 8 */
    LISP_SECURITY = 112,            /* an encapsulated message with an authentication header (S) */
    LISP_IP_VERSION = 113,          /* an inner IP header of another version than 4 and 6 */
    LISP_IP_HEADER_LENGTH = 114,    /* an inner IPv4 header of fewer than 20 bytes */
    LISP_IP_LENGTH = 115,           /* an inner IP length that its header doesn't fit, or above what is there */
    LISP_FRAGMENT = 116,            /* an inner IP datagram that is a fragment */
    LISP_PROTOCOL = 117,            /* an inner IP datagram that carries no UDP */
    LISP_IP_CHECKSUM = 118,         /* an inner IPv4 header with a wrong checksum */
    LISP_PORT = 119,                /* an inner UDP destination port other than 4342 */
    LISP_UDP_LENGTH = 120,          /* an inner UDP length below 8, or more than what is there */
    LISP_UDP_CHECKSUM = 121,        /* an inner UDP datagram with a wrong checksum; over IPv6 also with none */
    LISP_NO_RECORD = 122,           /* a Map-Request without a record */
    LISP_REQUEST_AFI = 123,         /* an address family that is neither IPv4 nor IPv6, nor 0 for the Source EID */
    LISP_REQUEST_MASK = 124,        /* an EID mask longer than its address */
    LISP_REQUEST_TRAILING = 125,    /* bytes after the records of a Map-Reply */
    LISP_SOURCE = 136,              /* the site lists source addresses, and the datagram's isn't among them */
    LISP_TTL = 137,                 /* a record would live for a TTL that the site doesn't let it have */
    LISP_JUMP = 138,                /* the nonce is further above the last one than the site lets it jump */
    LISP_ROUTERS = 139,             /* as many routers of the site have live rows as may, and this one would be another */
    LISP_ROWS = 140                 /* the site would have more live rows than it may */
};

/* Types of messages (RFC 9301 section 5.1). */
enum { LISP_MAP_REGISTER = 3, LISP_MAP_NOTIFY = 4, LISP_MAP_NOTIFY_ACK = 5 };

/* Address families, as AFI fields name them. */
enum { LISP_IPV4 = 1, LISP_IPV6 = 2 };

/* Where the first record of each message begins; and that of a Map-Reply. */
enum { LISP_RECORDS_AT = 32, LISP_REPLY_RECORDS_AT = 12 };

/* The most ITR-RLOCs and EID-Prefixes of a Map-Request (RFC 9301 section 5.2). */
enum { LISP_ITR_RLOCS = 32, LISP_EIDS = 255 };

/* Room for the locators of any record; and for any datagram that a Map-Server or a router sends of its own accord. */
enum { LISP_LOCATORS = 255, LISP_MESSAGE_ROOM = 16440 };

/* Who answers for an address (RFC 9301 section 8.3). */
enum {
    LISP_ANSWER_NO_SITE = 0,         /* nobody, and no site has the address: negative, for 15 minutes */
    LISP_ANSWER_NOT_REGISTERED = 1,  /* nobody, though a site has the address: negative, for 1 minute */
    LISP_ANSWER_REPLY = 2,           /* the Map-Server, with a record: its router asked for proxy replies */
    LISP_ANSWER_FORWARD = 3          /* the router itself: the Map-Request is forwarded to it */
};

/* What is sent for an EID-Prefix that a Map-Request asks for (RFC 9301 sections 5.4, 8.2 and 8.3). */
enum {
    LISP_REPLIED_RECORDS = 0,   /* a Map-Reply with records */
    LISP_REPLIED_NEGATIVE = 1,  /* a negative Map-Reply: nobody is in its prefix */
    LISP_REPLIED_FORWARD = 2,   /* the Map-Request itself, as it came, on its way to a router */
    LISP_REPLIED_SILENT = 3     /* nothing: the Map-Server has just started, and the ITR asks again */
};

/* An address. */
struct lisp_address {
    uint16_t family;     /* LISP_IPV4 or LISP_IPV6 */
    uint8_t octets[16];  /* in network order; of an IPv4 address the first four, then zeros, which aren't looked at */
};

/* A locator of a record (RFC 9301 section 5.4). */
struct lisp_locator {
    uint8_t priority;    /* unicast priority: less is preferred, 255 is never used */
    uint8_t weight;      /* the share of unicast traffic among locators of one priority */
    uint8_t m_priority;  /* multicast priority */
    uint8_t m_weight;    /* multicast weight */
    uint8_t local;       /* L, 1 or 0: the locator is of the router that sent the record */
    uint8_t probe;       /* p, 1 or 0: the locator is probed */
    uint8_t reachable;   /* R, 1 or 0: the sender can reach the locator */
    struct lisp_address address;
    size_t end;          /* read only: where it ends, and the next one begins */
};

/* A record but its locators (RFC 9301 section 5.4). */
struct lisp_record {
    uint32_t ttl;              /* how long a cache may keep the record, in minutes */
    uint16_t version;          /* the Map-Version number, 0 to 4095 */
    uint8_t act;               /* the ACT bits, 0 to 7: what to do where the record has no locators */
    uint8_t authoritative;     /* A, 1 or 0: the record is its owner's own */
    uint8_t mask_len;          /* the EID mask-len, 0 to 32 or 128 */
    uint8_t locator_count;     /* how many locators it has */
    struct lisp_address eid;   /* the EID-Prefix; bits past the mask are 0, and are cleared where one is written */
    size_t locators_at;        /* read only: where the first locator begins */
    size_t end;                /* read only: where the record ends, and the next one begins */
};

/* A message but its records (RFC 9301 sections 5.6 and 5.7). */
struct lisp_message {
    uint64_t nonce;
    uint64_t site;         /* the Site-ID of a Map-Register */
    uint8_t xtr[16];       /* the xTR-ID of a Map-Register */
    uint8_t kind;          /* LISP_MAP_REGISTER, LISP_MAP_NOTIFY or LISP_MAP_NOTIFY_ACK */
    uint8_t key_id;        /* which secret the message is authenticated under */
    uint8_t proxy;         /* P of a Map-Register, 1 or 0: the Map-Server is to answer Map-Requests */
    uint8_t sec;           /* S, 1 or 0: the router is capable of LISP-SEC */
    uint8_t eid_notify;    /* E, 1 or 0: dynamic EID discovery */
    uint8_t use_ttl;       /* T, 1 or 0: registrations time out by the TTL of their records */
    uint8_t merge;         /* a, 1 or 0: the records are to be merged with those of other routers */
    uint8_t want_notify;   /* M, 1 or 0: a Map-Notify is wanted */
    uint8_t record_count;  /* read only: how many records it has */
    size_t records_at;     /* read only: where the first record begins, which is LISP_RECORDS_AT */
    size_t records_end;    /* read only: where the last record ends */
};

/* An EID-Prefix that is asked for (RFC 9301 section 5.2). */
struct lisp_prefix {
    uint8_t mask_len;             /* the EID mask-len, 0 to 32 or 128 */
    struct lisp_address address;  /* bits past the mask are 0, and are cleared where one is written */
};

/* A Map-Request but its ITR-RLOCs and EID-Prefixes (RFC 9301 section 5.2). */
struct lisp_request {
    uint64_t nonce;
    uint8_t authoritative;        /* A, 1 or 0: an authoritative answer is wanted, from the site itself */
    uint8_t probe;                /* P, 1 or 0: the ITR probes whether a locator is reached */
    uint8_t smr;                  /* S, 1 or 0: a Solicit-Map-Request, which asks the receiver to ask again */
    uint8_t pitr;                 /* p, 1 or 0: a PITR sends it */
    uint8_t smr_invoked;          /* s, 1 or 0: a Solicit-Map-Request was the reason for it */
    uint8_t local;                /* L, 1 or 0: it comes from an xTR of the same site */
    uint8_t no_reply;             /* D, 1 or 0: no Map-Reply is wanted */
    uint8_t itr_rloc_count;       /* read only: how many ITR-RLOCs it has, 1 to LISP_ITR_RLOCS */
    uint8_t eid_count;            /* read only: how many EID-Prefixes it has, 1 to LISP_EIDS */
    struct lisp_address source;   /* the Source EID; of family 0 where there is none */
    size_t itr_rlocs_at;          /* read only: where the first ITR-RLOC begins */
    size_t eids_at;               /* read only: where the record of the first EID-Prefix begins */
    size_t end;                   /* read only: where the last record ends */
};

/* A Map-Reply but its records (RFC 9301 sections 5.4 and 5.5). */
struct lisp_reply {
    uint64_t nonce;        /* of the Map-Request that it answers */
    uint8_t probe;         /* P, 1 or 0: it answers a probe */
    uint8_t echo_nonce;    /* E, 1 or 0: the sender is capable of echoing nonces */
    uint8_t sec;           /* S, 1 or 0: the sender is capable of LISP-SEC */
    uint8_t record_count;  /* read only: how many records it has */
    size_t records_at;     /* read only: where the first record begins, which is LISP_REPLY_RECORDS_AT */
};

/* What stands around an encapsulated Map-Request (RFC 9301 section 5.8). */
struct lisp_encapsulated {
    struct lisp_address source;       /* the inner source address */
    struct lisp_address destination;  /* the inner destination address, of the same family: an EID that is asked for */
    uint16_t port;                    /* the inner UDP source port, to which the Map-Reply goes */
    size_t message_at;                /* read only: where the control message begins */
    size_t message_length;            /* read only: how many bytes it has */
};

/*
 * A Map-Server that the library keeps: the sites that it serves, the rows that it holds, and the last nonces that it
 * accepted since its start. A struct of zero bytes holds none. It stays on the thread that started it, and is never
 * copied.
 */
struct lisp_server {
    void *core;  /* not for the program */
};

/* What a nonce is kept for: a router and the Key ID that it used, or nothing. */
struct lisp_pair {
    uint64_t site;     /* the Site-ID of the router */
    uint8_t xtr[16];   /* its xTR-ID */
    uint8_t key_id;
    uint8_t is_there;  /* 0: there is none, and all is 0 */
};

/* A nonce that the program kept for a pair, or none. */
struct lisp_nonce {
    uint64_t nonce;
    uint8_t is_there;  /* 0: none was ever saved for the pair */
};

/* What a Map-Server took. */
struct lisp_received {
    uint64_t nonce;       /* of the Map-Register, which has to be saved; or of the notice that is done */
    uint64_t site;        /* the Site-ID of the router */
    uint8_t xtr[16];      /* its xTR-ID */
    uint8_t key_id;       /* of the Map-Register, else 0 */
    uint8_t accepted;     /* 1: a Map-Register was accepted; 0: a Map-Notify-Ack ended a notice */
    size_t reply_length;  /* how many bytes of the buffer are the answer; 0 where none is sent */
};

/* A row that a Map-Server holds but its locators: a record, and the Map-Register that it came with last. Or none. */
struct lisp_row {
    uint64_t nonce;             /* of the Map-Register */
    uint64_t site;              /* the Site-ID of the router */
    uint64_t accepted;          /* when the Map-Register was accepted, in ms */
    uint64_t life;              /* for how many ms from then on the row is alive */
    uint8_t xtr[16];            /* the xTR-ID of the router */
    struct lisp_address from;   /* where the Map-Register came from */
    uint8_t key_id;             /* of the Map-Register */
    uint8_t proxy;              /* its bit P, 1 or 0: the Map-Server replies for the router */
    uint8_t is_there;           /* 0: there is none, and all is 0 */
    struct lisp_record record;  /* its places, `locators_at` and `end`, are 0 */
};

/* Who answers for an address. */
struct lisp_answer {
    uint8_t kind;               /* LISP_ANSWER_NO_SITE and the others */
    struct lisp_address to;     /* of LISP_ANSWER_FORWARD where to forward the Map-Request, else 0 */
    struct lisp_record record;  /* of LISP_ANSWER_REPLY the record but its locators, with places of 0, else 0 */
};

/* What is sent for an EID-Prefix that a Map-Request asks for. */
struct lisp_replied {
    uint8_t kind;            /* LISP_REPLIED_RECORDS and the others */
    struct lisp_address to;  /* of LISP_REPLIED_FORWARD where the Map-Request goes on to, UDP port 4342; else 0 */
    size_t length;           /* how many bytes of the buffer are the Map-Reply; 0 where none is sent */
};

/* Which router, or none. */
struct lisp_router_id {
    uint64_t site;     /* its Site-ID */
    uint8_t xtr[16];   /* its xTR-ID */
    uint8_t is_there;  /* read only; 0: there is none, and all is 0 */
};

/* A notice: a Map-Notify that a Map-Server sends a router unasked (RFC 9301 section 5.7). */
struct lisp_notice {
    uint64_t nonce;          /* which has to be saved before; 0 of a notice that is sent again */
    struct lisp_address to;  /* where to send it */
    size_t length;           /* how many bytes of the buffer it is */
};

/*
 * A router that the library keeps: what it registers, its last nonce, and how it stands with its Map-Servers. A struct
 * of zero bytes holds none. It stays on the thread that started it, and is never copied.
 */
struct lisp_router {
    void *core;  /* not for the program */
};

/* What a router has to send, or nothing. */
struct lisp_due {
    size_t server;     /* to which of its Map-Servers, from 0 on, in the order of its configuration */
    size_t part;       /* which part of its database, from 0 on: a large one goes out in several Map-Registers */
    uint8_t is_there;  /* 0: nothing is due, and all is 0 */
};

/* A Map-Register that a router sends. */
struct lisp_sent {
    uint64_t nonce;          /* which has to be saved before, where `must_save` is 1; else 0 */
    uint8_t must_save;       /* 0: a nonce that was saved before serves it too */
    struct lisp_address to;  /* where to send it */
    size_t length;           /* how many bytes of the buffer it is */
};

/* What a router took. */
struct lisp_seen {
    uint64_t nonce;       /* of the Map-Register that is acknowledged, or of the notice */
    size_t server;        /* of which Map-Server, as in struct lisp_due */
    size_t part;          /* of an acknowledgement: which part it is of, as there; of a notice 0 */
    uint8_t is_notice;    /* 1: a notice, which is answered; 0: a Map-Register is acknowledged */
    size_t reply_length;  /* how many bytes of the buffer are the answer; 0 where none is sent */
};

/*
 * What is in the library. From C, call the functions behind these, which answer null pointers. A direct caller, as from
 * another language, also keeps that no pointer is null or misaligned, at a length of 0 neither, and that no length or
 * count is of more than PTRDIFF_MAX bytes.
 */
uint16_t lisp_registration_read_message(const uint8_t *bytes, size_t length, struct lisp_message *message);
uint16_t lisp_registration_read_record(const uint8_t *bytes, size_t length, size_t at, struct lisp_record *entry);
uint16_t lisp_registration_read_locator(const uint8_t *bytes, size_t length, size_t at, struct lisp_locator *locator);
bool lisp_registration_authentic(const uint8_t *bytes, size_t length, const uint8_t *secret, size_t secret_length);
uint16_t lisp_registration_sign(uint8_t *bytes, size_t length, const uint8_t *secret, size_t secret_length);
uint16_t lisp_registration_write_message(const struct lisp_message *message, const struct lisp_record *records,
                                         size_t record_count, const struct lisp_locator *locators, size_t locator_count,
                                         const uint8_t *secret, size_t secret_length, uint8_t *buffer, size_t room,
                                         size_t *length);

uint16_t lisp_registration_read_request(const uint8_t *bytes, size_t length, struct lisp_request *request);
uint16_t lisp_registration_read_itr_rloc(const uint8_t *bytes, size_t length, size_t at, struct lisp_address *itr_rloc,
                                         size_t *end);
uint16_t lisp_registration_read_eid(const uint8_t *bytes, size_t length, size_t at, struct lisp_prefix *eid,
                                    size_t *end);
uint16_t lisp_registration_read_reply(const uint8_t *bytes, size_t length, struct lisp_reply *reply);
uint16_t lisp_registration_read_encapsulated(const uint8_t *bytes, size_t length,
                                             struct lisp_encapsulated *encapsulated);
uint16_t lisp_registration_write_request(const struct lisp_request *request, const struct lisp_address *itr_rlocs,
                                         size_t itr_rloc_count, const struct lisp_prefix *eids, size_t eid_count,
                                         uint8_t *buffer, size_t room, size_t *length);
uint16_t lisp_registration_write_reply(const struct lisp_reply *reply, const struct lisp_record *records,
                                       size_t record_count, const struct lisp_locator *locators, size_t locator_count,
                                       uint8_t *buffer, size_t room, size_t *length);
uint16_t lisp_registration_write_encapsulated(const struct lisp_encapsulated *encapsulated, const uint8_t *message,
                                              size_t message_length, uint8_t *buffer, size_t room, size_t *length);

uint16_t lisp_registration_server_start(const uint8_t *configuration, size_t length, struct lisp_server *server);
void lisp_registration_server_stop(struct lisp_server *server);
uint16_t lisp_registration_server_restart(struct lisp_server *server);
uint16_t lisp_registration_server_reload(const uint8_t *configuration, size_t length, struct lisp_server *server,
                                         uint8_t *goes_on);
void lisp_registration_server_pair(const uint8_t *bytes, size_t length, struct lisp_pair *pair);
uint16_t lisp_registration_server_receive(struct lisp_server *server, const struct lisp_nonce *kept,
                                          const struct lisp_address *from, const uint8_t *bytes, size_t length,
                                          uint64_t now, uint8_t *buffer, size_t room, struct lisp_received *received);
uint16_t lisp_registration_server_expire(struct lisp_server *server, uint64_t now);
uint16_t lisp_registration_server_row(struct lisp_server *server, uint64_t now, size_t *place, struct lisp_row *row,
                                      struct lisp_locator *locators, size_t room);
uint16_t lisp_registration_server_answer(struct lisp_server *server, const struct lisp_address *address, uint64_t now,
                                         struct lisp_answer *answer, struct lisp_locator *locators, size_t room);
uint16_t lisp_registration_server_reply(struct lisp_server *server, const struct lisp_prefix *eid, uint64_t nonce,
                                        uint8_t starting, uint64_t now, uint8_t *buffer, size_t room,
                                        struct lisp_replied *replied);
uint16_t lisp_registration_server_due(struct lisp_server *server, uint64_t now, struct lisp_router_id *router);
uint16_t lisp_registration_server_notify(struct lisp_server *server, const struct lisp_nonce *kept,
                                         const struct lisp_router_id *router, uint64_t now, uint8_t *buffer,
                                         size_t room, struct lisp_notice *notice);
uint16_t lisp_registration_server_resend(struct lisp_server *server, const struct lisp_router_id *router, uint64_t now,
                                         uint8_t *buffer, size_t room, struct lisp_notice *notice);

uint16_t lisp_registration_router_pair(const uint8_t *configuration, size_t length, const uint8_t *name,
                                       size_t name_length, struct lisp_pair *pair);
uint16_t lisp_registration_router_start(const uint8_t *configuration, size_t length, const uint8_t *name,
                                        size_t name_length, const struct lisp_nonce *kept, uint64_t now,
                                        struct lisp_router *router);
void lisp_registration_router_stop(struct lisp_router *router);
uint16_t lisp_registration_router_due(struct lisp_router *router, uint64_t now, struct lisp_due *due);
uint16_t lisp_registration_router_send(struct lisp_router *router, size_t server, size_t part, uint64_t now,
                                       uint8_t *buffer, size_t room, struct lisp_sent *sent);
uint16_t lisp_registration_router_receive(struct lisp_router *router, const struct lisp_address *from,
                                          const uint8_t *bytes, size_t length, uint64_t now, uint8_t *buffer,
                                          size_t room, struct lisp_seen *seen);
uint16_t lisp_registration_router_reply(struct lisp_router *router, const struct lisp_prefix *eid, uint64_t nonce,
                                        uint8_t probe, const struct lisp_address *probed, uint8_t *buffer, size_t room,
                                        struct lisp_replied *replied);
uint16_t lisp_registration_router_change(const uint8_t *configuration, size_t length, const uint8_t *name,
                                         size_t name_length, uint64_t now, struct lisp_router *router);

/* For this header alone, as the next three: LISP_DONE where so many items can be there, else LISP_NULL or LISP_LENGTH. */
static inline uint16_t lisp_span(const void *items, size_t count, size_t size)
{
    if (items == NULL && count != 0)
        return LISP_NULL;
    return count > PTRDIFF_MAX / size ? LISP_LENGTH : LISP_DONE;
}

/* The pointer; where it is null, as it may be of no items, another one, since the library wants none that is null. */
static inline void *lisp_pointer(const void *items)
{
    static uint64_t nothing;
    return items == NULL ? (void *)&nothing : (void *)(uintptr_t)items;
}

/* The nonce that a program kept; a null pointer says that there is none. */
static inline const struct lisp_nonce *lisp_kept(const struct lisp_nonce *kept)
{
    static const struct lisp_nonce none = {0, 0};
    return kept == NULL ? &none : kept;
}

/* The address that is probed; a null pointer says that none is. */
static inline const struct lisp_address *lisp_probed(const struct lisp_address *probed)
{
    static const struct lisp_address none = {0, {0}};
    return probed == NULL ? &none : probed;
}

/*
 * Reads a datagram: what its message says but its records, and where these are. The faults come in this order:
 * LISP_SHORT (no 16 bytes), LISP_KIND, LISP_ALGORITHM, LISP_AUTH_LENGTH, LISP_SHORT (no 32 bytes), LISP_RECORD for the
 * first record that can't be read; then for a Map-Register LISP_NO_IDS, and LISP_SHORT or LISP_TRAILING (other than 24
 * bytes after the records), for the other two LISP_TRAILING (other than 0 or 24 bytes there, which are ignored).
 * Reserved bits are ignored. Of a Map-Notify and a Map-Notify-Ack, what a Map-Register alone has is 0. The tag isn't
 * looked at: see lisp_authentic.
 */
static inline uint16_t lisp_read_message(const uint8_t *bytes, size_t length, struct lisp_message *message)
{
    uint16_t number = lisp_span(bytes, length, 1);

    if (number != LISP_DONE)
        return number;
    if (message == NULL)
        return LISP_NULL;
    return lisp_registration_read_message((const uint8_t *)lisp_pointer(bytes), length, message);
}

/*
 * Reads the record that begins at byte `at` of a datagram: LISP_RECORDS_AT, or the end of the record before it. The
 * faults come in this order: LISP_SHORT (no 12 bytes), LISP_AFI, LISP_MASK, LISP_SHORT (no whole address); then for
 * each locator those of lisp_read_locator. EID bits past the mask are cleared, and reserved bits ignored.
 */
static inline uint16_t lisp_read_record(const uint8_t *bytes, size_t length, size_t at, struct lisp_record *entry)
{
    uint16_t number = lisp_span(bytes, length, 1);

    if (number != LISP_DONE)
        return number;
    if (entry == NULL)
        return LISP_NULL;
    return lisp_registration_read_record((const uint8_t *)lisp_pointer(bytes), length, at, entry);
}

/*
 * Reads the locator that begins at byte `at` of a datagram: a record's `locators_at`, or the end of the locator before
 * it. The faults come in this order: LISP_SHORT (no 8 bytes), LISP_AFI, LISP_SHORT (no whole address).
 */
static inline uint16_t lisp_read_locator(const uint8_t *bytes, size_t length, size_t at, struct lisp_locator *locator)
{
    uint16_t number = lisp_span(bytes, length, 1);

    if (number != LISP_DONE)
        return number;
    if (locator == NULL)
        return LISP_NULL;
    return lisp_registration_read_locator((const uint8_t *)lisp_pointer(bytes), length, at, locator);
}

/*
 * Whether the Authentication Data of a datagram is its tag under a secret: the first 128 bits of HMAC-SHA-256 over all
 * of it, with the Authentication Data taken as zeros (RFC 9301 section 5.6, RFC 4868). False where there are no 32
 * bytes, and where a pointer is null or a length too large. The secret may have any length. Whether the bytes can be
 * read as a message is not looked at: see lisp_read_message.
 */
static inline bool lisp_authentic(const uint8_t *bytes, size_t length, const uint8_t *secret, size_t secret_length)
{
    if (lisp_span(bytes, length, 1) != LISP_DONE || lisp_span(secret, secret_length, 1) != LISP_DONE)
        return false;
    return lisp_registration_authentic((const uint8_t *)lisp_pointer(bytes), length,
                                       (const uint8_t *)lisp_pointer(secret), secret_length);
}

/*
 * Puts the tag of a datagram under a secret into its Authentication Data. LISP_SHORT where there are no 32 bytes;
 * whether the bytes can be read as a message is not looked at.
 */
static inline uint16_t lisp_sign(uint8_t *bytes, size_t length, const uint8_t *secret, size_t secret_length)
{
    uint16_t number = lisp_span(bytes, length, 1);

    if (number == LISP_DONE)
        number = lisp_span(secret, secret_length, 1);
    if (number != LISP_DONE)
        return number;
    return lisp_registration_sign((uint8_t *)lisp_pointer(bytes), length, (const uint8_t *)lisp_pointer(secret),
                                  secret_length);
}

/*
 * Writes the datagram of a message, authentic under a secret: bit I set, reserved bits 0, nothing after the records of
 * a Map-Notify or a Map-Notify-Ack. Each record takes as many of the locators as it counts, those of the first record
 * first. Each flag but 0 is set; what is marked 'read only' above is not looked at, nor what a Map-Register alone has
 * where the message is another one.
 *
 * At LISP_DONE the first `*length` bytes of the buffer are the datagram, and those behind them are as they were. At
 * LISP_ROOM `*length` is how many bytes it needs, and the buffer is as it was. The faults come in this order:
 * LISP_FIELD (the type), LISP_COUNTS (more than 255 records), then for each record LISP_COUNTS (too few locators are
 * left) and LISP_FIELD (of its EID-Prefix, then of its locators, then ACT above 7 or a Map-Version number above 4095),
 * LISP_COUNTS (locators are left), LISP_ROOM. LISP_OUT_OF_MEMORY may come in place of any of these.
 */
static inline uint16_t lisp_write_message(const struct lisp_message *message, const struct lisp_record *records,
                                          size_t record_count, const struct lisp_locator *locators,
                                          size_t locator_count, const uint8_t *secret, size_t secret_length,
                                          uint8_t *buffer, size_t room, size_t *length)
{
    uint16_t number = lisp_span(records, record_count, sizeof *records);

    if (number == LISP_DONE)
        number = lisp_span(locators, locator_count, sizeof *locators);
    if (number == LISP_DONE)
        number = lisp_span(secret, secret_length, 1);
    if (number == LISP_DONE)
        number = lisp_span(buffer, room, 1);
    if (number != LISP_DONE)
        return number;
    if (message == NULL || length == NULL)
        return LISP_NULL;
    return lisp_registration_write_message(message, (const struct lisp_record *)lisp_pointer(records), record_count,
                                           (const struct lisp_locator *)lisp_pointer(locators), locator_count,
                                           (const uint8_t *)lisp_pointer(secret), secret_length,
                                           (uint8_t *)lisp_pointer(buffer), room, length);
}

/*
 * Reads a Map-Request: what it says but its ITR-RLOCs and EID-Prefixes, and where these are. The datagram begins with
 * it; what follows its records is not read. The faults come in this order: LISP_REQUEST_SHORT (no 12 bytes),
 * LISP_REQUEST_KIND, LISP_NO_RECORD; LISP_REQUEST_SHORT (no AFI), LISP_REQUEST_AFI and LISP_REQUEST_SHORT (no whole
 * address) of the Source EID; then those of lisp_read_itr_rloc for each ITR-RLOC, and of lisp_read_eid for each record.
 * M, R, I and reserved bits are ignored.
 */
static inline uint16_t lisp_read_request(const uint8_t *bytes, size_t length, struct lisp_request *request)
{
    uint16_t number = lisp_span(bytes, length, 1);

    if (number != LISP_DONE)
        return number;
    if (request == NULL)
        return LISP_NULL;
    return lisp_registration_read_request((const uint8_t *)lisp_pointer(bytes), length, request);
}

/*
 * Reads the ITR-RLOC that begins at byte `at` of a Map-Request, and tells where it ends, and the next one begins:
 * `itr_rlocs_at` of the Map-Request is where the first one does. The faults come in this order: LISP_REQUEST_SHORT (no
 * AFI), LISP_REQUEST_AFI, LISP_REQUEST_SHORT (no whole address).
 */
static inline uint16_t lisp_read_itr_rloc(const uint8_t *bytes, size_t length, size_t at, struct lisp_address *itr_rloc,
                                          size_t *end)
{
    uint16_t number = lisp_span(bytes, length, 1);

    if (number != LISP_DONE)
        return number;
    if (itr_rloc == NULL || end == NULL)
        return LISP_NULL;
    return lisp_registration_read_itr_rloc((const uint8_t *)lisp_pointer(bytes), length, at, itr_rloc, end);
}

/*
 * Reads the EID-Prefix of the record that begins at byte `at` of a Map-Request, and tells where the record ends, and
 * the next one begins: `eids_at` of the Map-Request is where the first one does. The faults come in this order:
 * LISP_REQUEST_SHORT (no 4 bytes), LISP_REQUEST_AFI, LISP_REQUEST_MASK, LISP_REQUEST_SHORT (no whole address). EID bits
 * past the mask are cleared, and the reserved byte is ignored.
 */
static inline uint16_t lisp_read_eid(const uint8_t *bytes, size_t length, size_t at, struct lisp_prefix *eid,
                                     size_t *end)
{
    uint16_t number = lisp_span(bytes, length, 1);

    if (number != LISP_DONE)
        return number;
    if (eid == NULL || end == NULL)
        return LISP_NULL;
    return lisp_registration_read_eid((const uint8_t *)lisp_pointer(bytes), length, at, eid, end);
}

/*
 * Reads a Map-Reply, the whole datagram: what it says but its records, and where these are. Each is read by
 * lisp_read_record, from LISP_REPLY_RECORDS_AT on, and its locators by lisp_read_locator. The faults come in this
 * order: LISP_REQUEST_SHORT (no 12 bytes), LISP_REQUEST_KIND; for each record LISP_REQUEST_SHORT, LISP_REQUEST_AFI and
 * LISP_REQUEST_MASK where lisp_read_record has LISP_SHORT, LISP_AFI and LISP_MASK; then LISP_REQUEST_TRAILING. Reserved
 * bits are ignored.
 */
static inline uint16_t lisp_read_reply(const uint8_t *bytes, size_t length, struct lisp_reply *reply)
{
    uint16_t number = lisp_span(bytes, length, 1);

    if (number != LISP_DONE)
        return number;
    if (reply == NULL)
        return LISP_NULL;
    return lisp_registration_read_reply((const uint8_t *)lisp_pointer(bytes), length, reply);
}

/*
 * Reads what stands around an encapsulated control message, and tells where that message is, which lisp_read_request
 * reads then. The faults come in this order: LISP_REQUEST_SHORT (no 4 bytes), LISP_REQUEST_KIND, LISP_SECURITY,
 * LISP_REQUEST_SHORT (no IP header), LISP_IP_VERSION; for IPv4 LISP_REQUEST_SHORT (no 20 bytes), LISP_IP_HEADER_LENGTH,
 * LISP_IP_LENGTH, LISP_FRAGMENT, LISP_PROTOCOL, LISP_IP_CHECKSUM; for IPv6 LISP_REQUEST_SHORT (no 40 bytes),
 * LISP_IP_LENGTH, LISP_PROTOCOL; then LISP_REQUEST_SHORT (no UDP header), LISP_PORT, LISP_UDP_LENGTH,
 * LISP_UDP_CHECKSUM. D, reserved bits, and what follows the inner datagrams are ignored.
 */
static inline uint16_t lisp_read_encapsulated(const uint8_t *bytes, size_t length,
                                              struct lisp_encapsulated *encapsulated)
{
    uint16_t number = lisp_span(bytes, length, 1);

    if (number != LISP_DONE)
        return number;
    if (encapsulated == NULL)
        return LISP_NULL;
    return lisp_registration_read_encapsulated((const uint8_t *)lisp_pointer(bytes), length, encapsulated);
}

/*
 * Writes a Map-Request of these ITR-RLOCs and EID-Prefixes: M, R, I and reserved bits 0, and nothing after the records.
 * Each flag but 0 is set; what is marked 'read only' above is not looked at, nor are the octets of a Source EID of
 * family 0.
 *
 * At LISP_DONE the first `*length` bytes of the buffer are the message, and those behind them are as they were. At
 * LISP_ROOM `*length` is how many bytes it needs, and the buffer is as it was. The faults come in this order:
 * LISP_COUNTS (no ITR-RLOC or more than LISP_ITR_RLOCS, then no EID-Prefix or more than LISP_EIDS), LISP_FIELD (of the
 * Source EID, then of the ITR-RLOCs, then of the EID-Prefixes), LISP_ROOM. LISP_OUT_OF_MEMORY may come in place of any
 * of these.
 */
static inline uint16_t lisp_write_request(const struct lisp_request *request, const struct lisp_address *itr_rlocs,
                                          size_t itr_rloc_count, const struct lisp_prefix *eids, size_t eid_count,
                                          uint8_t *buffer, size_t room, size_t *length)
{
    uint16_t number = lisp_span(itr_rlocs, itr_rloc_count, sizeof *itr_rlocs);

    if (number == LISP_DONE)
        number = lisp_span(eids, eid_count, sizeof *eids);
    if (number == LISP_DONE)
        number = lisp_span(buffer, room, 1);
    if (number != LISP_DONE)
        return number;
    if (request == NULL || length == NULL)
        return LISP_NULL;
    return lisp_registration_write_request(request, (const struct lisp_address *)lisp_pointer(itr_rlocs),
                                           itr_rloc_count, (const struct lisp_prefix *)lisp_pointer(eids), eid_count,
                                           (uint8_t *)lisp_pointer(buffer), room, length);
}

/*
 * Writes a Map-Reply of these records: reserved bits 0. Each record takes as many of the locators as it counts, those
 * of the first record first. Each flag but 0 is set; what is marked 'read only' above is not looked at.
 *
 * At LISP_DONE the first `*length` bytes of the buffer are the message, and those behind them are as they were. At
 * LISP_ROOM `*length` is how many bytes it needs, and the buffer is as it was. The faults come in this order:
 * LISP_COUNTS (more than 255 records), then for the records those of lisp_write_message, LISP_ROOM. LISP_OUT_OF_MEMORY
 * may come in place of any of these.
 */
static inline uint16_t lisp_write_reply(const struct lisp_reply *reply, const struct lisp_record *records,
                                        size_t record_count, const struct lisp_locator *locators, size_t locator_count,
                                        uint8_t *buffer, size_t room, size_t *length)
{
    uint16_t number = lisp_span(records, record_count, sizeof *records);

    if (number == LISP_DONE)
        number = lisp_span(locators, locator_count, sizeof *locators);
    if (number == LISP_DONE)
        number = lisp_span(buffer, room, 1);
    if (number != LISP_DONE)
        return number;
    if (reply == NULL || length == NULL)
        return LISP_NULL;
    return lisp_registration_write_reply(reply, (const struct lisp_record *)lisp_pointer(records), record_count,
                                         (const struct lisp_locator *)lisp_pointer(locators), locator_count,
                                         (uint8_t *)lisp_pointer(buffer), room, length);
}

/*
 * Writes a control message after the headers of an encapsulated one: IPv4 or IPv6 by the addresses, both checksums,
 * and reserved bits 0. The message is any bytes, and does not lie in the buffer. What is marked 'read only' above is
 * not looked at.
 *
 * At LISP_DONE the first `*length` bytes of the buffer are the whole, and those behind them are as they were. At
 * LISP_ROOM `*length` is how many bytes it needs, and the buffer is as it was. The faults come in this order:
 * LISP_FIELD (of the source address, of the destination address, two families, a message of more than 65,507 bytes),
 * LISP_ROOM. LISP_OUT_OF_MEMORY may come in place of any of these.
 */
static inline uint16_t lisp_write_encapsulated(const struct lisp_encapsulated *encapsulated, const uint8_t *message,
                                               size_t message_length, uint8_t *buffer, size_t room, size_t *length)
{
    uint16_t number = lisp_span(message, message_length, 1);

    if (number == LISP_DONE)
        number = lisp_span(buffer, room, 1);
    if (number != LISP_DONE)
        return number;
    if (encapsulated == NULL || length == NULL)
        return LISP_NULL;
    return lisp_registration_write_encapsulated(encapsulated, (const uint8_t *)lisp_pointer(message), message_length,
                                                (uint8_t *)lisp_pointer(buffer), room, length);
}

/*
 * Starts a Map-Server of the sites of a configuration (docs/CONFIGURATION.md), which has `length` bytes. It holds no
 * rows yet. What the handle held before is stopped. At a fault (LISP_NOT_UTF8, LISP_TOML, LISP_MISSING, LISP_BAD_VALUE,
 * LISP_REPEATED, out of memory) the handle is as it was.
 */
static inline uint16_t lisp_server_start(struct lisp_server *server, const char *configuration, size_t length)
{
    uint16_t number = lisp_span(configuration, length, 1);

    if (number != LISP_DONE)
        return number;
    if (server == NULL)
        return LISP_NULL;
    return lisp_registration_server_start((const uint8_t *)lisp_pointer(configuration), length, server);
}

/* Stops the Map-Server of a handle, if it holds one: all its memory is given back, and the handle holds none. */
static inline void lisp_server_stop(struct lisp_server *server)
{
    if (server != NULL)
        lisp_registration_server_stop(server);
}

/*
 * Starts the Map-Server of a handle again, as after a crash: its rows and its nonces are gone, its sites stay. Its
 * routers come back with their next Map-Registers. Takes no memory. LISP_NULL where the handle holds none.
 */
static inline uint16_t lisp_server_restart(struct lisp_server *server)
{
    return server == NULL ? (uint16_t)LISP_NULL : lisp_registration_server_restart(server);
}

/*
 * Has the Map-Server of a handle take the sites of another configuration, of `length` bytes, in place of its own. Of
 * the configuration only the sites are taken, as by lisp_server_start. Where these have all that its own sites have
 * (each site with its keys, their secrets and its prefixes, under limits that are as wide), it goes on with its rows,
 * its last nonces and its notices, and `*goes_on` is 1. Else it starts anew with these sites, as after a crash, and
 * `*goes_on` is 0: `starting` of lisp_server_reply is 1 then for another minute.
 *
 * Nothing is to be saved, and what the program saved stays in use. The faults come in this order: those of
 * lisp_server_start, LISP_NULL (the handle holds none). At a fault all is as it was.
 */
static inline uint16_t lisp_server_reload(struct lisp_server *server, const char *configuration, size_t length,
                                          uint8_t *goes_on)
{
    uint16_t number = lisp_span(configuration, length, 1);

    if (number != LISP_DONE)
        return number;
    if (server == NULL || goes_on == NULL)
        return LISP_NULL;
    return lisp_registration_server_reload((const uint8_t *)lisp_pointer(configuration), length, server, goes_on);
}

/*
 * Names the pair whose last nonce a datagram needs: of a Map-Register its router and its Key ID; none of all other
 * bytes. Nothing is checked yet: anyone may have sent it. Takes no memory.
 */
static inline uint16_t lisp_server_pair(const uint8_t *bytes, size_t length, struct lisp_pair *pair)
{
    uint16_t number = lisp_span(bytes, length, 1);

    if (number != LISP_DONE)
        return number;
    if (pair == NULL)
        return LISP_NULL;
    lisp_registration_server_pair((const uint8_t *)lisp_pointer(bytes), length, pair);
    return LISP_DONE;
}

/*
 * Receives a datagram that came from an address at a time, in ms, which must not go back. `kept` is the nonce that the
 * program saved last for the pair that lisp_server_pair names, or none; a null `kept` says none. The buffer needs as
 * much room as the datagram has bytes (LISP_ROOM, and nothing is done).
 *
 * At LISP_DONE, where `received->accepted` is 1, the program saves `received->nonce` for that router and `key_id`, so
 * that no crash loses it, and only then sends the first `reply_length` bytes of the buffer to where the datagram came
 * from. Where the save fails it sends nothing and calls lisp_server_restart, since it is open then whether the nonce is
 * kept. Who sends first, or doesn't save, loses what is promised: after a crash the same Map-Register is accepted
 * again, so that whoever recorded it can bring an old mapping back.
 *
 * The refusals come in the order of docs/PROTOCOL.md, after LISP_FIELD (no address `from`), LISP_ROOM and LISP_NULL
 * (the handle holds none); out of memory (58) may come in place of each, and of LISP_DONE. At a refusal all is as it
 * was.
 */
static inline uint16_t lisp_server_receive(struct lisp_server *server, const struct lisp_nonce *kept,
                                           const struct lisp_address *from, const uint8_t *bytes, size_t length,
                                           uint64_t now, uint8_t *buffer, size_t room, struct lisp_received *received)
{
    uint16_t number = lisp_span(bytes, length, 1);

    if (number == LISP_DONE)
        number = lisp_span(buffer, room, 1);
    if (number != LISP_DONE)
        return number;
    if (server == NULL || from == NULL || received == NULL)
        return LISP_NULL;
    return lisp_registration_server_receive(server, lisp_kept(kept), from, (const uint8_t *)lisp_pointer(bytes), length,
                                            now, (uint8_t *)lisp_pointer(buffer), room, received);
}

/*
 * Drops the rows that are dead at a time, in ms: they outlived their lifetime. Without it they stay in memory, though
 * no call below tells them. Takes no memory. The faults come in this order: LISP_NULL (the handle holds none),
 * LISP_CLOCK.
 */
static inline uint16_t lisp_server_expire(struct lisp_server *server, uint64_t now)
{
    return server == NULL ? (uint16_t)LISP_NULL : lisp_registration_server_expire(server, now);
}

/*
 * Tells the first row from a place on that is alive at a time, in ms: its locators are the first
 * `row->record.locator_count` of `locators`, and `*place` is where to go on. Where none is left `row->is_there` is 0,
 * and `*place` stays. From place 0 on, at one time, and as long as nothing else is called on the Map-Server, each row
 * that is alive then comes once. Takes no memory.
 *
 * The faults come in this order: LISP_NULL (the handle holds none), LISP_ROOM (no room for the locators of the row; for
 * LISP_LOCATORS there always is).
 */
static inline uint16_t lisp_server_row(struct lisp_server *server, uint64_t now, size_t *place, struct lisp_row *row,
                                       struct lisp_locator *locators, size_t room)
{
    uint16_t number = lisp_span(locators, room, sizeof *locators);

    if (number != LISP_DONE)
        return number;
    if (server == NULL || place == NULL || row == NULL)
        return LISP_NULL;
    return lisp_registration_server_row(server, now, place, row, (struct lisp_locator *)lisp_pointer(locators), room);
}

/*
 * Tells who answers for an address at a time, in ms, by the rows that are alive then (docs/PROTOCOL.md). The locators
 * of a record that is told are the first `answer->record.locator_count` of `locators`. Takes no memory. The faults come
 * in this order: LISP_FIELD (no address), LISP_NULL (the handle holds none), LISP_ROOM as of lisp_server_row.
 */
static inline uint16_t lisp_server_answer(struct lisp_server *server, const struct lisp_address *address, uint64_t now,
                                          struct lisp_answer *answer, struct lisp_locator *locators, size_t room)
{
    uint16_t number = lisp_span(locators, room, sizeof *locators);

    if (number != LISP_DONE)
        return number;
    if (server == NULL || address == NULL || answer == NULL)
        return LISP_NULL;
    return lisp_registration_server_answer(server, address, now, answer, (struct lisp_locator *)lisp_pointer(locators),
                                           room);
}

/*
 * Tells what a Map-Server sends for an EID-Prefix that a Map-Request asks for, at a time, in ms, by the rows that are
 * alive then (RFC 9301 sections 5.5, 8.3 and 8.4): a Map-Reply, which is the first `replied->length` bytes of the
 * buffer and has the nonce of the Map-Request; or the Map-Request itself, which goes on as it came, all its bytes, to
 * `replied->to`, UDP port 4342; or nothing. `starting` is 1 in the first minute of the program's life, else 0: rows
 * may not have come back yet, so that no negative Map-Reply is sent, and no records that may leave out others.
 *
 * lisp_read_encapsulated and lisp_read_request tell what a datagram asks for: call this for each of its EID-Prefixes,
 * and send a Map-Request on at most once to each address. A Map-Reply goes to the first ITR-RLOC of the program's own
 * address family and to the inner UDP source port. These are the sender's word: send none to an address that the
 * program doesn't expect there. Where the Map-Request has `smr`, `probe` or `no_reply`, a Map-Server sends nothing.
 *
 * The faults come in this order: LISP_FIELD (the EID-Prefix), LISP_NULL (the handle holds none), LISP_OUT_OF_MEMORY,
 * LISP_ROOM (no room for the Map-Reply; LISP_MESSAGE_ROOM bytes always have). At a fault all is as it was. The memory
 * that it takes is given back.
 */
static inline uint16_t lisp_server_reply(struct lisp_server *server, const struct lisp_prefix *eid, uint64_t nonce,
                                         uint8_t starting, uint64_t now, uint8_t *buffer, size_t room,
                                         struct lisp_replied *replied)
{
    uint16_t number = lisp_span(buffer, room, 1);

    if (number != LISP_DONE)
        return number;
    if (server == NULL || eid == NULL || replied == NULL)
        return LISP_NULL;
    return lisp_registration_server_reply(server, eid, nonce, starting, now, (uint8_t *)lisp_pointer(buffer), room,
                                          replied);
}

/*
 * Makes a notice for a router: a Map-Notify of the records of it that are alive at a time, in ms. `kept` is the nonce
 * that the program saved last for a notice, to whichever router: one nonce is kept for all notices of a Map-Server,
 * apart from those of its pairs. A null `kept` says that none was ever saved. The buffer needs LISP_MESSAGE_ROOM bytes.
 *
 * At LISP_DONE the program saves `notice->nonce`, so that no crash loses it, and only then sends the first
 * `notice->length` bytes of the buffer to `notice->to`. Where the save fails it sends nothing and calls
 * lisp_server_restart. Who sends first, or doesn't save, may send two notices under one nonce, so that the
 * acknowledgement of one ends the other.
 *
 * The notice stands until lisp_server_receive takes its acknowledgement, and meanwhile is due again: see
 * lisp_server_due. It takes the place of one to that router that still stands. The faults come in this order:
 * LISP_ROOM, LISP_CLOCK, LISP_NULL (the handle holds none), LISP_NOT_REGISTERED, LISP_TOO_LARGE, LISP_NONCE_SPENT; out
 * of memory (66) may come in place of the last three, and of LISP_DONE. At a fault all is as it was.
 */
static inline uint16_t lisp_server_notify(struct lisp_server *server, const struct lisp_nonce *kept,
                                          const struct lisp_router_id *router, uint64_t now, uint8_t *buffer,
                                          size_t room, struct lisp_notice *notice)
{
    uint16_t number = lisp_span(buffer, room, 1);

    if (number != LISP_DONE)
        return number;
    if (server == NULL || router == NULL || notice == NULL)
        return LISP_NULL;
    return lisp_registration_server_notify(server, lisp_kept(kept), router, now, (uint8_t *)lisp_pointer(buffer), room,
                                           notice);
}

/*
 * Names the least router, by Site-ID, then xTR-ID, to which a notice is due again at a time, in ms: 3, 3, 3, 6, 12 and
 * 24 s after it was last sent. Then lisp_server_resend. Where none is due `router->is_there` is 0. Takes no memory.
 * LISP_NULL where the handle holds none.
 */
static inline uint16_t lisp_server_due(struct lisp_server *server, uint64_t now, struct lisp_router_id *router)
{
    if (server == NULL || router == NULL)
        return LISP_NULL;
    return lisp_registration_server_due(server, now, router);
}

/*
 * Sends a router again the notice that is due at a time, in ms: the first `notice->length` bytes of the buffer, which
 * needs LISP_MESSAGE_ROOM bytes, to `notice->to`. Nothing is to be saved. The faults come in this order: LISP_ROOM,
 * LISP_CLOCK, LISP_NULL (the handle holds none), LISP_NOT_DUE, out of memory (66). At a fault all is as it was, and the
 * notice stays due.
 */
static inline uint16_t lisp_server_resend(struct lisp_server *server, const struct lisp_router_id *router, uint64_t now,
                                          uint8_t *buffer, size_t room, struct lisp_notice *notice)
{
    uint16_t number = lisp_span(buffer, room, 1);

    if (number != LISP_DONE)
        return number;
    if (server == NULL || router == NULL || notice == NULL)
        return LISP_NULL;
    return lisp_registration_server_resend(server, router, now, (uint8_t *)lisp_pointer(buffer), room, notice);
}

/*
 * Names what the nonces of a router are kept for: its Site-ID, its xTR-ID and its Key ID, by a configuration
 * (docs/CONFIGURATION.md) of `length` bytes and its name there, which ends with a zero byte. These are nonces that are
 * sent. A Map-Server keeps nonces that it received for the same pair: a program that is both keeps the two apart. The
 * faults: LISP_NOT_UTF8, LISP_TOML, LISP_MISSING, LISP_BAD_VALUE, LISP_REPEATED, LISP_NO_ROUTER, out of memory (24 or
 * LISP_OUT_OF_MEMORY).
 */
static inline uint16_t lisp_router_pair(const char *configuration, size_t length, const char *name,
                                        struct lisp_pair *pair)
{
    uint16_t number = lisp_span(configuration, length, 1);

    if (number != LISP_DONE)
        return number;
    if (name == NULL || pair == NULL)
        return LISP_NULL;
    return lisp_registration_router_pair((const uint8_t *)lisp_pointer(configuration), length, (const uint8_t *)name,
                                         strlen(name), pair);
}

/*
 * Starts a router of a configuration at a time, in ms. `kept` is the nonce that the program saved last for the pair
 * that lisp_router_pair names; a null `kept` says that none was ever saved. All its Map-Servers are due. What the
 * handle held before is stopped: it is also the way back from a save that failed. At a fault, which are those of
 * lisp_router_pair, the handle is as it was.
 */
static inline uint16_t lisp_router_start(struct lisp_router *router, const char *configuration, size_t length,
                                         const char *name, const struct lisp_nonce *kept, uint64_t now)
{
    uint16_t number = lisp_span(configuration, length, 1);

    if (number != LISP_DONE)
        return number;
    if (router == NULL || name == NULL)
        return LISP_NULL;
    return lisp_registration_router_start((const uint8_t *)lisp_pointer(configuration), length, (const uint8_t *)name,
                                          strlen(name), lisp_kept(kept), now, router);
}

/* Stops the router of a handle, if it holds one: all its memory is given back, and the handle holds none. */
static inline void lisp_router_stop(struct lisp_router *router)
{
    if (router != NULL)
        lisp_registration_router_stop(router);
}

/*
 * Tells what a router has to send at a time, in ms: the first of its Map-Servers that is due, and the first part that
 * is due there. Then lisp_router_send. Where nothing is due `due->is_there` is 0. Takes no memory. LISP_NULL where the
 * handle holds none.
 */
static inline uint16_t lisp_router_due(struct lisp_router *router, uint64_t now, struct lisp_due *due)
{
    if (router == NULL || due == NULL)
        return LISP_NULL;
    return lisp_registration_router_due(router, now, due);
}

/*
 * Makes the Map-Register of a part of a router's database for one of its Map-Servers at a time, in ms. The buffer needs
 * LISP_MESSAGE_ROOM bytes.
 *
 * At LISP_DONE, where `sent->must_save` is 1, the program saves `sent->nonce` for the pair that lisp_router_pair names,
 * so that no crash loses it. Only then it sends the first `sent->length` bytes of the buffer to `sent->to`. One nonce
 * that is saved serves `nonce_block` datagrams (docs/CONFIGURATION.md): it is the last of theirs. Where the save fails
 * the program sends nothing, loads the nonce anew and calls lisp_router_start, since it is open then which one is kept.
 * Who sends first, or doesn't save, sends the same nonces again after a crash: Map-Servers refuse them as replays.
 *
 * The faults come in this order: LISP_ROOM, LISP_CLOCK, LISP_NULL (the handle holds none), LISP_NO_SERVER,
 * LISP_NO_PART, LISP_ROUTER_NONCE_SPENT, out of memory (48). At a fault all is as it was, and the Map-Register stays
 * due.
 */
static inline uint16_t lisp_router_send(struct lisp_router *router, size_t server, size_t part, uint64_t now,
                                        uint8_t *buffer, size_t room, struct lisp_sent *sent)
{
    uint16_t number = lisp_span(buffer, room, 1);

    if (number != LISP_DONE)
        return number;
    if (router == NULL || sent == NULL)
        return LISP_NULL;
    return lisp_registration_router_send(router, server, part, now, (uint8_t *)lisp_pointer(buffer), room, sent);
}

/*
 * Receives a datagram that came to a router from an address at a time, in ms: the acknowledgement of its last
 * Map-Register of a part to a Map-Server, or a notice. The buffer needs as much room as the datagram has bytes. At
 * LISP_DONE the program sends the first `seen->reply_length` bytes of the buffer, if there are any, to where the
 * datagram came from. Nothing is to be saved.
 *
 * The faults come in this order: LISP_FIELD (no address `from`), LISP_ROOM, LISP_NULL (the handle holds none),
 * LISP_ROUTER_READ, LISP_ROUTER_NOT_MINE, LISP_WRONG_KEY, LISP_ROUTER_BAD_AUTH, LISP_STALE; out of memory (48) may come
 * in place of those from LISP_ROUTER_READ on. At a fault all is as it was.
 */
static inline uint16_t lisp_router_receive(struct lisp_router *router, const struct lisp_address *from,
                                           const uint8_t *bytes, size_t length, uint64_t now, uint8_t *buffer,
                                           size_t room, struct lisp_seen *seen)
{
    uint16_t number = lisp_span(bytes, length, 1);

    if (number == LISP_DONE)
        number = lisp_span(buffer, room, 1);
    if (number != LISP_DONE)
        return number;
    if (router == NULL || from == NULL || seen == NULL)
        return LISP_NULL;
    return lisp_registration_router_receive(router, from, (const uint8_t *)lisp_pointer(bytes), length, now,
                                            (uint8_t *)lisp_pointer(buffer), room, seen);
}

/*
 * Tells what a router sends for an EID-Prefix that a Map-Request asks for, by the records that it registers (RFC 9301
 * sections 5.5, 7.1 and 8.2): a Map-Reply, which is the first `replied->length` bytes of the buffer and has the nonce
 * of the Map-Request. `probe` is that of the Map-Request: where it isn't 0 the Map-Reply answers a probe (P). `probed`
 * is the address that was probed, which is the router's own: each locator of it has the probe bit. A null `probed`, or
 * one of family 0, says that none was.
 *
 * lisp_server_reply says for which datagrams it is called, and where a Map-Reply goes. A router answers probes, and
 * Map-Requests that come alone, to the UDP source port of the datagram. The faults come in this order: LISP_FIELD (the
 * EID-Prefix, then the probed address), LISP_NULL (the handle holds none), LISP_OUT_OF_MEMORY, LISP_ROOM (no room for
 * the Map-Reply; LISP_MESSAGE_ROOM bytes always have). At a fault all is as it was. The memory that it takes is given
 * back.
 */
static inline uint16_t lisp_router_reply(struct lisp_router *router, const struct lisp_prefix *eid, uint64_t nonce,
                                         uint8_t probe, const struct lisp_address *probed, uint8_t *buffer, size_t room,
                                         struct lisp_replied *replied)
{
    uint16_t number = lisp_span(buffer, room, 1);

    if (number != LISP_DONE)
        return number;
    if (router == NULL || eid == NULL || replied == NULL)
        return LISP_NULL;
    return lisp_registration_router_reply(router, eid, nonce, probe, lisp_probed(probed),
                                          (uint8_t *)lisp_pointer(buffer), room, replied);
}

/*
 * A router registers other records from a time on, in ms: those that a configuration has for a name. All its
 * Map-Servers are due; its key, its nonces and its Map-Servers stay. The faults are those of lisp_router_pair, then
 * LISP_NULL (the handle holds none). At a fault all is as it was.
 */
static inline uint16_t lisp_router_change(struct lisp_router *router, const char *configuration, size_t length,
                                          const char *name, uint64_t now)
{
    uint16_t number = lisp_span(configuration, length, 1);

    if (number != LISP_DONE)
        return number;
    if (router == NULL || name == NULL)
        return LISP_NULL;
    return lisp_registration_router_change((const uint8_t *)lisp_pointer(configuration), length, (const uint8_t *)name,
                                           strlen(name), now, router);
}

#ifdef __cplusplus
}
#endif

#endif
