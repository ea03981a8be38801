/* What library.c and the files library_*.c share. */
#ifndef LIBRARY_H
#define LIBRARY_H

#include <lisp_registration.h>

#define COUNT(items) (sizeof(items) / sizeof *(items))
/* What bytes are before a call, so that it shows whether they were written. */
enum { OLD = 0xa5 };

/* A message, its datagram, and the secret that this is authentic under. */
struct worked {
    const char *name;
    struct lisp_message message;
    struct lisp_record records[256];
    struct lisp_locator locators[255];
    size_t record_count, locator_count, secret_length, length;
    uint8_t *secret, *bytes;
};

/* Those behind MOST_RECORDS: a notice (the worked Map-Notify under nonce 2^63) and its acknowledgement; the worked Map-Register under
 * nonce 2, and the same with another record; that of the second router; and one whose record has 255 locators. */
enum { REGISTER, NOTIFY, ACK, ALL_FIELDS, MOST_RECORDS, NOTICE, NOTICE_ACK, AGAIN, CHANGED, SECOND, MOST_LOCATORS, WORKED };
extern struct worked worked[WORKED];

/* The text of a configuration that has the site and the routers of these messages. */
extern const char *text;
extern size_t text_length;

/* Where datagrams come from and go to: the routers r1 and r2, and the Map-Servers s1 and s2 of that configuration. */
extern const struct lisp_address r1, r2, s1, s2;

/* Configurations with faults, and the numbers of these. */
extern const struct wrong_text { const char *text; uint16_t number; } wrong_texts[5];

/* What is tested now: it stands in front of what `is` prints. */
extern const char *now;

/* The calls of malloc and realloc: how many there were, which one is refused (0: none), and how much of what they gave isn't freed. */
extern long calls, refused, held;

void is(const char *what, unsigned long long got, unsigned long long wanted);
void same(const char *what, const void *got, const void *wanted, size_t length);

void same_address(const char *what, const struct lisp_address *got, const struct lisp_address *wanted);
void same_record(const struct lisp_record *got, const struct lisp_record *wanted);
void same_locator(const struct lisp_locator *got, const struct lisp_locator *wanted);

/* Whether so many bytes are still OLD. */
void untouched(const void *it, size_t size);

/* So many OLD bytes, or a copy of bytes, behind which a byte that is read or written kills the program. */
uint8_t *edge(size_t length);
uint8_t *at_edge(const uint8_t *bytes, size_t length);

/* Writes a message into so many bytes, with this answer. */
void writes(const struct worked *it, size_t room, uint16_t wanted);

void faults_of_reading(void);
void faults_of_writing(void);
void faults_of_pointers(void);

/* Tests the calls for Map-Requests, Map-Replies and encapsulated Map-Requests. */
void requests(void);

/* Starts a Map-Server of the configuration; and makes it take a worked message that came from an address at a time. */
void start(struct lisp_server *server);
void takes(struct lisp_server *server, int message, const struct lisp_address *from, uint64_t at);

/* Test a Map-Server's core, what it holds, its notices, a router's core, and what both send for a Map-Request. */
void servers(void);
void held_rows(void);
void notices(void);
void routers(void);
void replies(void);

#endif
