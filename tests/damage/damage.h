/* What the files of the damage test share. */
#ifndef DAMAGE_H
#define DAMAGE_H

#include "jespurla.h"

#include <stdbool.h>

/* random.c: a repeatable generator. */
void random_seed(uint64_t seed);
uint64_t random_next(void);
/* A number below the bound, which is not 0. */
size_t random_below(size_t bound);
bool one_in(size_t times);
void random_fill(void *octets, size_t length);
/* Changes from one to four octets, near the front as often as anywhere. */
void damage_octets(void *octets, size_t length);

/* lend.c: memory that ends, or starts, at an unreadable page. */
typedef enum { AT_THE_END, AT_THE_START } side;
typedef enum { VALUE, SUFFIX, AREA, TABLE, QUERY, REPLY, ZONE, OTHER_ZONE, PLACES } place;
void lend_open(void);
void lend_choose(side chosen);
/* A lent copy of the octets; at most LEND_MOST. */
#define LEND_MOST 49152
uint8_t *lend(place where, const void *octets, size_t length);
/* The same for a call that only reads: until the place is lent again it can't be written. */
const uint8_t *lend_to_read(place where, const void *octets, size_t length);
/* A mebioctet of which nothing can be read or written, at the start of a page. */
const void *lend_nothing(void);
/* Fails where an octet from `kept` on, or a guard octet beside the lent ones, is not as it was. */
void lend_check(place where, size_t kept);
/* Fails where more than one row of so many octets, or a guard octet, is not as it was. */
void lend_check_rows(place where, size_t row);

/* tally.c: what the calls gave. */
typedef enum {
    FLAG_DECISION,
    NAME_OPTION_ANSWER,
    SERVER_LIST,
    LEASE_QUERY,
    QUERY_BY_ADDRESS,
    QUERY_BY_HARDWARE,
    QUERY_BY_CLIENT_ID,
    LEASE_REPLY_READ,
    ZONE_CHECK,
    REQUEST_A,
    REQUEST_B,
    REMOVE_ADDRESS,
    REMOVE_NAME,
    NEW_ADD,
    NEW_REMOVE,
    JOB_STEP,
    ZONE_CHECK_LENT,
    REQUEST_A_LENT,
    REQUEST_B_LENT,
    REMOVE_ADDRESS_LENT,
    REMOVE_NAME_LENT,
    JOB_STEP_LENT,
    ZONE_FIND,
    ZONE_SAME,
    JOB_HAS_ENDED,
    VERSION,
    CALLS
} call;
/* Ends the program where what has to hold does not. */
void must(bool holds, const char *what);
/* Counts a refusal, which must be one of the list that 0 ends; where it is 0, an answer of this
 * kind (at most 256). */
void tally_count(call which, uint32_t refusal, uint32_t kind, const uint32_t *listed);
/* Prints the table; whether every call was answered, and met each of its refusals. A call that has
 * none has an empty list. */
bool tally_report(void);

/* inputs.c: names in octets, sound mostly. The length, at most 300. */
size_t some_name(uint8_t *octets);
jespurla_name some_zone_name(void);
jespurla_dhcid some_dhcid(void);
jespurla_address some_address(void);
uint8_t some_family(void);
uint8_t some_policy(void);
jespurla_moment some_moment(void);

/* options.c: the first option of a code in a packet whose options are sound, from its length octet
 * on; null where there is none. */
const uint8_t *find_option(const uint8_t *packet, uint8_t code);

/* letters.c: names as they are compared, with capital letters folded, and how a zone spells them.
 * The letters among the octets, each in either form. */
void mix_letters(uint8_t *octets, size_t length);
/* The entry that has the name, in whatever letters; null where none has. */
const jespurla_entry *entry_at(const jespurla_zone *zone, const jespurla_name *name);
/* Fails where two names of the zone are equal. */
void check_distinct(const jespurla_zone *zone);
/* Fails where a name that stood before has other octets after, or a new one other octets than the
 * name that was handed in. */
void check_spelling(const jespurla_zone *before, const jespurla_name *name,
                    const jespurla_zone *after);

/* One turn of the calls of each file. */
void turn_names(void);
void turn_servers(void);
void turn_leases(void);
void turn_queries(void);
void turn_readings(void);
void turn_zones(void);
void turn_jobs(void);
void turn_lent(void);
void turn_lookups(void);

/* leases.c: a sound record of the table, and the reply to a query from the table. */
const jespurla_lease *some_record(void);
jespurla_lease_answer reply_to(const uint8_t *query, size_t length,
                               uint8_t reply[JESPURLA_LEASE_REPLY_MIN]);
/* readings.c: has the box reply to a query that was written, as it is or with a request list, which
 * it must take, and keeps the reply for the next turn. */
void keep_reply(uint32_t xid, const uint8_t *query, size_t length);

/* zones.c: a zone that is sound mostly, and the refusals of what reads one. */
extern const uint32_t zone_refusals[];
const jespurla_zone *some_zone(void);
/* Octets to lend of a zone: it comes first, and any octets follow, LEND_MOST in all. */
const uint8_t *zone_octets(const jespurla_zone *zone);
/* A number of octets that no zone has. */
size_t some_wrong_length(void);
/* Takes over the zone that an unrefused call has left, which must be sound. */
void leave_zone(const jespurla_zone *zone);
/* What a request carries; the policy is B's. */
typedef struct {
    jespurla_name name;
    jespurla_dhcid dhcid;
    jespurla_address address;
    uint8_t family, policy;
} request;
request some_request(call which);
/* Sends it by value; `which` is one of the four. */
jespurla_answered send_by_value(call which, const jespurla_zone *zone, const request *q);

/* jobs.c: one of a few jobs under way, at times damaged; and what becomes of it. */
#define JOBS 8
jespurla_job some_job(size_t at);
void leave_job(size_t at, const jespurla_job *job);
/* Whether a job's stage is one of those that end it, which jespurla_job_has_ended must say too. */
bool has_ended(const jespurla_job *job);

#endif
