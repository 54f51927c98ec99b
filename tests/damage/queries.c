/* The calls that write lease queries. */
#include "damage.h"

#include <string.h>

#define KEY_ROOM 300

/* A key, of which each call takes its own part. */
typedef struct {
    uint32_t giaddr, address;
    uint8_t htype;
    uint8_t octets[KEY_ROOM]; /* a hardware address or a client id */
    size_t length;
} key;

/* How many octets a key has: mostly as many as some record, else about a limit, or any number. */
static size_t some_length(call which, const jespurla_lease *x)
{
    static const size_t limits[] = { 0, 1, 2, 15, 16, 17, 64, 65, 254, 255, 256 };
    if (one_in(4))
        return limits[random_below(sizeof limits / sizeof *limits)];
    if (one_in(8))
        return random_below(KEY_ROOM);
    return which == QUERY_BY_HARDWARE ? x->hlen : x->idlen;
}

static key some_key(call which)
{
    const jespurla_lease *x = some_record();
    key k;
    random_fill(&k, sizeof k);
    k.giaddr = one_in(16) ? 0 : (uint32_t)random_next();
    k.address = one_in(16) ? (uint32_t)random_below(3) : x->address;
    k.htype = one_in(16) ? (uint8_t)random_next() : x->htype;
    k.length = some_length(which, x);
    if (which == QUERY_BY_HARDWARE)
        memcpy(k.octets, x->chaddr, sizeof x->chaddr);
    else
        memcpy(k.octets, x->id, x->idlen);
    return k;
}

static jespurla_query_answer write_query(call which, uint32_t xid, const key *k,
                                         uint8_t *query, size_t length)
{
    const uint8_t *octets = lend_to_read(VALUE, k->octets, k->length);
    if (which == QUERY_BY_ADDRESS)
        return jespurla_query_by_address(xid, k->giaddr, k->address, query, length);
    if (which == QUERY_BY_HARDWARE)
        return jespurla_query_by_hardware(xid, k->giaddr, k->htype, octets, k->length,
                                          query, length);
    return jespurla_query_by_client_id(xid, k->giaddr, octets, k->length, query, length);
}

/* A key that is refused, and nothing else is. */
static bool is_refused(call which, const key *k)
{
    if (k->giaddr == 0)
        return true;
    if (which == QUERY_BY_ADDRESS)
        return k->address == 0;
    if (which == QUERY_BY_HARDWARE)
        return k->length == 0 || k->length > JESPURLA_HARDWARE_MAX;
    return k->length < 2 || k->length > JESPURLA_QUERY_CLIENT_ID_MAX;
}

/* Writes a query, which the lease query call must take; its reply is kept to be read. */
static void turn_query(call which)
{
    static const uint32_t listed[] = { 19, 32, 0 };
    uint8_t filled[600];
    key k = some_key(which);
    size_t room = one_in(8) ? random_below(600) : JESPURLA_LEASE_QUERY_MIN + random_below(4);
    uint32_t xid = (uint32_t)random_next();
    uint32_t expected = is_refused(which, &k) ? 19 : room < JESPURLA_LEASE_QUERY_MIN ? 32 : 0;
    jespurla_query_answer answer;
    uint8_t *lent;

    random_fill(filled, room);
    lent = lend(QUERY, filled, room);
    answer = write_query(which, xid, &k, lent, room);
    tally_count(which, answer.refusal, 0, listed);
    must(answer.refusal == expected, "a query refused for no reason, or not refused");
    must((answer.refusal == 0) == (answer.length != 0), "a length beside a refusal, or none");
    lend_check(VALUE, 0);
    lend_check(QUERY, answer.length);
    if (answer.refusal == 0)
        keep_reply(xid, lent, answer.length);
}

void turn_queries(void)
{
    turn_query(QUERY_BY_ADDRESS);
    turn_query(QUERY_BY_HARDWARE);
    turn_query(QUERY_BY_CLIENT_ID);
}
