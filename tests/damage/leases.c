/* The lease query call, and the table that other files take records and replies from. */
#include "damage.h"

#include <string.h>

#define RECORDS 258
#define PACKET_ROOM 1600

static jespurla_lease table[RECORDS];

/* A sound record of one of a few clients. */
static jespurla_lease some_lease(uint32_t address)
{
    jespurla_lease x;
    random_fill(&x, sizeof x);
    x.address = address;
    x.state = (uint8_t)!one_in(8);
    x.htype = 1;
    x.hlen = 6;
    memset(x.chaddr, 0, sizeof x.chaddr);
    x.chaddr[5] = (uint8_t)random_below(20);
    x.idlen = one_in(4) ? 0 : 4;
    memset(x.id, 'a' + (int)random_below(20), 4);
    x.relaylen = (uint8_t)random_below(65);
    x.last.seconds = random_below(2000);
    x.expiry.seconds = one_in(4) ? JESPURLA_NEVER : random_below(4000);
    return x;
}

static void make_table(void)
{
    uint32_t address = 0;
    for (size_t i = 0; i < RECORDS; i++) {
        address += 1 + (uint32_t)random_below(3);
        table[i] = some_lease(address);
    }
}

/* The fields that every query needs; answers where its options go on. */
static size_t start_query(uint8_t *query)
{
    static const uint8_t rest[] = { 99, 130, 83, 99, 53, 1, 10 };
    memset(query, 0, PACKET_ROOM);
    query[0] = 1;
    random_fill(query + 4, 4);
    query[24] = one_in(16) ? 0 : 10;
    memcpy(query + 236, rest, sizeof rest);
    return 236 + sizeof rest;
}

/* The key of one of the records, or of none. */
static size_t put_key(uint8_t *query, size_t length)
{
    const jespurla_lease *x = &table[random_below(RECORDS)];
    size_t kind = random_below(3);
    if (kind == 0) {
        query[14] = (uint8_t)(x->address >> 8);
        query[15] = (uint8_t)x->address;
    } else if (kind == 1) {
        query[1] = x->htype;
        query[2] = x->hlen;
        memcpy(query + 28, x->chaddr, sizeof x->chaddr);
    } else {
        query[length++] = 61;
        query[length++] = x->idlen;
        memcpy(query + length, x->id, x->idlen);
        length += x->idlen;
    }
    return length;
}

/* A request list, seldom empty, of codes that it chooses from and of others. */
static size_t put_list(uint8_t *query, size_t length)
{
    static const uint8_t codes[] = { 51, 61, 82, 91, 51, 61, 82, 91, 1, 53, 54, 92 };
    size_t size = one_in(32) ? 0 : 1 + random_below(one_in(16) ? 255 : 5);
    query[length++] = 55;
    query[length++] = (uint8_t)size;
    while (size-- > 0)
        query[length++] = codes[random_below(sizeof codes)];
    return length;
}

/* A list ahead of the key or behind it, at times both, which makes two. */
static size_t some_query(uint8_t *query)
{
    size_t length = start_query(query);
    while (one_in(2) && length < 800) {
        size_t size = random_below(one_in(8) ? 256 : 8);
        query[length++] = (uint8_t)(100 + random_below(8));
        query[length++] = (uint8_t)size;
        length += size;
    }
    if (one_in(3))
        length = put_list(query, length);
    length = put_key(query, length);
    if (one_in(8))
        length = put_list(query, length);
    query[length++] = 255;
    if (one_in(8))
        length += random_below(PACKET_ROOM - length);
    if (one_in(4))
        damage_octets(query, length);
    if (one_in(8))
        damage_octets(query + 236, length - 236);
    if (one_in(16))
        length = random_below(length);
    if (one_in(32))
        random_fill(query, length);
    return length;
}

/* Of the four options that a list chooses from, the reply of an active lease has none that is not
 * listed, and both times if they are; any other reply has none. */
static void check_listed(const uint8_t *query, const uint8_t *reply, uint32_t kind)
{
    static const uint8_t codes[] = { 51, 61, 82, 91 };
    const uint8_t *list = find_option(query, 55);
    for (size_t i = 0; i < sizeof codes; i++) {
        bool may_be = kind == JESPURLA_LEASEACTIVE &&
                      (list == NULL || memchr(list + 1, codes[i], list[0]) != NULL);
        bool is_sent = find_option(reply, codes[i]) != NULL;
        bool is_time = codes[i] == 51 || codes[i] == 91;
        must(may_be || !is_sent, "an option that is not listed, or of no active lease");
        must(is_sent || !may_be || !is_time, "a time left out");
    }
}

/* A query over these records, and what it must not touch. */
static jespurla_lease_answer ask(jespurla_moment clock, const jespurla_lease *records, size_t count)
{
    static const uint32_t listed[] = { 15, 9, 8, 1, 2, 3, 4, 5, 6, 7, 0 };
    uint8_t query[PACKET_ROOM], reply[800];
    size_t query_length = some_query(query);
    size_t reply_length =
        one_in(16) ? random_below(800) : JESPURLA_LEASE_REPLY_MIN + random_below(4);
    jespurla_lease_answer answer;
    uint8_t *lent;

    random_fill(reply, reply_length);
    lent = lend(REPLY, reply, reply_length);
    answer = jespurla_lease_query(clock, records, count, (uint32_t)random_next(),
                                  lend_to_read(QUERY, query, query_length), query_length,
                                  lent, reply_length);
    tally_count(LEASE_QUERY, answer.refusal, answer.kind, listed);
    if (answer.refusal == 0) {
        must(answer.kind >= 11 && answer.kind <= 13 && answer.length >= 250, "no such reply");
        check_listed(query, lent, answer.kind);
    } else {
        must(answer.kind == 0 && answer.length == 0, "a reply beside a refusal");
    }
    lend_check(QUERY, 0);
    lend_check(REPLY, answer.length);
    return answer;
}

/* The first records of the table, at times with a few octets of one changed, seldom all. */
static const jespurla_lease *some_table(size_t count)
{
    static jespurla_lease given[RECORDS];
    memcpy(given, table, count * sizeof *given);
    if (one_in(6) && count > 0)
        damage_octets(&given[random_below(count)], sizeof *given);
    if (one_in(64))
        random_fill(given, count * sizeof *given);
    return (const void *)lend_to_read(TABLE, given, count * sizeof *given);
}

static void turn_table(void)
{
    size_t count = one_in(32) ? 256 + random_below(3) : random_below(one_in(4) ? 257 : 20);
    if (table[0].address == 0 || one_in(64))
        make_table();
    ask(some_moment(), some_table(count), count);
    lend_check(TABLE, 0);
}

/* More records than a table may have, where none can be read: only the clock is refused before. */
static void turn_count(void)
{
    const size_t least = JESPURLA_LEASES_MAX + 1, most = SIZE_MAX / sizeof(jespurla_lease);
    size_t drawn = one_in(2) ? random_below(1000) : random_below(most - least);
    size_t count = one_in(4) ? least : one_in(4) ? most : least + drawn;
    jespurla_moment clock = some_moment();
    uint32_t refusal = clock.seconds > JESPURLA_LATEST ? JESPURLA_REFUSED_CLOCK
                                                       : JESPURLA_REFUSED_LEASE_TABLE;

    must(ask(clock, lend_nothing(), count).refusal == refusal, "a table of over 256 records");
}

void turn_leases(void)
{
    turn_table();
    turn_count();
}

const jespurla_lease *some_record(void)
{
    return &table[random_below(RECORDS)];
}

jespurla_lease_answer reply_to(const uint8_t *query, size_t length,
                               uint8_t reply[JESPURLA_LEASE_REPLY_MIN])
{
    jespurla_moment clock = { random_below(4000) };
    size_t count = one_in(4) ? random_below(20) : JESPURLA_LEASES_MAX;
    jespurla_lease_answer answer =
        jespurla_lease_query(clock, table, count, (uint32_t)random_next(), query, length,
                             reply, JESPURLA_LEASE_REPLY_MIN);
    if (answer.refusal == 0)
        check_listed(query, reply, answer.kind);
    return answer;
}
