/* The call that reads the reply to a lease query. */
#include "damage.h"

#include <string.h>

#define PACKET_ROOM 2900 /* enough for ten options of any length */
#define LISTED 4         /* octets of a request list of one code, with the end option */

/* The last reply to a query that was written, and the xid of that query. */
static uint8_t kept[JESPURLA_LEASE_REPLY_MIN];
static size_t kept_length;
static uint32_t kept_xid;

/* Puts a request list of one code in place of a query's end; the length of the query. */
static size_t list_one(uint8_t *query, size_t length)
{
    static const uint8_t codes[] = { 51, 61, 82, 91, 1 };
    const uint8_t list[LISTED] = { 55, 1, codes[random_below(sizeof codes)], 255 };
    memcpy(query + length - 1, list, sizeof list);
    return length - 1 + sizeof list;
}

void keep_reply(uint32_t xid, const uint8_t *query, size_t length)
{
    uint8_t sent[JESPURLA_LEASE_QUERY_MIN + LISTED];
    jespurla_lease_answer answer;
    memcpy(sent, query, length);
    if (one_in(2))
        length = list_one(sent, length);
    answer = reply_to(sent, length, kept);
    must(answer.refusal == 0, "a query that was written is refused");
    kept_length = answer.length;
    kept_xid = xid;
}

/* Puts an option at the end of a reply, its length mostly as a box has it; where the next goes. */
static size_t put_option(uint8_t *reply, size_t at, uint8_t code)
{
    static const uint8_t lengths[][4] = {
        { 53, 1, 1, 1 },  { 54, 4, 4, 4 },    { 51, 4, 4, 4 },   { 91, 4, 4, 4 },  { 61, 2, 9, 64 },
        { 82, 1, 9, 64 }, { 92, 8, 20, 252 }, { 100, 0, 3, 30 }, { 55, 0, 3, 30 },
    };
    size_t row = 0, length;
    while (lengths[row][0] != code)
        row++;
    length = one_in(64) ? random_below(256) : lengths[row][1 + random_below(3)];
    reply[at] = code;
    reply[at + 1] = (uint8_t)length;
    if (code == 53)
        reply[at + 2] = (uint8_t)(one_in(64) ? random_next() : 11 + random_below(3));
    return at + 2 + length;
}

/* The fields that every reply needs; the others have any octets. */
static void start_reply(uint32_t xid, uint8_t *reply)
{
    static const uint8_t cookie[] = { 99, 130, 83, 99 };
    random_fill(reply, PACKET_ROOM);
    reply[0] = 2;
    reply[2] = (uint8_t)random_below(one_in(16) ? 256 : 17);
    for (int i = 0; i < 4; i++)
        reply[4 + i] = (uint8_t)(xid >> (24 - 8 * i));
    memcpy(reply + 236, cookie, sizeof cookie);
}

/* A reply with options in another order, some of them missing or twice, the first two seldom.
 * Answers its length. */
static size_t some_reply(uint32_t xid, uint8_t *reply)
{
    static const uint8_t codes[] = { 53, 54, 51, 91, 61, 82, 92, 100, 55 };
    size_t at = 240, first = random_below(sizeof codes);
    start_reply(xid, reply);
    for (size_t i = 0; i < sizeof codes; i++) {
        size_t next = (first + i) % sizeof codes;
        if (!one_in(next < 2 ? 64 : 3))
            at = put_option(reply, at, codes[next]);
    }
    if (one_in(32))
        at = put_option(reply, at, codes[random_below(sizeof codes)]);
    reply[at++] = 255;
    return at;
}

/* A time is there exactly where the reply is of an active lease and has its option. */
static void check_times(const jespurla_lease_reading *told, const uint8_t *reply)
{
    bool is_active = told->kind == JESPURLA_LEASEACTIVE;

    must(told->has_left == (is_active && find_option(reply, 51)), "51 told wrong");
    must(told->has_since == (is_active && find_option(reply, 91)), "91 told wrong");
    must(told->has_left || told->left.seconds == 0, "seconds left that are absent");
    must(told->has_since || told->since.seconds == 0, "seconds since that are absent");
}

/* What every answer has, refused or not. */
static void check_reading(const jespurla_lease_reading *told)
{
    static const jespurla_lease_reading zeros;
    const size_t rest = offsetof(jespurla_lease_reading, hlen) + 1 - sizeof told->refusal;

    if (told->refusal != 0)
        must(memcmp((const uint8_t *)told + sizeof told->refusal, &zeros, rest) == 0,
             "a number beside a refusal");
    must(told->refusal != 0 || (told->kind >= 11 && told->kind <= 13), "no such kind");
    must(told->hlen <= JESPURLA_HARDWARE_MAX, "a hardware address that is too long");
    must(told->count <= JESPURLA_REPLY_ADDRESSES_MAX && told->count != 1, "no such count");
    must(memcmp(told->addresses + told->count, zeros.addresses,
                (JESPURLA_REPLY_ADDRESSES_MAX - told->count) * sizeof *zeros.addresses) == 0,
         "an address past the count");
}

/* Reads a reply; the refusal. */
static uint32_t read_reply(uint32_t xid, const uint8_t *reply, size_t length)
{
    static const uint32_t listed[] = { 20, 21, 0 };
    jespurla_lease_reading told =
        jespurla_lease_reply_read(xid, lend_to_read(REPLY, reply, length), length);

    tally_count(LEASE_REPLY_READ, told.refusal, told.kind, listed);
    check_reading(&told);
    check_times(&told, reply);
    lend_check(REPLY, 0);
    return told.refusal;
}

/* A reply of the box is read as it is; with the xid of another query it is refused for that. */
static void turn_kept(void)
{
    uint8_t reply[JESPURLA_LEASE_REPLY_MIN];
    if (kept_length == 0)
        return;
    must(read_reply(kept_xid, kept, kept_length) == 0, "a reply of the box is refused");
    must(read_reply(kept_xid ^ 1, kept, kept_length) == 21, "another query's reply is taken");
    memcpy(reply, kept, kept_length);
    damage_octets(reply + (one_in(2) ? 236 : 0), kept_length - 236);
    read_reply(kept_xid, reply, kept_length);
    read_reply(kept_xid, reply, random_below(kept_length));
}

void turn_readings(void)
{
    uint8_t reply[PACKET_ROOM];
    uint32_t xid = (uint32_t)random_next();
    size_t length = some_reply(xid, reply);

    turn_kept();
    if (one_in(16))
        length = random_below(PACKET_ROOM);
    if (one_in(8))
        damage_octets(reply, length);
    if (one_in(32))
        random_fill(reply, length);
    read_reply(xid, reply, length);
}
