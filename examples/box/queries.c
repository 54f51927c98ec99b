/* The asker's side of lease queries: a query by each key, the reply of the box, and what is read of
 * it. examples/desk.c does the same over a network. */
#include "box.h"

#include <stdio.h>
#include <string.h>

#define XID UINT32_C(0x5eed0001)
#define DESK ADDRESS(1)
#define NOW 1000

/* A query as it is on its way, and whether it could be written. */
typedef struct {
    uint8_t octets[JESPURLA_LEASE_QUERY_MIN];
    jespurla_query_answer answer;
} query;

/* A reply as it is on its way. */
typedef struct {
    uint8_t octets[JESPURLA_LEASE_REPLY_MIN];
    size_t length;
} reply;

static query by_address(uint32_t address)
{
    query q;
    q.answer = jespurla_query_by_address(XID, DESK, address, q.octets, sizeof q.octets);
    return q;
}

static query by_hardware(const uint8_t *chaddr, size_t length)
{
    query q;
    q.answer = jespurla_query_by_hardware(XID, DESK, 1, chaddr, length, q.octets, sizeof q.octets);
    return q;
}

static query by_client_id(const char *id)
{
    query q;
    q.answer = jespurla_query_by_client_id(XID, DESK, (const uint8_t *)id, strlen(id),
                                           q.octets, sizeof q.octets);
    return q;
}

/* The query with a request list, option 55, in place of its end: of the options that a list chooses
 * from the asker wants this one alone. The library writes no list, and the box then sends all. */
static query listing(query q, uint8_t code)
{
    const uint8_t list[] = { 55, 1, code, 255 };
    memcpy(q.octets + q.answer.length - 1, list, sizeof list);
    q.answer.length += sizeof list - 1;
    return q;
}

/* The box takes every query that the library wrote. */
static reply answer_of(const query *q)
{
    jespurla_lease table[RECORDS];
    size_t count = make_table(table);
    jespurla_moment now = { NOW };
    reply r;
    jespurla_lease_answer answer = jespurla_lease_query(now, table, count, SERVER,
                                                        q->octets, q->answer.length,
                                                        r.octets, sizeof r.octets);
    stop_if_refused("jespurla_lease_query", answer.refusal);
    r.length = answer.length;
    return r;
}

/* Both are spans, counted from when the box wrote the reply. Only an active lease has them, and each
 * may be absent: the box leaves out what a query with a list does not list. */
static void print_times(const jespurla_lease_reading *told)
{
    if (told->has_left && told->left.seconds == UINT32_MAX)
        puts("    left: without end");
    else if (told->has_left)
        printf("    left: %u seconds\n", (unsigned)told->left.seconds);
    if (told->has_since)
        printf("    last transaction: %u seconds ago\n", (unsigned)told->since.seconds);
}

static void print_reading(const jespurla_lease_reading *told)
{
    printf("  read: %s, address ", kind_text(told->kind));
    print_number4(told->address);
    printf(", htype %u, hardware ", told->htype);
    print_hardware(told->chaddr, told->hlen);
    puts("");
    print_times(told);
    for (uint32_t i = 0; i < told->count; i++) {
        printf("%s", i == 0 ? "    addresses: " : " ");
        print_number4(told->addresses[i]);
    }
    printf("%s", told->count > 0 ? "\n" : "");
}

/* A reply that is malformed or another query's is dropped, and the asker goes on waiting. */
static void read_reply(uint32_t xid, const reply *r, const char *what)
{
    jespurla_lease_reading told = jespurla_lease_reply_read(xid, r->octets, r->length);

    if (told.refusal == JESPURLA_NOT_REFUSED) {
        print_reading(&told);
        return;
    }
    printf("  %s, %zu octets\n    ", what, r->length);
    print_refusal(told.refusal);
    puts("\n    the packet is dropped");
}

/* A key that no server takes comes from whoever asked: it is told, and nothing is sent. */
static void ask(const char *what, query q)
{
    reply r;

    puts(what);
    if (q.answer.refusal == JESPURLA_REFUSED_QUERY) {
        printf("  ");
        print_refusal(q.answer.refusal);
        puts("\n  nothing is sent");
        return;
    }
    stop_if_refused("the query", q.answer.refusal);
    r = answer_of(&q);
    printf("  query of %u octets, reply of %zu\n", (unsigned)q.answer.length, r.length);
    read_reply(XID, &r, "a reply of the box");
}

/* What an asker does not take: a reply that lost an octet on its way, and one to another query. */
static void show_refused_replies(void)
{
    query q = by_client_id("oboe");
    reply whole = answer_of(&q), cut = whole;

    puts("Replies that are not taken");
    cut.length--;
    read_reply(XID, &cut, "the end option is cut off");
    read_reply(XID + 1, &whole, "the reply to another query");
}

/* Too short for a query that would fit too. The buffer is the program's own, so elsewhere this
 * refusal stops it. */
static void show_short_buffer(void)
{
    uint8_t octets[JESPURLA_LEASE_QUERY_MIN - 1];
    jespurla_query_answer answer = jespurla_query_by_address(XID, DESK, ADDRESS(8),
                                                             octets, sizeof octets);

    puts("A buffer of 500 octets");
    printf("  ");
    print_refusal(answer.refusal);
    puts("");
}

void show_written_queries(void)
{
    static const uint8_t hardware[] = { 2, 0, 0, 0, 0, 7 };
    char id[] = "an id of 65 octets is sent like any other, though nobody has one.";

    puts("\nThe desk asks at 1000: queries written, answered by the box, replies read");
    ask("By address 10.0.0.8", by_address(ADDRESS(8)));
    ask("By address 10.0.0.10, which is free", by_address(ADDRESS(10)));
    ask("By hardware 02:00:00:00:00:07", by_hardware(hardware, sizeof hardware));
    ask("By client id, \"oboe\"", by_client_id("oboe"));
    ask("By client id, \"oboe\", option 91 listed", listing(by_client_id("oboe"), 91));
    ask("By client id, one of 65 octets", by_client_id(id));
    ask("By client id, one of 1 octet", by_client_id("o"));
    ask("By a hardware address of no octets", by_hardware(hardware, 0));
    show_refused_replies();
    show_short_buffer();
}
