/* Lease queries over the table. */
#include "box.h"

#include <stdio.h>

/* Whether a refusal is about the packet; the others are about the server's own clock and memory. */
static int is_about_the_packet(uint32_t refusal)
{
    return refusal >= JESPURLA_REFUSED_PACKET && refusal <= JESPURLA_REFUSED_KEY_LENGTH;
}

/* A query at a moment, and the reply. */
static void ask(uint64_t seconds, const char *file, const char *what)
{
    jespurla_lease table[RECORDS];
    size_t count = make_table(table);
    message query = read_message(file);
    uint8_t reply[JESPURLA_LEASE_REPLY_MIN];
    jespurla_moment now = { seconds };
    jespurla_lease_answer answer = jespurla_lease_query(now, table, count, SERVER,
                                                        query.octets, query.length,
                                                        reply, sizeof reply);

    printf("At %llu %s, %zu octets: %s\n", (unsigned long long)seconds, file, query.length, what);
    if (is_about_the_packet(answer.refusal)) {
        printf("  ");
        print_refusal(answer.refusal);
        puts("\n  the packet is dropped");
        return;
    }
    stop_if_refused("jespurla_lease_query", answer.refusal);
    printf("  %s, %u octets\n", kind_text(answer.kind), (unsigned)answer.length);
    print_reply(reply, answer.length);
}

void show_lease_queries(void)
{
    puts("\nLease queries (10.0.0.7, .8 and .9 leased, 10.0.0.10 free)");
    ask(1000, "query-by-address.bin", "who has 10.0.0.8?");
    ask(1000, "query-by-address-absent.bin", "who has 10.0.0.99?");
    ask(1000, "query-by-hardware.bin", "what has hardware 02:00:00:00:00:07?");
    ask(1000, "query-by-client-id.bin", "what has client id 6f626f65?");
    ask(1000, "query-cut.bin", "the end option is cut off");
    ask(1000, "query-two-keys.bin", "two keys at once");
    ask(1000, "query-listing.bin", "client id 6f626f65 once more, options 51 and 91 listed");
    ask(1000, "query-listing-nothing.bin", "the list is empty");
    ask(1500, "query-by-address-again.bin", "who has 10.0.0.8 at its very expiry?");
    ask(1500, "query-by-client-id-again.bin", "what has client id 6f626f65 at its lease's expiry?");
}
