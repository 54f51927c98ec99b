/*
 * Calls of the library with damaged input, a bounded number of them from a fixed seed: random
 * octets in every argument, and sound ones with a few octets changed, so that deep paths are
 * reached too. Every lent buffer ends at an unreadable page, and in a second pass starts right
 * behind one; what a call only reads lies on pages that can't be written.
 */
#include "damage.h"

#include <stdio.h>

#define SEED UINT64_C(0x5eed4703)
#define TURNS 6000

static void turn_version(void)
{
    static const uint32_t none[] = { 0 };
    must(jespurla_version() == JESPURLA_VERSION, "the library is not of the header's version");
    tally_count(VERSION, 0, 0, none);
}

static void pass(side chosen)
{
    lend_choose(chosen);
    for (int turn = 0; turn < TURNS; turn++) {
        turn_names();
        turn_servers();
        turn_leases();
        turn_queries();
        turn_readings();
        turn_zones();
        turn_jobs();
        turn_lent();
        turn_lookups();
        turn_version();
    }
}

int main(void)
{
    random_seed(SEED);
    lend_open();
    pass(AT_THE_END);
    pass(AT_THE_START);
    if (!tally_report()) {
        fprintf(stderr, "damage: a call was never answered, or never met a refusal of its list\n");
        return 1;
    }
    return 0;
}
