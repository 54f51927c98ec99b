/* The lease table of the examples: four records, three of them leases of two instruments. */
#include "table.h"

#include <string.h>

/* A lease of an instrument: the last octets of its two addresses, and its client id. */
static jespurla_lease lease(uint8_t address, uint8_t hardware, const char *id, uint64_t last,
                            uint64_t expiry)
{
    jespurla_lease x = { .address = ADDRESS(address), .state = JESPURLA_LEASE_LEASED };
    x.htype = 1;
    x.hlen = 6;
    x.chaddr[0] = 2;
    x.chaddr[5] = hardware;
    x.idlen = (uint8_t)strlen(id);
    memcpy(x.id, id, x.idlen);
    x.last.seconds = last;
    x.expiry.seconds = expiry;
    return x;
}

/* Addresses rise, and the last one is free. */
size_t make_table(jespurla_lease table[RECORDS])
{
    static const uint8_t circuit[] = { 1, 4, 'h', 'a', 'l', 'l' };
    table[0] = lease(7, 7, "pipe7", 900, 2000);
    table[1] = lease(8, 8, "oboe", 950, 1500);
    table[1].relaylen = sizeof circuit;
    memcpy(table[1].relay, circuit, sizeof circuit);
    table[2] = lease(9, 7, "pipe7", 980, JESPURLA_NEVER);
    table[3] = (jespurla_lease){ .address = ADDRESS(10), .state = JESPURLA_LEASE_FREE };
    return RECORDS;
}
