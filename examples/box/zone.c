/* What the parts about a zone have in common: names, owners, answers, and what stands at a name. */
#include "box.h"

#include <stdio.h>
#include <stdlib.h>
#include <string.h>

/* A full name of labels, each behind its length: the 0 that ends the string ends the name too. */
jespurla_name name_of(const char *labels)
{
    jespurla_name name = { .length = 0 };
    size_t length = strlen(labels) + 1;

    if (length > sizeof name.octets) {
        fprintf(stderr, "box: a name of %zu octets\n", length);
        exit(1);
    }
    memcpy(name.octets, labels, length);
    name.length = (uint8_t)length;
    return name;
}

/* Who a client is. A server makes the DHCID of what the client sends and of the name, with a digest
 * (RFC 4701: two octets of type, one for SHA-256, 32 of digest). The library takes it as it is;
 * here a letter fills the digest. */
jespurla_dhcid dhcid_of(char client)
{
    jespurla_dhcid dhcid = { { 0, 2, 1 } };
    memset(dhcid.octets + 3, client, sizeof dhcid.octets - 3);
    return dhcid;
}

/* The two clients that this box knows by a letter; any other DHCID in hex. */
static void print_owner(const jespurla_dhcid *owner)
{
    for (char client = 'X'; client <= 'Y'; client++) {
        jespurla_dhcid known = dhcid_of(client);
        if (memcmp(owner, &known, sizeof known) == 0) {
            putchar(client);
            return;
        }
    }
    print_hex(owner->octets, sizeof owner->octets);
}

static void print_addresses(const jespurla_entry *entry)
{
    for (int i = 0; i < entry->v4.count; i++) {
        printf(", ");
        print_address4(entry->v4.items[i]);
    }
    for (int i = 0; i < entry->v6.count; i++) {
        printf(", ");
        print_address6(entry->v6.items[i]);
    }
    if (entry->v4.count + entry->v6.count == 0)
        printf(", no address");
}

void print_entry(jespurla_name name, const jespurla_entry *entry)
{
    const jespurla_name *spelled = entry->kind == JESPURLA_FREE ? &name : &entry->name;

    printf("    ");
    print_name(spelled->octets, spelled->length);
    if (entry->kind == JESPURLA_FREE) {
        puts(" absent");
        return;
    }
    if (entry->kind == JESPURLA_STATIC) {
        printf(" static");
    } else {
        printf(" held by ");
        print_owner(&entry->dhcid);
    }
    print_addresses(entry);
    puts("");
}

void print_found(const jespurla_zone *zone, jespurla_name name)
{
    jespurla_find_answer found = jespurla_zone_find(zone, sizeof *zone, name);

    stop_if_refused("jespurla_zone_find", found.refusal);
    print_entry(name, &found.entry);
}

const char *answer_text(uint32_t answer)
{
    switch (answer) {
    case JESPURLA_NOERROR: return "NOERROR, done";
    case JESPURLA_NXDOMAIN: return "NXDOMAIN, the name is absent";
    case JESPURLA_YXDOMAIN: return "YXDOMAIN, the name is there";
    case JESPURLA_YXRRSET: return "YXRRSET, the name keeps an address";
    case JESPURLA_NXRRSET: return "NXRRSET, the name is not the client's";
    case JESPURLA_NO_ROOM: return "no room";
    default: return "no such answer";
    }
}

const char *stage_text(uint8_t stage)
{
    switch (stage) {
    case JESPURLA_ADD_BEFORE_A: return "add, request A next";
    case JESPURLA_ADD_BEFORE_B: return "add, request B next";
    case JESPURLA_ADD_DONE: return "add, done";
    case JESPURLA_ADD_CONFLICT: return "add, conflict: the name is another's";
    case JESPURLA_ADD_NO_ROOM: return "add, no room";
    case JESPURLA_ADD_GAVE_UP: return "add, gave up";
    case JESPURLA_REMOVE_BEFORE_FIRST: return "remove, first request next";
    case JESPURLA_REMOVE_BEFORE_SECOND: return "remove, address deleted, second request next";
    case JESPURLA_REMOVE_NOT_OURS: return "remove, not ours";
    case JESPURLA_REMOVE_GONE: return "remove, the name is gone";
    case JESPURLA_REMOVE_KEPT: return "remove, the name is kept";
    default: return "no job";
    }
}
