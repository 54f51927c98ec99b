/* Names as the library compares them, with capital letters folded, and as a zone keeps them, in the
 * octets that they were first written with. */
#include "damage.h"

#include <string.h>

/* An octet as it counts in a name. */
static uint8_t folded(uint8_t octet)
{
    return octet >= 'A' && octet <= 'Z' ? octet + 32 : octet;
}

static bool is_letter(uint8_t octet)
{
    return folded(octet) >= 'a' && folded(octet) <= 'z';
}

static bool is_same_name(const jespurla_name *left, const jespurla_name *right)
{
    size_t at = 0;
    if (left->length != right->length)
        return false;
    while (at < left->length && folded(left->octets[at]) == folded(right->octets[at]))
        at++;
    return at == left->length;
}

void mix_letters(uint8_t *octets, size_t length)
{
    for (size_t i = 0; i < length; i++)
        if (is_letter(octets[i]) && one_in(2))
            octets[i] ^= 32;
}

const jespurla_entry *entry_at(const jespurla_zone *zone, const jespurla_name *name)
{
    for (size_t i = 0; i < JESPURLA_NAMES_MAX; i++) {
        const jespurla_entry *entry = &zone->entries[i];
        if (entry->kind != JESPURLA_FREE && is_same_name(&entry->name, name))
            return entry;
    }
    return NULL;
}

void check_distinct(const jespurla_zone *zone)
{
    for (size_t i = 0; i < JESPURLA_NAMES_MAX; i++) {
        const jespurla_entry *entry = &zone->entries[i];
        must(entry->kind == JESPURLA_FREE || entry_at(zone, &entry->name) == entry,
             "a zone with two equal names was taken");
    }
}

/* Fails where the name of an entry is spelled otherwise. */
static void check_octets(const jespurla_entry *entry, const jespurla_name *spelled)
{
    must(entry->name.length == spelled->length &&
             memcmp(entry->name.octets, spelled->octets, spelled->length) == 0,
         "a name does not have the octets that it was first written with");
}

void check_spelling(const jespurla_zone *before, const jespurla_name *name,
                    const jespurla_zone *after)
{
    for (size_t i = 0; i < JESPURLA_NAMES_MAX; i++) {
        const jespurla_entry *entry = &after->entries[i];
        const jespurla_entry *stood = entry_at(before, &entry->name);
        if (entry->kind != JESPURLA_FREE)
            check_octets(entry, stood != NULL ? &stood->name : name);
    }
}
