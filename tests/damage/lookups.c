/* The calls that only read a zone: what stands at a name, and whether two zones mean the same. */
#include "damage.h"

#include <string.h>

/* Lent where it can't be written. */
static const jespurla_zone *lend_zone(place where, const jespurla_zone *zone, size_t length)
{
    return (const void *)lend_to_read(where, zone_octets(zone), length);
}

/* A name of the zone, in any letters, as often as any. */
static jespurla_name some_name_of(const jespurla_zone *zone)
{
    jespurla_name name = zone->entries[random_below(one_in(2) ? 4 : 64)].name;
    mix_letters(name.octets, sizeof name.octets);
    return one_in(2) ? some_zone_name() : name;
}

static void turn_find(size_t length)
{
    static const uint32_t listed[] = { 17, 11, 0 };
    static const jespurla_entry zeros;
    const jespurla_zone *zone = some_zone();
    const jespurla_entry *expected = NULL;
    jespurla_name name = some_name_of(zone);
    const jespurla_zone *lent = lend_zone(ZONE, zone, length);
    jespurla_find_answer found = jespurla_zone_find(lent, length, name);

    tally_count(ZONE_FIND, found.refusal, found.entry.kind, listed);
    must(found.refusal == jespurla_zone_check_lent(lent, length, name, 4, 0).refusal,
         "check and lookup disagree");
    if (found.refusal == 0)
        expected = entry_at(zone, &name);
    if (expected == NULL)
        expected = &zeros;
    must(memcmp(&found.entry, expected, sizeof zeros) == 0, "what was found is not in the zone");
    lend_check(ZONE, 0);
}

/* Changes the order of a set's addresses, and the octets behind them. */
static void shuffle_set(uint8_t *items, size_t width, size_t count)
{
    uint8_t first[16];
    if (count > 0) {
        uint8_t *other = items + width * random_below(count);
        memcpy(first, items, width);
        memcpy(items, other, width);
        memcpy(other, first, width);
    }
    random_fill(items + width * count, width * (JESPURLA_NAME_ADDRESSES_MAX - count));
}

/* Changes the octets of a sound entry that are not looked at, the case of letters in its name, and
 * the order of its addresses. */
static void shuffle_entry(jespurla_entry *entry)
{
    if (entry->kind == JESPURLA_FREE) {
        random_fill(entry, sizeof *entry);
        entry->kind = JESPURLA_FREE;
        return;
    }
    mix_letters(entry->name.octets, entry->name.length);
    random_fill(entry->name.octets + entry->name.length, JESPURLA_NAME_MAX - entry->name.length);
    if (entry->kind == JESPURLA_STATIC)
        random_fill(&entry->dhcid, sizeof entry->dhcid);
    shuffle_set(entry->v4.items[0], 4, entry->v4.count);
    shuffle_set(entry->v6.items[0], 16, entry->v6.count);
}

/* Another zone of the same meaning: the places of a sound one changed too. */
static void shuffle_zone(jespurla_zone *zone)
{
    for (size_t i = 0; i < JESPURLA_NAMES_MAX; i++) {
        size_t other = random_below(JESPURLA_NAMES_MAX);
        jespurla_entry entry = zone->entries[i];
        zone->entries[i] = zone->entries[other];
        zone->entries[other] = entry;
    }
    for (size_t i = 0; i < JESPURLA_NAMES_MAX; i++)
        shuffle_entry(&zone->entries[i]);
}

/* Changes what a sound zone means: an owner more, another owner, an address less, a name more. */
static void alter_zone(jespurla_zone *zone)
{
    jespurla_entry *entry = &zone->entries[random_below(one_in(2) ? 4 : 64)];
    if (entry->kind == JESPURLA_STATIC) {
        entry->kind = JESPURLA_HELD;
    } else if (entry->kind == JESPURLA_HELD && entry->v6.count > 0 && one_in(2)) {
        entry->v6.count--;
    } else if (entry->kind == JESPURLA_HELD) {
        entry->dhcid.octets[random_below(JESPURLA_DHCID_LENGTH)] ^= 1;
    } else {
        memset(entry, 0, sizeof *entry);
        entry->kind = JESPURLA_STATIC;
        entry->name = (jespurla_name){ .octets = "\7altered", .length = 9 };
    }
}

/* What the second zone is: the first in another form, the first altered, the first itself, any. */
typedef enum { SHUFFLED, ALTERED, ITSELF, ANY, WAYS } way;

static bool is_sound(const jespurla_zone *zone, size_t length)
{
    static const jespurla_name full = { .octets = "\1a", .length = 3 };
    return jespurla_zone_check_lent(zone, length, full, 4, 0).refusal == 0;
}

/* The second zone, made of the first, which is sound unless any will do. */
static const jespurla_zone *make_second(way how, const jespurla_zone *first)
{
    static jespurla_zone second;
    if (how == ANY)
        return some_zone();
    second = *first;
    if (how == ALTERED)
        alter_zone(&second);
    shuffle_zone(&second);
    return &second;
}

/* The call, with the zones this way round and that. */
static jespurla_same_answer compare(const jespurla_zone *left, size_t left_length,
                                    const jespurla_zone *right, size_t right_length)
{
    static const uint32_t listed[] = { 17, 0 };
    bool sound = is_sound(left, left_length) && is_sound(right, right_length);
    jespurla_same_answer told = jespurla_zone_same(left, left_length, right, right_length);
    jespurla_same_answer back = jespurla_zone_same(right, right_length, left, left_length);

    tally_count(ZONE_SAME, told.refusal, told.same, listed);
    must(told.refusal == back.refusal && told.same == back.same, "not the same when turned round");
    must((told.refusal == 0) == sound, "check and comparison disagree");
    must(told.same <= 1 && (told.refusal == 0 || told.same == 0), "no such answer");
    return told;
}

static void turn_same(way how)
{
    static jespurla_zone first;
    const jespurla_zone *left, *right;
    jespurla_same_answer told;

    first = *some_zone();
    if (how != ANY && how != ITSELF && !is_sound(&first, sizeof first))
        memset(&first, 0, sizeof first);
    left = right = lend_zone(ZONE, &first, sizeof first);
    if (how != ITSELF)
        right = lend_zone(OTHER_ZONE, make_second(how, &first), sizeof first);
    told = compare(left, sizeof first, right, sizeof first);
    if (told.refusal == 0 && how != ANY)
        must(told.same == (how != ALTERED), "one meaning is taken for two, or two for one");
    lend_check(ZONE, 0);
    if (how != ITSELF)
        lend_check(OTHER_ZONE, 0);
}

/* Two zones, one of them lent a wrong number of octets, and at times both. */
static void turn_length(void)
{
    const jespurla_zone *zone = some_zone();
    size_t wrong = some_wrong_length();
    size_t other = one_in(4) ? some_wrong_length() : sizeof *zone;
    const jespurla_zone *left = lend_zone(ZONE, zone, wrong);
    const jespurla_zone *right = lend_zone(OTHER_ZONE, zone, other);

    must(compare(left, wrong, right, other).refusal == 17, "a comparison took a wrong length");
    lend_check(ZONE, 0);
    lend_check(OTHER_ZONE, 0);
}

void turn_lookups(void)
{
    turn_find(sizeof(jespurla_zone));
    turn_find(sizeof(jespurla_zone));
    turn_find(some_wrong_length());
    for (way how = SHUFFLED; how < WAYS; how++)
        turn_same(how);
    turn_length();
}
