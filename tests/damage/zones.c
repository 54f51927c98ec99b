/* The zone check and the four requests, by value. */
#include "damage.h"

#include <string.h>

const uint32_t zone_refusals[] = { 17, 18, 11, 0 };

static jespurla_zone sound, given;

/* Names beside those that the requests name, so that the zone is at times full. */
static void fill_zone(size_t count)
{
    memset(&sound, 0, sizeof sound);
    for (size_t i = 0; i < count; i++) {
        jespurla_entry *entry = &sound.entries[i];
        const uint8_t octets[] = { 6, 'f', 'i', 'l', 'l', (uint8_t)('0' + i / 10),
                                   (uint8_t)('0' + i % 10), 0 };
        random_fill(entry, sizeof *entry);
        entry->kind = one_in(4) ? JESPURLA_STATIC : JESPURLA_HELD;
        memcpy(entry->name.octets, octets, sizeof octets);
        entry->name.length = sizeof octets;
        mix_letters(entry->name.octets, sizeof octets);
        entry->v4.count = (uint8_t)random_below(2);
        entry->v6.count = (uint8_t)random_below(2);
    }
}

/* An entry put in twice, at times in other letters. */
static void repeat_entry(jespurla_zone *zone, const jespurla_entry *entry)
{
    jespurla_entry *other = &zone->entries[random_below(64)];
    *other = *entry;
    if (one_in(2))
        mix_letters(other->name.octets, sizeof other->name.octets);
}

/* Changes a zone a little: octets of one entry, an entry's kind, or an entry put in twice. */
static void spoil_zone(jespurla_zone *zone)
{
    jespurla_entry *entry = &zone->entries[random_below(one_in(2) ? 4 : 64)];
    size_t way = random_below(3);
    if (way == 0)
        damage_octets(entry, sizeof *entry);
    else if (way == 1)
        entry->kind = (uint8_t)random_below(4);
    else
        repeat_entry(zone, entry);
}

/* The zone held, at times with a few octets changed, seldom drawn whole. */
const jespurla_zone *some_zone(void)
{
    if (one_in(300))
        fill_zone(one_in(2) ? 60 + random_below(5) : random_below(4));
    given = sound;
    if (one_in(6))
        spoil_zone(&given);
    if (one_in(128))
        random_fill(&given, sizeof given);
    return &given;
}

const uint8_t *zone_octets(const jespurla_zone *zone)
{
    static uint8_t octets[LEND_MOST];
    if (one_in(256))
        random_fill(octets + sizeof *zone, sizeof octets - sizeof *zone);
    memcpy(octets, zone, sizeof *zone);
    return octets;
}

/* In turn one of a few and any. */
size_t some_wrong_length(void)
{
    static const size_t few[] = { 0, 1, 373, 23935, 23937 };
    static size_t turn;
    size_t at = turn++ % 6, length = random_below(LEND_MOST);
    if (at < 5)
        return few[at];
    return length == sizeof(jespurla_zone) ? 0 : length;
}

/* The refusal that a request would get. */
static uint32_t check(const jespurla_zone *zone, const jespurla_name *name, uint8_t family,
                      uint8_t policy)
{
    jespurla_check_answer answer = jespurla_zone_check(*zone, *name, family, policy);
    tally_count(ZONE_CHECK, answer.refusal, 0, zone_refusals);
    if (answer.refusal == 0)
        check_distinct(zone);
    return answer.refusal;
}

void leave_zone(const jespurla_zone *zone)
{
    static const jespurla_name full = { .octets = "\1a", .length = 3 };
    must(check(zone, &full, 4, 0) == 0, "a zone of no form was left");
    sound = *zone;
}

request some_request(call which)
{
    request q = { .name = some_zone_name(), .dhcid = some_dhcid(), .address = some_address() };
    q.family = some_family();
    q.policy = which == REQUEST_B ? some_policy() : 0;
    return q;
}

jespurla_answered send_by_value(call which, const jespurla_zone *zone, const request *q)
{
    switch (which) {
    case REQUEST_A: return jespurla_request_a(*zone, q->name, q->dhcid, q->family, q->address);
    case REQUEST_B:
        return jespurla_request_b(*zone, q->name, q->dhcid, q->family, q->address, q->policy);
    case REMOVE_ADDRESS:
        return jespurla_request_remove_address(*zone, q->name, q->dhcid, q->family, q->address);
    default: return jespurla_request_remove_name(*zone, q->name, q->dhcid, q->family, q->address);
    }
}

static bool is_answer(uint32_t answer)
{
    return answer == JESPURLA_NOERROR || answer == JESPURLA_NXDOMAIN ||
           answer == JESPURLA_YXDOMAIN || answer == JESPURLA_YXRRSET ||
           answer == JESPURLA_NXRRSET || answer == JESPURLA_NO_ROOM;
}

static void turn_request(call which)
{
    static jespurla_answered answered;
    const jespurla_zone *zone = some_zone();
    request q = some_request(which);

    answered = send_by_value(which, zone, &q);
    tally_count(which, answered.refusal, answered.answer, zone_refusals);
    must(check(zone, &q.name, q.family, q.policy) == answered.refusal,
         "check and request disagree");
    if (answered.refusal != 0) {
        must(answered.answer == 0, "an answer beside a refusal");
        must(memcmp(&answered.zone, zone, sizeof *zone) == 0, "a refused zone comes back changed");
        return;
    }
    must(is_answer(answered.answer), "no such answer");
    check_spelling(zone, &q.name, &answered.zone);
    leave_zone(&answered.zone);
}

void turn_zones(void)
{
    turn_request(REQUEST_A);
    turn_request(REQUEST_B);
    turn_request(REMOVE_ADDRESS);
    turn_request(REMOVE_NAME);
}
