/* The server list call; each unrefused list is the next call's. */
#include "damage.h"

#include <string.h>

#define AREA_ROOM 1600

static jespurla_server_list_state held;

/* An option at the front of an area; its size, 0 where there is no room. */
static size_t some_option(uint8_t *at, size_t left)
{
    static const uint8_t units[] = { 1, 2, 3, 3, 4, 5, 5, 7, 7, 9 };
    static const uint32_t lifetimes[] = { 0, 1, 60, 3600, UINT32_MAX };
    uint8_t unit = units[random_below(sizeof units)];
    uint32_t lifetime = lifetimes[random_below(5)];
    size_t size = 8 * (size_t)unit;
    if (size > left)
        return 0;
    memset(at, 0, size);
    at[0] = one_in(8) ? (uint8_t)random_next() : 25;
    at[1] = unit;
    for (int i = 0; i < 4; i++)
        at[4 + i] = (uint8_t)(lifetime >> (24 - 8 * i));
    for (size_t i = 8; i + 16 <= size; i += 16)
        at[i + 15] = (uint8_t)random_below(12);
    return size;
}

static size_t some_area(uint8_t *area)
{
    size_t length = 0;
    size_t options = one_in(32) ? 200 : random_below(5);
    size_t room = one_in(32) ? AREA_ROOM : 1500;
    while (options-- > 0)
        length += some_option(area + length, room - length);
    if (one_in(8))
        damage_octets(area, length);
    if (one_in(16) && length > 0)
        length -= 1 + random_below(length < 9 ? length : 9);
    if (one_in(32))
        random_fill(area, length);
    return length;
}

/* A lifetime that a router may have mostly, else one about the limit, or any number. */
static jespurla_span some_router_lifetime(void)
{
    static const uint32_t lifetimes[] = { 0, 1, 60, 1800, 9000, JESPURLA_ROUTER_LIFETIME_MAX };
    jespurla_span lifetime = { lifetimes[random_below(6)] };
    if (one_in(32))
        lifetime.seconds = JESPURLA_ROUTER_LIFETIME_MAX - 1 + (uint32_t)random_below(4);
    if (one_in(64))
        lifetime.seconds = (uint32_t)random_next();
    return lifetime;
}

/* The list held, at times with a few octets changed, seldom all of them. */
static jespurla_server_list_state some_list(void)
{
    jespurla_server_list_state list = held;
    if (one_in(8))
        damage_octets(&list, sizeof list);
    if (one_in(8))
        list.count = random_below(10);
    if (one_in(64))
        random_fill(&list, sizeof list);
    return list;
}

/* Whether a list that a call made has the form of one, with nothing in it that has expired. */
static bool is_sound(const jespurla_server_list_state *list, jespurla_moment now)
{
    if (list->count > JESPURLA_SERVERS_MAX || list->clock.seconds != now.seconds)
        return false;
    for (size_t i = 0; i < list->count; i++) {
        uint64_t expiry = list->entries[i].expiry.seconds, router = list->entries[i].router.seconds;
        if ((expiry > JESPURLA_LATEST && expiry != JESPURLA_NEVER) || router > JESPURLA_LATEST)
            return false;
        if (expiry < now.seconds || router < now.seconds)
            return false;
    }
    return true;
}

void turn_servers(void)
{
    static const uint32_t listed[] = { 31, 15, 16, 0 };
    uint8_t area[AREA_ROOM];
    size_t length = some_area(area);
    jespurla_server_list_state list = some_list();
    jespurla_moment now = { list.clock.seconds + random_below(60) };
    jespurla_span lifetime = some_router_lifetime();
    jespurla_server_list_answer answer;

    if (one_in(16))
        now = some_moment();
    answer = jespurla_server_list(list, now, lifetime, lend_to_read(AREA, area, length), length);
    tally_count(SERVER_LIST, answer.refusal, (uint32_t)answer.list.count & 0xff, listed);
    lend_check(AREA, 0);
    must(answer.refusal != 0 || lifetime.seconds <= JESPURLA_ROUTER_LIFETIME_MAX,
         "a router lifetime above its limit is taken");
    if (answer.refusal != 0) {
        must(memcmp(&answer.list, &list, sizeof list) == 0, "a refused list comes back changed");
        return;
    }
    must(is_sound(&answer.list, now), "a list of no form");
    held = answer.list;
    if (now.seconds > 1000000)
        memset(&held, 0, sizeof held);
}
