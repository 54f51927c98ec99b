/* Values that more than one call takes: mostly sound, else damaged or drawn octet by octet. */
#include "damage.h"

#include <string.h>

/* A label of some octets at the front of a name with `left` octets of room; its size with its
 * length octet, 0 where there is no room. */
static size_t some_label(uint8_t *at, size_t left)
{
    size_t most = left < 2 ? 0 : left - 1 < 63 ? left - 1 : 63;
    size_t label;
    if (most == 0)
        return 0;
    label = 1 + random_below(one_in(4) || most < 8 ? most : 8);
    at[0] = (uint8_t)label;
    memset(at + 1, 'a' + (int)random_below(26), label);
    mix_letters(at + 1, label);
    return 1 + label;
}

size_t some_name(uint8_t *octets)
{
    size_t length = 0;
    size_t labels = one_in(4) ? random_below(200) : 1 + random_below(4);
    size_t room = one_in(8) ? 299 : 254;
    while (labels-- > 0)
        length += some_label(octets + length, room - length);
    if (one_in(2))
        octets[length++] = 0;
    if (one_in(8))
        damage_octets(octets, length);
    if (one_in(16))
        random_fill(octets, length);
    return length;
}

/* One of a few full names mostly, in any letters, so that jobs and requests meet; octets past it
 * are any. */
jespurla_name some_zone_name(void)
{
    static const char few[3][13] = { "\5pipe0\5stage", "\5pipe1\5stage", "\5pipe2\5stage" };
    jespurla_name name;
    random_fill(&name, sizeof name);
    if (one_in(16)) {
        uint8_t octets[300];
        size_t length = some_name(octets);
        name.length = (uint8_t)(length < 255 ? length : 255);
        memcpy(name.octets, octets, name.length);
        return name;
    }
    if (one_in(64))
        return name;
    name.length = 13;
    memcpy(name.octets, few[random_below(3)], 13);
    mix_letters(name.octets, 13);
    if (one_in(32))
        damage_octets(&name, 13);
    return name;
}

/* One of two owners mostly. */
jespurla_dhcid some_dhcid(void)
{
    jespurla_dhcid dhcid;
    memset(dhcid.octets, 'X' + (int)random_below(2), sizeof dhcid.octets);
    if (one_in(32))
        damage_octets(&dhcid, sizeof dhcid);
    if (one_in(32))
        random_fill(&dhcid, sizeof dhcid);
    return dhcid;
}

/* One of six addresses mostly, which differ within their first four octets. */
jespurla_address some_address(void)
{
    jespurla_address address = { { 10, 0, 0, (uint8_t)random_below(6) } };
    if (one_in(32))
        random_fill(&address, sizeof address);
    return address;
}

uint8_t some_family(void)
{
    return one_in(16) ? (uint8_t)random_next() : one_in(2) ? 4 : 6;
}

uint8_t some_policy(void)
{
    if (one_in(16))
        return (uint8_t)random_next();
    return one_in(8) ? (uint8_t)random_below(3) : JESPURLA_KEEP_OTHERS;
}

/* Small moments mostly, else about the last one, or any number. */
jespurla_moment some_moment(void)
{
    jespurla_moment moment = { random_below(2000) };
    if (one_in(16))
        moment.seconds = JESPURLA_LATEST - 2 + random_below(4);
    if (one_in(16))
        moment.seconds = random_next();
    return moment;
}
