/* The options of packets that a call has taken or written. */
#include "damage.h"

const uint8_t *find_option(const uint8_t *packet, uint8_t code)
{
    size_t at = 240;
    while (packet[at] != 255 && packet[at] != code)
        at += packet[at] == 0 ? 1 : 2 + (size_t)packet[at + 1];
    return packet[at] == code ? packet + at + 1 : NULL;
}
