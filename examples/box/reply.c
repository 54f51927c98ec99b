/* A reply to a lease query, field by field. */
#include "box.h"

#include <stdio.h>

/* Where the fields stand that a reply fills (RFC 2131); all others are zero. */
enum { OP = 0, HTYPE = 1, HLEN = 2, XID = 4, CIADDR = 12, GIADDR = 24, CHADDR = 28, OPTIONS = 240 };

/* The options that a reply may have (RFC 2132, RFC 3046, RFC 4388). */
enum {
    LEASE_TIME = 51,
    MESSAGE_TYPE = 53,
    SERVER_IDENTIFIER = 54,
    CLIENT_ID = 61,
    RELAY_INFORMATION = 82,
    LAST_TRANSACTION = 91,
    ASSOCIATED_ADDRESSES = 92,
    END = 255
};

const char *kind_text(uint32_t kind)
{
    switch (kind) {
    case JESPURLA_LEASEUNASSIGNED: return "LEASEUNASSIGNED";
    case JESPURLA_LEASEUNKNOWN: return "LEASEUNKNOWN";
    case JESPURLA_LEASEACTIVE: return "LEASEACTIVE";
    default: return "no such kind";
    }
}

static void print_fixed(const uint8_t *reply)
{
    printf("    op %u, xid 0x%08x", reply[OP], (unsigned)number_at(reply + XID));
    printf("\n    ciaddr ");
    print_address4(reply + CIADDR);
    printf(", giaddr ");
    print_address4(reply + GIADDR);
    printf("\n    htype %u, hlen %u, chaddr ", reply[HTYPE], reply[HLEN]);
    print_hardware(reply + CHADDR, reply[HLEN]);
    puts("");
}

static const char *option_name(uint8_t code)
{
    switch (code) {
    case LEASE_TIME: return "lease time";
    case MESSAGE_TYPE: return "message type";
    case SERVER_IDENTIFIER: return "server identifier";
    case CLIENT_ID: return "client id";
    case RELAY_INFORMATION: return "relay agent information";
    case LAST_TRANSACTION: return "last transaction";
    case ASSOCIATED_ADDRESSES: return "associated addresses";
    default: return "unknown";
    }
}

/* All ones stand for never. */
static void print_lease_time(uint32_t seconds)
{
    if (seconds == UINT32_MAX)
        printf("never expires");
    else
        printf("expires in %u seconds", (unsigned)seconds);
}

static void print_addresses(const uint8_t *value, size_t length)
{
    for (size_t i = 0; i < length; i += 4) {
        printf("%s", i == 0 ? "" : " ");
        print_address4(value + i);
    }
}

/* The value of an option; a client id and relay information are octets of any kind. */
static void print_value(uint8_t code, const uint8_t *value, size_t length)
{
    switch (code) {
    case LEASE_TIME: print_lease_time(number_at(value)); break;
    case MESSAGE_TYPE: printf("%u, %s", value[0], kind_text(value[0])); break;
    case LAST_TRANSACTION: printf("%u seconds ago", (unsigned)number_at(value)); break;
    case SERVER_IDENTIFIER:
    case ASSOCIATED_ADDRESSES: print_addresses(value, length); break;
    default: print_hex(value, length); break;
    }
}

/* The library wrote the reply, so its options are sound: none runs past the end. */
void print_reply(const uint8_t *reply, size_t length)
{
    print_fixed(reply);
    for (size_t at = OPTIONS; at < length && reply[at] != END; at += 2 + (size_t)reply[at + 1]) {
        printf("    option %u, %s: ", reply[at], option_name(reply[at]));
        print_value(reply[at], reply + at + 2, reply[at + 1]);
        puts("");
    }
    puts("    option 255, end");
}
