/* Values in words. Octets that a client chose never go out as they are: a log or a terminal might
 * take them for something else. */
#include "box.h"

#include <arpa/inet.h>
#include <netinet/in.h>
#include <stdio.h>

/* Four octets as a number, the high octet first. */
uint32_t number_at(const uint8_t *octets)
{
    return (uint32_t)octets[0] << 24 | (uint32_t)octets[1] << 16 | (uint32_t)octets[2] << 8 |
           octets[3];
}

/* A count and what is counted. */
void print_count(unsigned long count, const char *what)
{
    printf("%lu %s%s", count, what, count == 1 ? "" : "s");
}

/* An octet of a label in presentation form (RFC 1035, section 5.1): a dot or backslash behind a
 * backslash, what does not print as three decimal digits. */
static void print_label_octet(uint8_t octet)
{
    if (octet == '.' || octet == '\\')
        printf("\\%c", octet);
    else if (octet > ' ' && octet <= '~')
        putchar(octet);
    else
        printf("\\%03u", octet);
}

static void print_label(const uint8_t *octets, size_t length)
{
    for (size_t i = 0; i < length; i++)
        print_label_octet(octets[i]);
}

/* A full name, as the library has answered or found it: its labels, each with a dot behind it. */
void print_name(const uint8_t *name, size_t length)
{
    size_t at = 0;
    while (at < length && name[at] != 0) {
        print_label(name + at + 1, name[at]);
        putchar('.');
        at += 1 + (size_t)name[at];
    }
}

void print_hex(const uint8_t *octets, size_t length)
{
    for (size_t i = 0; i < length; i++)
        printf("%02x", octets[i]);
}

/* A hardware address, which may have no octets. */
void print_hardware(const uint8_t *octets, size_t length)
{
    if (length == 0)
        printf("none");
    for (size_t i = 0; i < length; i++)
        printf("%s%02x", i == 0 ? "" : ":", octets[i]);
}

void print_address4(const uint8_t *octets)
{
    char text[INET_ADDRSTRLEN];
    printf("%s", inet_ntop(AF_INET, octets, text, sizeof text) ? text : "no address");
}

/* An address as the library has it, a number. */
void print_number4(uint32_t address)
{
    const uint8_t octets[4] = { (uint8_t)(address >> 24), (uint8_t)(address >> 16),
                                (uint8_t)(address >> 8), (uint8_t)address };
    print_address4(octets);
}

/* Compressed, as RFC 5952 has it. */
void print_address6(const uint8_t *octets)
{
    char text[INET6_ADDRSTRLEN];
    printf("%s", inet_ntop(AF_INET6, octets, text, sizeof text) ? text : "no address");
}
