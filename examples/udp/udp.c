/* Ports of the loopback address, and how a program ends that was called wrongly or whose system call
 * failed. */
#include "udp.h"

#include <errno.h>
#include <stdio.h>
#include <stdlib.h>
#include <string.h>

void stop(const char *what)
{
    fprintf(stderr, "%s: %s: %s\n", program, what, strerror(errno));
    exit(1);
}

int misused(fault wrong, const char *usage)
{
    fprintf(stderr, "%s: %s%s%s\n", program, wrong.what, *wrong.argument == '\0' ? "" : ": ",
            wrong.argument);
    fprintf(stderr, "usage: %s\n", usage);
    return 2;
}

int read_port(const char *text, uint16_t *port)
{
    size_t digits = strspn(text, "0123456789");
    unsigned long number;

    if (digits == 0 || digits > 5 || text[digits] != '\0')
        return 0;
    number = strtoul(text, NULL, 10);
    *port = (uint16_t)number;
    return number <= UINT16_MAX;
}

struct sockaddr_in loopback(uint16_t port)
{
    struct sockaddr_in at = { .sin_family = AF_INET, .sin_port = htons(port) };
    at.sin_addr.s_addr = htonl(INADDR_LOOPBACK);
    return at;
}
