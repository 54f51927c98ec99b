/* What boxd and desk have in common: ports of the loopback address, and how they end where
 * something is wrong. */
#ifndef UDP_H
#define UDP_H

#include <netinet/in.h>
#include <stdint.h>

/* The name of the program, which each defines. */
extern const char program[];

/* Ends the program with status 1, saying what failed and the text of errno. */
_Noreturn void stop(const char *what);

/* What is wrong with the arguments, and the one that is wrong; null where nothing is. */
typedef struct {
    const char *what;
    const char *argument;
} fault;

/* Says it on standard error, and how the program is called. Gives the exit status after that, 2. */
int misused(fault wrong, const char *usage);

/* Whether the text is the number of a port, 0 to 65535, in decimal digits. */
int read_port(const char *text, uint16_t *port);

/* A port of 127.0.0.1. */
struct sockaddr_in loopback(uint16_t port);

#endif
