/*
 * The box on a network: answers lease queries on a UDP port of the loopback address, from the table
 * of the examples and at a clock that stands still, so that every run gives the same. A packet that
 * is refused is dropped, and standard error says why. Ends at SIGTERM.
 *
 * Usage: boxd [--mute | --damage | --other-xid | --stray] PORT
 * With port 0 the system chooses one. The number of the port is printed, a line by itself, once
 * packets are taken. The options are faults that a desk meets: see boxd/boxd.h.
 *
 * A server in a network has port 67 and sends each reply to port 67 of its query's giaddr. Here it
 * goes back to where the query came from, so that no port is needed that only root may open.
 */
#define _POSIX_C_SOURCE 200809L
#include "boxd/boxd.h"
#include "udp/udp.h"

#include <errno.h>
#include <poll.h>
#include <signal.h>
#include <stdio.h>
#include <sys/signalfd.h>
#include <sys/socket.h>
#include <unistd.h>

const char program[] = "boxd";

/* SIGTERM as something to be read, so that the program can wait for it and for a packet at once. */
static int open_end(void)
{
    sigset_t end;
    int fd;

    sigemptyset(&end);
    sigaddset(&end, SIGTERM);
    if (sigprocmask(SIG_BLOCK, &end, NULL) != 0)
        stop("sigprocmask");
    fd = signalfd(-1, &end, 0);
    if (fd < 0)
        stop("signalfd");
    return fd;
}

/* Opens the port and prints its number. */
static int open_port(uint16_t port)
{
    struct sockaddr_in here = loopback(port);
    socklen_t size = sizeof here;
    int at = socket(AF_INET, SOCK_DGRAM, 0);

    if (at < 0)
        stop("socket");
    if (bind(at, (struct sockaddr *)&here, sizeof here) != 0)
        stop("bind");
    if (getsockname(at, (struct sockaddr *)&here, &size) != 0)
        stop("getsockname");
    if (printf("%u\n", (unsigned)ntohs(here.sin_port)) < 0 || fflush(stdout) != 0)
        stop("standard output");
    return at;
}

/* Waits for a packet or the end, and says whether it is the end. */
static int is_told_to_end(int at, int end)
{
    struct pollfd both[] = { { .fd = at, .events = POLLIN }, { .fd = end, .events = POLLIN } };

    if (poll(both, 2, -1) < 0 && errno != EINTR)
        stop("poll");
    return both[1].revents != 0;
}

int main(int count, char **arguments)
{
    settings chosen;
    fault wrong = read_settings(count, arguments, &chosen);
    int at, end;

    if (wrong.what != NULL)
        return misused(wrong, "boxd [--mute | --damage | --other-xid | --stray] PORT");
    end = open_end();
    at = open_port(chosen.port);
    while (!is_told_to_end(at, end))
        serve(at, chosen.replies);
    close(at);
    close(end);
    return 0;
}
