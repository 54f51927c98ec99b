/*
 * One query and the wait for its reply. Each query has a socket of its own, so a reply that comes
 * late is not met by the next query. The socket is connected: the system hands on only what comes
 * from the port that was asked.
 */
#define _POSIX_C_SOURCE 200809L
#include "desk.h"

#include "../udp/udp.h"

#include <errno.h>
#include <poll.h>
#include <sys/socket.h>
#include <time.h>
#include <unistd.h>

#define PATIENCE 1000 /* milliseconds for a reply */

/* Milliseconds on a clock that nobody sets. */
static int64_t now(void)
{
    struct timespec at;

    if (clock_gettime(CLOCK_MONOTONIC, &at) != 0)
        stop("clock_gettime");
    return (int64_t)at.tv_sec * 1000 + at.tv_nsec / 1000000;
}

static int open_to(uint16_t port)
{
    struct sockaddr_in box = loopback(port);
    int at = socket(AF_INET, SOCK_DGRAM, 0);

    if (at < 0)
        stop("socket");
    if (connect(at, (struct sockaddr *)&box, sizeof box) != 0)
        stop("connect");
    return at;
}

/* Whether something can be read before the deadline. */
static int is_readable_by(int64_t deadline, int at)
{
    struct pollfd wanted = { .fd = at, .events = POLLIN };
    int64_t left = deadline - now();
    int ready = left <= 0 ? 0 : poll(&wanted, 1, (int)left);

    if (ready < 0 && errno != EINTR)
        stop("poll");
    return ready != 0;
}

/* Takes a packet, if one is there, and reads it: REPLIED where it is the reply. There is room for
 * one octet more than the library takes, so that a packet that is too long is seen to be so. */
static outcome take(int at, uint32_t xid, jespurla_lease_reading *told)
{
    uint8_t packet[JESPURLA_PACKET_MAX + 1];
    ssize_t length = recv(at, packet, sizeof packet, MSG_DONTWAIT);

    if (length < 0 && errno == ECONNREFUSED)
        return NOBODY_THERE;
    if (length < 0 && errno != EAGAIN && errno != EWOULDBLOCK && errno != EINTR)
        stop("recv");
    if (length < 0)
        return NO_REPLY;
    *told = jespurla_lease_reply_read(xid, packet, (size_t)length);
    if (told->refusal == JESPURLA_NOT_REFUSED)
        return REPLIED;
    show_dropped((size_t)length, told->refusal);
    return NO_REPLY;
}

/* The deadline stands before anything is sent, and no packet moves it: one that is not the reply is
 * dropped, and the wait is for what is left of the time. */
outcome exchange(uint16_t port, uint32_t xid, const uint8_t *query, size_t length,
                 jespurla_lease_reading *told)
{
    int at = open_to(port);
    int64_t deadline = now() + PATIENCE;
    outcome became = NO_REPLY;

    if (send(at, query, length, 0) < 0)
        stop("send");
    while (became == NO_REPLY && is_readable_by(deadline, at))
        became = take(at, xid, told);
    close(at);
    return became;
}
