/* One query from the network, and its reply. */
#include "boxd.h"

#include "../box/table.h"

#include <errno.h>
#include <stdio.h>
#include <stdlib.h>
#include <string.h>
#include <sys/socket.h>

#define NOW 1000  /* the clock, which stands still */
#define XID_END 7 /* where the last octet of the xid stands */

/* A query and where it came from. There is room for one octet more than the library takes: a packet
 * that is too long must be seen to be so. */
typedef struct {
    uint8_t octets[JESPURLA_PACKET_MAX + 1];
    size_t length;
    struct sockaddr_in from;
} packet;

/* Whether a packet was there. One that has a wrong checksum is announced and then is not. */
static int take(int at, packet *query)
{
    socklen_t size = sizeof query->from;
    ssize_t length = recvfrom(at, query->octets, sizeof query->octets, MSG_DONTWAIT,
                              (struct sockaddr *)&query->from, &size);

    if (length < 0 && errno != EAGAIN && errno != EWOULDBLOCK && errno != EINTR)
        stop("recvfrom");
    query->length = length < 0 ? 0 : (size_t)length;
    return length >= 0;
}

/* A reply that can't be sent is lost, as it may be anywhere on its way. */
static void send_reply(int at, const uint8_t *reply, size_t length, const struct sockaddr_in *to)
{
    if (sendto(at, reply, length, 0, (const struct sockaddr *)to, sizeof *to) < 0)
        fprintf(stderr, "%s: a reply is lost: %s\n", program, strerror(errno));
}

/* The reply as it is, or as the option says. */
static void send_treated(int at, treatment replies, uint8_t *reply, size_t length,
                         const struct sockaddr_in *to)
{
    if (replies == OTHER_XID || replies == STRAY) {
        reply[XID_END] ^= 1;
        send_reply(at, reply, length, to);
        reply[XID_END] ^= 1;
    }
    if (replies == SOUND || replies == STRAY)
        send_reply(at, reply, length, to);
    if (replies == DAMAGED)
        send_reply(at, reply, length - 1, to);
}

/* A refusal of the packet drops it; any other is about the server's own table and memory. */
static void refuse(const packet *query, uint32_t refusal)
{
    int is_about_the_packet =
        refusal >= JESPURLA_REFUSED_PACKET && refusal <= JESPURLA_REFUSED_KEY_LENGTH;

    fprintf(stderr, "%s: a packet of %zu octets is %s: refused %u, %s\n", program, query->length,
            is_about_the_packet ? "dropped" : "not answered", (unsigned)refusal,
            jespurla_refusal_text(refusal));
    if (!is_about_the_packet)
        exit(1);
}

void serve(int at, treatment replies)
{
    const jespurla_moment now = { NOW };
    jespurla_lease table[RECORDS];
    uint8_t reply[JESPURLA_LEASE_REPLY_MIN];
    jespurla_lease_answer answer;
    packet query;

    if (!take(at, &query))
        return;
    answer = jespurla_lease_query(now, table, make_table(table), SERVER,
                                  query.octets, query.length, reply, sizeof reply);
    if (answer.refusal != JESPURLA_NOT_REFUSED)
        refuse(&query, answer.refusal);
    else
        send_treated(at, replies, reply, answer.length, &query.from);
}
