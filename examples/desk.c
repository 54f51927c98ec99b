/*
 * The desk: asks a box who holds which address, and prints what it is told.
 *
 * Usage: desk PORT [client=TEXT | hardware=HH:HH:.. | address=A.B.C.D] ..
 * The box is at this UDP port of the loopback address (examples/boxd.c). Without a question the
 * desk asks three, one by each key. A reply that is malformed or has another xid is dropped, and
 * the desk goes on waiting for the right one, for a second in all.
 *
 * Exit status: 0 where every question had a reply; 1 where one had none or could not be asked, or
 * where a system call failed; 2 after wrong arguments.
 */
#include "desk/desk.h"
#include "udp/udp.h"

#include <stdio.h>
#include <sys/random.h>

const char program[] = "desk";

/* A number that nobody guesses: whoever could might send a reply of their own. */
static uint32_t fresh_xid(void)
{
    uint32_t xid;

    if (getrandom(&xid, sizeof xid, 0) != (ssize_t)sizeof xid)
        stop("getrandom");
    return xid;
}

/* Asks and prints; whether there was a reply. */
static int ask(uint16_t port, const question *asked)
{
    uint8_t query[JESPURLA_LEASE_QUERY_MIN];
    uint32_t xid = fresh_xid();
    jespurla_query_answer written = write_query(asked, xid, query);
    jespurla_lease_reading told;
    outcome became;

    show_question(asked);
    if (written.refusal != JESPURLA_NOT_REFUSED) {
        show_unwritten(written.refusal);
        return 0;
    }
    became = exchange(port, xid, query, written.length, &told);
    if (became == REPLIED)
        show_reading(asked, &told);
    else
        show_no_reply(became);
    return became == REPLIED;
}

/* What is wrong with the arguments. All are read before the first question is asked. */
static fault find_fault(int count, char **arguments, uint16_t *port)
{
    question read;

    if (count < 2)
        return (fault){ "the port is missing", "" };
    if (!read_port(arguments[1], port) || *port == 0)
        return (fault){ "not a port that can be asked", arguments[1] };
    for (int i = 2; i < count; i++)
        if (!read_question(arguments[i], &read))
            return (fault){ "not a question", arguments[i] };
    return (fault){ NULL, NULL };
}

/* Whether every question had a reply. */
static int ask_all(uint16_t port, char **arguments, int count)
{
    question asked;
    int replied = 1;

    for (int i = 0; i < count; i++)
        if (!read_question(arguments[i], &asked) || !ask(port, &asked))
            replied = 0;
    return replied;
}

int main(int count, char **arguments)
{
    static char by_client[] = "client=oboe", by_hardware[] = "hardware=02:00:00:00:00:07",
                by_address[] = "address=10.0.0.8";
    static char *three[] = { by_client, by_hardware, by_address };
    uint16_t port;
    fault wrong = find_fault(count, arguments, &port);
    int replied;

    if (wrong.what != NULL)
        return misused(wrong, "desk PORT [client=TEXT | hardware=HH:HH:.. | address=A.B.C.D] ..");
    replied = count > 2 ? ask_all(port, arguments + 2, count - 2) : ask_all(port, three, 3);
    if (fflush(stdout) != 0 || ferror(stdout))
        stop("standard output");
    return replied ? 0 : 1;
}
