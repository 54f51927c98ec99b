/* What the files of the desk share. */
#ifndef DESK_H
#define DESK_H

#include "jespurla.h"

/* questions.c: what somebody at the desk asks. */
typedef enum { BY_CLIENT_ID, BY_HARDWARE, BY_ADDRESS } key;

typedef struct {
    key by;
    const char *text;        /* the key as it was typed */
    uint32_t address;        /* by address */
    uint8_t chaddr[32];      /* by hardware; more than the library takes, which then refuses them */
    size_t chaddr_length;
} question;

/* Reads client=TEXT, hardware=HH:HH:.. or address=A.B.C.D, and says whether it is one of them. */
int read_question(const char *argument, question *asked);
/* The query that asks it. */
jespurla_query_answer write_query(const question *asked, uint32_t xid,
                                  uint8_t query[JESPURLA_LEASE_QUERY_MIN]);

/* exchange.c: sends a query to a port and waits for its reply, a second at most. */
typedef enum { REPLIED, NO_REPLY, NOBODY_THERE } outcome;

outcome exchange(uint16_t port, uint32_t xid, const uint8_t *query, size_t length,
                 jespurla_lease_reading *told);

/* show.c: all that the desk prints. */
void show_question(const question *asked);
void show_unwritten(uint32_t refusal);
void show_dropped(size_t length, uint32_t refusal);
void show_reading(const question *asked, const jespurla_lease_reading *told);
void show_no_reply(outcome became);

#endif
