/* What the files of boxd share. */
#ifndef BOXD_H
#define BOXD_H

#include "jespurla.h"

#include "../udp/udp.h"

/* What becomes of the replies: a desk meets all of these. */
typedef enum {
    SOUND,     /* each goes out as it is */
    MUTE,      /* none goes out */
    DAMAGED,   /* each goes out without its last octet, the end option */
    OTHER_XID, /* each goes out with another xid */
    STRAY      /* each goes out with another xid, and then as it is */
} treatment;

/* settings.c: what the arguments say, and what is wrong with them. */
typedef struct {
    uint16_t port;
    treatment replies;
} settings;

fault read_settings(int count, char **arguments, settings *read);

/* serve.c: takes one packet from the socket, if one is there, and answers it. */
void serve(int at, treatment replies);

#endif
