/* The lease table of the examples: box answers from it, and so does boxd. */
#ifndef TABLE_H
#define TABLE_H

#include "jespurla.h"

#define ADDRESS(last) (UINT32_C(0x0a000000) + (last)) /* 10.0.0.last */
#define SERVER ADDRESS(254)                           /* the server's own address */
#define RECORDS 4

/* Fills the table, and answers how many records it has. */
size_t make_table(jespurla_lease table[RECORDS]);

#endif
