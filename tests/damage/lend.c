/* Lent memory: each place has pages of its own between two that can't be read. */
#define _DEFAULT_SOURCE
#include "damage.h"

#include <string.h>
#include <sys/mman.h>
#include <unistd.h>

/* Octets beside the lent ones that are looked at after the call. */
#define GUARD 256

typedef struct {
    uint8_t *first; /* of the pages that can be read */
    uint8_t *lent;
    size_t length;
    bool read_only;
    uint8_t copy[LEND_MOST];
    uint8_t guard[GUARD];
} pages;

static pages all[PLACES];
static const void *nothing;
static side chosen_side;

/* What lies between the two unreadable pages: room for the lent octets and the guard. */
static size_t room(void)
{
    size_t page = (size_t)sysconf(_SC_PAGESIZE);
    return (LEND_MOST + GUARD + page - 1) / page * page;
}

/* Pages that can't be read or written. */
static uint8_t *closed_pages(size_t size)
{
    void *map = mmap(NULL, size, PROT_NONE, MAP_PRIVATE | MAP_ANONYMOUS, -1, 0);
    must(map != MAP_FAILED, "no memory to lend");
    return map;
}

/* Whether the place's pages can be read alone, or written too. */
static void protect(pages *p, bool read_only)
{
    int protection = read_only ? PROT_READ : PROT_READ | PROT_WRITE;
    must(mprotect(p->first, room(), protection) == 0, "no memory to lend");
    p->read_only = read_only;
}

void lend_open(void)
{
    size_t page = (size_t)sysconf(_SC_PAGESIZE);
    for (int i = 0; i < PLACES; i++) {
        all[i].first = closed_pages(room() + 2 * page) + page;
        protect(&all[i], false);
    }
    nothing = closed_pages(1 << 20);
}

const void *lend_nothing(void)
{
    return nothing;
}

void lend_choose(side chosen)
{
    chosen_side = chosen;
}

/* The guard is on the side where no unreadable page is. */
static uint8_t *guard_of(const pages *p)
{
    return chosen_side == AT_THE_END ? p->lent - GUARD : p->lent + p->length;
}

uint8_t *lend(place where, const void *octets, size_t length)
{
    pages *p = &all[where];
    must(length <= LEND_MOST, "too much to lend");
    if (p->read_only)
        protect(p, false);
    p->length = length;
    p->lent = chosen_side == AT_THE_END ? p->first + room() - length : p->first;
    memcpy(p->lent, octets, length);
    memcpy(p->copy, octets, length);
    random_fill(p->guard, GUARD);
    memcpy(guard_of(p), p->guard, GUARD);
    return p->lent;
}

const uint8_t *lend_to_read(place where, const void *octets, size_t length)
{
    const uint8_t *lent = lend(where, octets, length);
    protect(&all[where], true);
    return lent;
}

static void check_guard(const pages *p)
{
    must(memcmp(guard_of(p), p->guard, GUARD) == 0, "an octet beside the lent ones was written");
}

void lend_check(place where, size_t kept)
{
    const pages *p = &all[where];
    must(kept <= p->length, "more was written than was lent");
    must(memcmp(p->lent + kept, p->copy + kept, p->length - kept) == 0,
         "an octet was written that keeps its value");
    check_guard(p);
}

void lend_check_rows(place where, size_t row)
{
    const pages *p = &all[where];
    int written = 0;
    for (size_t at = 0; at + row <= p->length; at += row)
        written += memcmp(p->lent + at, p->copy + at, row) != 0;
    must(written <= 1, "more than one row was written");
    check_guard(p);
}
