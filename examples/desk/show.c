/* What the desk prints: for whoever sits at it and wants to know whose a channel is. */
#include "desk.h"

#include "../box/box.h"

#include <stdio.h>

/* The key that was asked by, as it was typed. */
void show_question(const question *asked)
{
    static const char *const keys[] = {
        [BY_CLIENT_ID] = "client", [BY_HARDWARE] = "hardware", [BY_ADDRESS] = "address",
    };
    printf("%s %s\n", keys[asked->by], asked->text);
}

void show_unwritten(uint32_t refusal)
{
    printf("  nothing is asked: ");
    print_refusal(refusal);
    puts("");
}

void show_dropped(size_t length, uint32_t refusal)
{
    printf("  dropped, %zu octets: ", length);
    print_refusal(refusal);
    puts("");
}

/* A span of seconds in days, hours, minutes and seconds, those that are 0 left out. */
static void print_span(uint32_t seconds)
{
    static const struct {
        uint32_t seconds;
        const char *name;
    } units[] = { { 86400, "d" }, { 3600, "h" }, { 60, "min" }, { 1, "s" } };

    if (seconds == 0)
        printf(" 0 s");
    for (size_t i = 0; i < sizeof units / sizeof *units; i++) {
        if (seconds >= units[i].seconds)
            printf(" %u %s", (unsigned)(seconds / units[i].seconds), units[i].name);
        seconds %= units[i].seconds;
    }
}

/* Both times are spans: they say how long, counted from when the box replied. The box writes no
 * number above the largest that fits, so that one stands for every longer span too. */
static void print_since(jespurla_span since)
{
    printf("  last heard of");
    print_span(since.seconds);
    puts(since.seconds == UINT32_MAX ? " ago, or earlier" : " ago");
}

static void print_left(jespurla_span left)
{
    if (left.seconds == UINT32_MAX) {
        puts("  held without end");
        return;
    }
    printf("  held for another");
    print_span(left.seconds);
    puts(left.seconds == UINT32_MAX - 1 ? ", or longer" : "");
}

/* A time that is not there is no time of 0 seconds. */
static void print_times(const jespurla_lease_reading *told)
{
    if (told->has_since)
        print_since(told->since);
    if (told->has_left)
        print_left(told->left);
}

/* The list has the address that the reply is about too. */
static void print_others(const jespurla_lease_reading *told)
{
    unsigned others = 0;

    for (uint32_t i = 0; i < told->count; i++) {
        if (told->addresses[i] == told->address)
            continue;
        printf("%s", others++ == 0 ? "  also holds " : ", ");
        print_number4(told->addresses[i]);
    }
    puts(others == 0 ? "  holds no other address" : "");
}

static void print_holder(const jespurla_lease_reading *told)
{
    printf("  ");
    print_number4(told->address);
    printf(" is held by hardware ");
    print_hardware(told->chaddr, told->hlen);
    puts("");
}

/* Only a question about a client is answered with its other addresses. */
void show_reading(const question *asked, const jespurla_lease_reading *told)
{
    switch (told->kind) {
    case JESPURLA_LEASEACTIVE:
        print_holder(told);
        print_times(told);
        if (asked->by != BY_ADDRESS)
            print_others(told);
        break;
    case JESPURLA_LEASEUNASSIGNED:
        puts("  unassigned: the box has this address to give, and nobody holds it now");
        break;
    default:
        puts(asked->by == BY_ADDRESS ? "  unknown: the box has no such address to give"
                                     : "  unknown: this client holds no address now");
        break;
    }
}

void show_no_reply(outcome became)
{
    puts(became == NOBODY_THERE
             ? "  nobody there: no program has this port open; is the box on?"
             : "  no reply within a second: the box is off, or a packet was lost; ask again");
}
