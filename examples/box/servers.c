/* The DNS servers that routers announce. */
#include "box.h"

#include <stdio.h>
#include <string.h>

/* The last moment at which a server is in use: the earlier one of its two. Never is the greatest
 * number, so no case is needed for it. */
static uint64_t last_moment(const jespurla_server *server)
{
    uint64_t expiry = server->expiry.seconds, router = server->router.seconds;
    return expiry < router ? expiry : router;
}

static void print_server(const jespurla_server *server)
{
    printf("    ");
    print_address6(server->address);
    printf(", until %llu (expiry ", (unsigned long long)last_moment(server));
    if (server->expiry.seconds == JESPURLA_NEVER)
        printf("never");
    else
        printf("%llu", (unsigned long long)server->expiry.seconds);
    printf(", router %llu)\n", (unsigned long long)server->router.seconds);
}

static void print_list(const jespurla_server_list_state *list)
{
    printf("  ");
    print_count(list->count, "server");
    puts("");
    for (size_t i = 0; i < list->count; i++)
        print_server(&list->entries[i]);
}

static int has(const jespurla_server_list_state *list, const uint8_t address[16])
{
    for (size_t i = 0; i < list->count; i++)
        if (memcmp(list->entries[i].address, address, 16) == 0)
            return 1;
    return 0;
}

/* The servers that a list had before and has no more. */
static void print_gone(const jespurla_server_list_state *before,
                       const jespurla_server_list_state *after)
{
    for (size_t i = 0; i < before->count; i++) {
        if (has(after, before->entries[i].address))
            continue;
        printf("  gone: ");
        print_address6(before->entries[i].address);
        puts("");
    }
}

/*
 * A router's lifetime and area taken into the list at a moment. A refused area is the router's
 * fault: the host drops it and keeps its list. Any other refusal is about the host's list or clock,
 * or about a lifetime that is not the two octets of an advertisement; read a clock that never goes
 * back, such as CLOCK_MONOTONIC.
 */
static void take(jespurla_server_list_state *list, uint64_t seconds, uint16_t lifetime,
                 const uint8_t *area, size_t length)
{
    jespurla_moment now = { seconds };
    jespurla_span router_lifetime = { lifetime };
    jespurla_server_list_answer answer =
        jespurla_server_list(*list, now, router_lifetime, area, length);

    if (answer.refusal == JESPURLA_REFUSED_AREA) {
        printf("  ");
        print_refusal(answer.refusal);
        puts("\n  the advertisement is dropped");
        return;
    }
    stop_if_refused("jespurla_server_list", answer.refusal);
    print_gone(list, &answer.list);
    *list = answer.list;
    print_list(list);
}

/* A router advertisement: its Router Lifetime, and its options. */
static void announce(jespurla_server_list_state *list, uint64_t seconds, uint16_t lifetime,
                     const char *file, const char *what)
{
    message area = read_message(file);
    printf("At %llu %s, %zu octets, router lifetime %u: %s\n", (unsigned long long)seconds, file,
           area.length, (unsigned)lifetime, what);
    take(list, seconds, lifetime, area.octets, area.length);
}

/* No advertisement: an area of no octets only drops what has expired, and with it the router
 * lifetime plays no part. A pointer is never null, not even one to nothing. */
static void wait_until(jespurla_server_list_state *list, uint64_t seconds, const char *what)
{
    static const uint8_t nothing[1];
    printf("At %llu no router speaks: %s\n", (unsigned long long)seconds, what);
    take(list, seconds, 0, nothing, 0);
}

/* Servers go by the Lifetime of the option that named them. */
static void show_lifetimes(jespurla_server_list_state *list)
{
    announce(list, 100, 1800, "area-for-good.bin", "a router names server 3 for good");
    announce(list, 100, 1800, "area-for-a-minute.bin", "another names 1 and 2 for 60 seconds");
    wait_until(list, 160, "the two still stand at their expiry");
    wait_until(list, 161, "the two are gone");
    announce(list, 162, 1800, "area-cut.bin", "an option is cut off");
    announce(list, 162, 1800, "area-withdrawn.bin", "the first router withdraws server 3");
}

/* Servers go with the router that named them. */
static void show_routers(jespurla_server_list_state *list)
{
    announce(list, 200, 1800, "area-for-good.bin", "the first router names server 3 again");
    announce(list, 210, 9000, "area-for-a-minute.bin", "the other names 1 and 2 again");
    announce(list, 220, 0, "area-for-a-minute.bin", "the other says goodbye, 1 and 2 go at once");
    wait_until(list, 2000, "the first was unplugged, server 3 still stands at its router moment");
    wait_until(list, 2001, "server 3 is gone, though it was named for good");
}

void show_server_list(void)
{
    jespurla_server_list_state list = { 0 };

    puts("\nDNS servers that routers announce");
    show_lifetimes(&list);
    show_routers(&list);
}
