/* Reading a zone: what stands at a name, and whether two zones mean the same. */
#include "box.h"

#include <stdio.h>
#include <string.h>

/* Two boxes, each with a zone of its own. */
static jespurla_zone first, second;

static const jespurla_address desk = { { 10, 0, 0, 1 } };
static const jespurla_address pipe7 = { { 10, 0, 0, 7 } };
static const jespurla_address moved = { { 10, 0, 0, 9 } };

/* No request makes a static name: the box writes it into a free place, from its settings. */
static void put_static(jespurla_zone *zone, int place, jespurla_name name)
{
    jespurla_entry *entry = &zone->entries[place];

    memset(entry, 0, sizeof *entry);
    entry->kind = JESPURLA_STATIC;
    entry->name = name;
    entry->v4.count = 1;
    memcpy(entry->v4.items[0], desk.octets, sizeof entry->v4.items[0]);
}

/* What a request was told: one that is not refused may still find that it can't be done. */
static void told(const char *what, jespurla_request_answer answer)
{
    stop_if_refused(what, answer.refusal);
    printf("  %s: %s\n", what, answer_text(answer.answer));
}

/* A name that somebody typed may not be full: then the lookup is refused, and nothing is wrong with
 * the zone. */
static void look_up(jespurla_name name)
{
    jespurla_find_answer found = jespurla_zone_find(&first, sizeof first, name);

    if (found.refusal == JESPURLA_REFUSED_NAME) {
        printf("    ");
        print_refusal(found.refusal);
        puts("");
        return;
    }
    stop_if_refused("jespurla_zone_find", found.refusal);
    print_entry(name, &found.entry);
}

/* The desk may write a name in other letters than the instrument did. It is the same name, and what
 * is found has it as it was first written. */
static void look_up_in_other_letters(void)
{
    jespurla_name name = name_of("\5PIPE7\5Stage");

    printf("  the desk asks box 1 for ");
    print_name(name.octets, name.length);
    puts("");
    look_up(name);
}

/* memcmp looks at places, and at octets that mean nothing: jespurla_zone_same does not. */
static void compare(void)
{
    jespurla_same_answer answer =
        jespurla_zone_same(&first, sizeof first, &second, sizeof second);

    stop_if_refused("jespurla_zone_same", answer.refusal);
    printf("    jespurla_zone_same: %s\n", answer.same ? "the same" : "not the same");
    printf("    memcmp: %s\n", memcmp(&first, &second, sizeof first) == 0 ? "equal" : "not equal");
}

/* The same names in both zones, at different places. */
static void fill(jespurla_name name)
{
    put_static(&first, 0, name_of("\4desk\5stage"));
    put_static(&second, 9, name_of("\4desk\5stage"));
    told("box 1, A for X with 10.0.0.7",
         jespurla_request_a_lent(&first, sizeof first, name, dhcid_of('X'), JESPURLA_FAMILY_4,
                                 pipe7));
    told("box 2, A for X with 10.0.0.7",
         jespurla_request_a_lent(&second, sizeof second, name, dhcid_of('X'), JESPURLA_FAMILY_4,
                                 pipe7));
}

void show_lookups(void)
{
    jespurla_name name = name_of("\5pipe7\5stage"), cut = name;
    cut.length--; /* without the 0 that ends it */

    puts("\nLookups: box 1 has the desk at place 0 of its zone, box 2 at place 9");
    fill(name);
    puts("  what stands at three names of box 1, and at one that is cut off");
    look_up(name_of("\4desk\5stage"));
    look_up(name);
    look_up(name_of("\4oboe\5stage"));
    look_up(cut);
    look_up_in_other_letters();
    puts("  the two zones");
    compare();
    told("box 2, B for X with 10.0.0.9, no other of its family stays",
         jespurla_request_b_lent(&second, sizeof second, name, dhcid_of('X'), JESPURLA_FAMILY_4,
                                 moved, JESPURLA_ONE_OF_FAMILY));
    puts("  the two zones");
    compare();
}
