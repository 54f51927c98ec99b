/* The requests of RFC 4703 on a zone that is kept: lent, it is changed where it lies. */
#include "box.h"

#include <stdio.h>

static const jespurla_address four = { { 10, 0, 0, 7 } };
static const jespurla_address six = { { 0x20, 1, 0x0d, 0xb8, [15] = 7 } };

/* Zeros: no names. 23,936 octets are a lot for a stack, so it is static. */
static jespurla_zone kept;

/* The check alone: would a request at this name with this family be refused? */
static void check(const char *what, jespurla_name name, uint8_t family)
{
    jespurla_check_answer answer =
        jespurla_zone_check_lent(&kept, sizeof kept, name, family, JESPURLA_KEEP_OTHERS);

    printf("  check, %s\n    ", what);
    if (answer.refusal != JESPURLA_NOT_REFUSED)
        print_refusal(answer.refusal);
    else
        printf("no refusal");
    puts("");
}

/* What a request was told, and what stands at the name after it. */
static void told(const char *what, jespurla_name name, jespurla_request_answer answer)
{
    stop_if_refused(what, answer.refusal);
    printf("  %s: %s\n", what, answer_text(answer.answer));
    print_found(&kept, name);
}

static void show_checks(jespurla_name name)
{
    jespurla_name partial = name;
    partial.length--; /* without the 0 that ends it */

    check("an address of family 4", name, JESPURLA_FAMILY_4);
    check("an address of family 5", name, 5);
    check("a partial name", partial, JESPURLA_FAMILY_4);
}

static void show_adds(jespurla_name name)
{
    const size_t size = sizeof kept;
    jespurla_dhcid x = dhcid_of('X'), y = dhcid_of('Y');

    told("A for X with 10.0.0.7", name,
         jespurla_request_a_lent(&kept, size, name, x, JESPURLA_FAMILY_4, four));
    told("A for Y with 10.0.0.7", name,
         jespurla_request_a_lent(&kept, size, name, y, JESPURLA_FAMILY_4, four));
    told("B for Y with 10.0.0.7", name,
         jespurla_request_b_lent(&kept, size, name, y, JESPURLA_FAMILY_4, four,
                                 JESPURLA_KEEP_OTHERS));
    told("B for X with 2001:db8::7, others stay", name,
         jespurla_request_b_lent(&kept, size, name, x, JESPURLA_FAMILY_6, six,
                                 JESPURLA_KEEP_OTHERS));
    told("B for X with 2001:db8::7, no other address stays", name,
         jespurla_request_b_lent(&kept, size, name, x, JESPURLA_FAMILY_6, six,
                                 JESPURLA_ONLY_THIS));
}

static void show_removes(jespurla_name name)
{
    const size_t size = sizeof kept;
    jespurla_dhcid x = dhcid_of('X');

    told("second remove for X, too early", name,
         jespurla_request_remove_name_lent(&kept, size, name, x, JESPURLA_FAMILY_6, six));
    told("first remove for X", name,
         jespurla_request_remove_address_lent(&kept, size, name, x, JESPURLA_FAMILY_6, six));
    told("second remove for X", name,
         jespurla_request_remove_name_lent(&kept, size, name, x, JESPURLA_FAMILY_6, six));
}

void show_requests(void)
{
    jespurla_name name = name_of("\5pipe7\5stage");

    puts("\nRequests on a zone");
    show_checks(name);
    show_adds(name);
    show_removes(name);
}
