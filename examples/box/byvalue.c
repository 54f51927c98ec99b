/*
 * A zone by value: the call hands the next zone back and leaves the one before as it was, so that
 * something can be tried out. Each zone is a copy of 23,936 octets, and a call takes up to 160 KiB
 * of stack: on a small stack, copy the zone once and lend the copy.
 */
#include "box.h"

#include <stdio.h>

static const jespurla_address four = { { 10, 0, 0, 7 } };
static const jespurla_address six = { { 0x20, 1, 0x0d, 0xb8, [15] = 7 } };

/* The zone that is kept, and what would become of it. */
static jespurla_zone kept, tried;

/* What a request is told, and the zone that it would leave. */
static void told(const char *what, jespurla_name name, const jespurla_answered *answered)
{
    stop_if_refused(what, answered->refusal);
    tried = answered->zone;
    printf("  %s: %s\n", what, answer_text(answered->answer));
    print_found(&tried, name);
}

static void show_requests_tried(jespurla_name name)
{
    static jespurla_answered answered;
    jespurla_dhcid x = dhcid_of('X');
    jespurla_check_answer checked =
        jespurla_zone_check(tried, name, JESPURLA_FAMILY_4, JESPURLA_KEEP_OTHERS);

    stop_if_refused("jespurla_zone_check", checked.refusal);
    answered = jespurla_request_a(tried, name, x, JESPURLA_FAMILY_4, four);
    told("A for X with 10.0.0.7", name, &answered);
    answered = jespurla_request_b(tried, name, x, JESPURLA_FAMILY_6, six, JESPURLA_ONLY_THIS);
    told("B for X with 2001:db8::7, no other address stays", name, &answered);
    answered = jespurla_request_remove_address(tried, name, x, JESPURLA_FAMILY_6, six);
    told("first remove for X", name, &answered);
    answered = jespurla_request_remove_name(tried, name, x, JESPURLA_FAMILY_6, six);
    told("second remove for X", name, &answered);
}

/* A whole add on the zone that is tried; the stage in which it ended. */
static uint8_t add_tried(jespurla_name name)
{
    static jespurla_stepped stepped;
    jespurla_new_job made = jespurla_new_add(name, dhcid_of('Y'), JESPURLA_FAMILY_4, four,
                                             JESPURLA_KEEP_OTHERS);
    jespurla_job job;

    stop_if_refused("jespurla_new_add", made.refusal);
    job = made.job;
    while (!jespurla_job_has_ended(job)) {
        stepped = jespurla_job_step(tried, job);
        stop_if_refused("jespurla_job_step", stepped.refusal);
        tried = stepped.zone;
        job = stepped.job;
    }
    return job.stage;
}

void show_by_value(void)
{
    jespurla_name name = name_of("\5pipe7\5stage");

    puts("\nBy value: tried out, and the zone that is kept stays as it is");
    tried = kept;
    show_requests_tried(name);
    printf("  a job for Y: %s\n", stage_text(add_tried(name)));
    print_found(&tried, name);
    puts("  the zone that is kept");
    print_found(&kept, name);
}
