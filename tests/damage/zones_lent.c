/* The calls that change a lent zone, and the check. They tell what those by value tell and leave
 * the same octets; lent any other number of octets, they refuse. */
#include "damage.h"

#include <string.h>

/* The check or request by value that does the same. */
static call twin_of(call which)
{
    return which - ZONE_CHECK_LENT + ZONE_CHECK;
}

static jespurla_zone *lend_zone(const jespurla_zone *zone, size_t length)
{
    return (void *)lend(ZONE, zone_octets(zone), length);
}

/* The refusal of the check, for which the zone can't be written. */
static uint32_t check(const jespurla_zone *zone, size_t length, const request *q)
{
    const void *lent = lend_to_read(ZONE, zone_octets(zone), length);
    jespurla_check_answer answer =
        jespurla_zone_check_lent(lent, length, q->name, q->family, q->policy);
    tally_count(ZONE_CHECK_LENT, answer.refusal, 0, zone_refusals);
    lend_check(ZONE, 0);
    return answer.refusal;
}

/* One of the four requests. */
static jespurla_request_answer send(call which, jespurla_zone *zone, size_t length,
                                    const request *q)
{
    switch (which) {
    case REQUEST_A_LENT:
        return jespurla_request_a_lent(zone, length, q->name, q->dhcid, q->family, q->address);
    case REQUEST_B_LENT:
        return jespurla_request_b_lent(zone, length, q->name, q->dhcid, q->family, q->address,
                                       q->policy);
    case REMOVE_ADDRESS_LENT:
        return jespurla_request_remove_address_lent(zone, length, q->name, q->dhcid, q->family,
                                                    q->address);
    default:
        return jespurla_request_remove_name_lent(zone, length, q->name, q->dhcid, q->family,
                                                 q->address);
    }
}

/* Looks at every octet of the lent zone: those of one entry at most have changed, and the whole is
 * what the call by value handed back. */
static void check_zone(const jespurla_zone *lent, const jespurla_zone *expected)
{
    lend_check_rows(ZONE, sizeof(jespurla_entry));
    must(memcmp(lent, expected, sizeof *lent) == 0, "lent and by value leave different zones");
}

static void turn_request(call which)
{
    static jespurla_answered expected;
    const jespurla_zone *zone = some_zone();
    request q = some_request(twin_of(which));
    uint32_t refusal = check(zone, sizeof *zone, &q);
    jespurla_zone *lent = lend_zone(zone, sizeof *zone);
    jespurla_request_answer told = send(which, lent, sizeof *lent, &q);

    expected = send_by_value(twin_of(which), zone, &q);
    tally_count(which, told.refusal, told.answer, zone_refusals);
    must(refusal == told.refusal, "check and request disagree");
    must(told.refusal == expected.refusal && told.answer == expected.answer,
         "lent and by value tell different answers");
    if (told.refusal != 0 || told.answer != JESPURLA_NOERROR)
        lend_check(ZONE, 0);
    check_zone(lent, &expected.zone);
    if (told.refusal == 0)
        leave_zone(lent);
}

static void turn_step(void)
{
    static jespurla_stepped expected;
    size_t at = random_below(JOBS);
    const jespurla_zone *zone = some_zone();
    jespurla_job job = some_job(at);
    jespurla_zone *lent = lend_zone(zone, sizeof *zone);
    jespurla_step_answer told = jespurla_job_step_lent(lent, sizeof *lent, job);

    expected = jespurla_job_step(*zone, job);
    tally_count(JOB_STEP_LENT, told.refusal, told.job.stage, zone_refusals);
    must(told.refusal == expected.refusal && memcmp(&told.job, &expected.job, sizeof job) == 0,
         "lent and by value tell different jobs");
    check_zone(lent, &expected.zone);
    if (told.refusal != 0 || has_ended(&job)) {
        must(memcmp(&told.job, &job, sizeof job) == 0, "a job that stays comes back changed");
        lend_check(ZONE, 0);
        return;
    }
    leave_job(at, &told.job);
    leave_zone(lent);
}

/* A step lent a wrong number of octets. */
static void turn_step_length(const jespurla_zone *zone, size_t length)
{
    jespurla_job job = some_job(random_below(JOBS));
    jespurla_step_answer told = jespurla_job_step_lent(lend_zone(zone, length), length, job);

    tally_count(JOB_STEP_LENT, told.refusal, told.job.stage, zone_refusals);
    must(told.refusal == 17, "a step took a wrong length");
    must(memcmp(&told.job, &job, sizeof job) == 0, "a refused job comes back changed");
    lend_check(ZONE, 0);
}

/* A request lent a wrong number of octets, and the check before it. */
static void turn_request_length(call which, const jespurla_zone *zone, size_t length)
{
    request q = some_request(twin_of(which));
    uint32_t refusal = check(zone, length, &q);
    jespurla_request_answer told = send(which, lend_zone(zone, length), length, &q);

    tally_count(which, told.refusal, told.answer, zone_refusals);
    must(refusal == 17, "the check took a wrong length");
    must(told.refusal == 17 && told.answer == 0, "a request took a wrong length");
    lend_check(ZONE, 0);
}

void turn_lent(void)
{
    const jespurla_zone *zone;
    size_t length = some_wrong_length();

    for (call which = REQUEST_A_LENT; which <= REMOVE_NAME_LENT; which++)
        turn_request(which);
    turn_step();
    turn_step();
    zone = some_zone();
    turn_step_length(zone, length);
    for (call which = REQUEST_A_LENT; which <= REMOVE_NAME_LENT; which++)
        turn_request_length(which, zone, length);
}
