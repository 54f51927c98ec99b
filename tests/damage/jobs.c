/* New jobs, the end of jobs, and job steps by value. */
#include "damage.h"

#include <string.h>

/* Jobs under way, as the new job calls and the steps gave them. */
static jespurla_job jobs[JOBS];

/* A new job in one of the places, an add or a remove. */
static void turn_new(call which)
{
    static const uint32_t listed[] = { 18, 11, 0 };
    static const jespurla_job zeros;
    jespurla_name name = some_zone_name();
    jespurla_dhcid dhcid = some_dhcid();
    jespurla_address address = some_address();
    uint8_t family = some_family();
    jespurla_new_job made = which == NEW_ADD
        ? jespurla_new_add(name, dhcid, family, address, some_policy())
        : jespurla_new_remove(name, dhcid, family, address);

    tally_count(which, made.refusal, made.job.stage, listed);
    if (made.refusal != 0)
        must(memcmp(&made.job, &zeros, sizeof zeros) == 0, "a refused job is not of zeros");
    else
        jobs[random_below(JOBS)] = made.job;
}

/* At times its numbers or a few octets are changed. */
jespurla_job some_job(size_t at)
{
    jespurla_job job = jobs[at];
    if (one_in(16))
        job.stage = (uint8_t)random_below(17);
    if (one_in(16))
        job.count = (uint8_t)random_below(8);
    if (one_in(32))
        damage_octets(&job, sizeof job);
    if (one_in(64))
        random_fill(&job, sizeof job);
    return job;
}

void leave_job(size_t at, const jespurla_job *job)
{
    jobs[at] = *job;
}

bool has_ended(const jespurla_job *job)
{
    static const uint32_t none[] = { 0 };
    bool ended = (job->stage >= JESPURLA_ADD_DONE && job->stage <= JESPURLA_ADD_GAVE_UP) ||
                 (job->stage >= JESPURLA_REMOVE_NOT_OURS && job->stage <= JESPURLA_REMOVE_KEPT);
    uint8_t told = jespurla_job_has_ended(*job);
    tally_count(JOB_HAS_ENDED, 0, told, none);
    must(told == ended, "an end that is none, or one that was missed");
    return ended;
}

/* Whatever the rest of the job is, the stage tells. */
static void turn_end(void)
{
    jespurla_job job;
    random_fill(&job, sizeof job);
    if (one_in(2))
        job.stage = (uint8_t)random_below(17);
    has_ended(&job);
}

static void turn_step(void)
{
    static jespurla_stepped stepped;
    size_t at = random_below(JOBS);
    const jespurla_zone *zone = some_zone();
    jespurla_job job = some_job(at);

    stepped = jespurla_job_step(*zone, job);
    tally_count(JOB_STEP, stepped.refusal, stepped.job.stage, zone_refusals);
    if (stepped.refusal != 0) {
        must(memcmp(&stepped.job, &job, sizeof job) == 0, "a refused job comes back changed");
        must(memcmp(&stepped.zone, zone, sizeof *zone) == 0, "a refused zone comes back changed");
        return;
    }
    check_spelling(zone, &job.name, &stepped.zone);
    leave_job(at, &stepped.job);
    leave_zone(&stepped.zone);
}

void turn_jobs(void)
{
    turn_new(NEW_ADD);
    turn_new(NEW_REMOVE);
    turn_step();
    turn_step();
    turn_end();
}
