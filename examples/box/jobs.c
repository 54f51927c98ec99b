/* Two boxes' jobs on the zone that they share, a step at a time. */
#include "box.h"

#include <stdio.h>

/* The zone, a remove for X and an add for Y at the same name. */
typedef struct {
    jespurla_zone zone;
    jespurla_job x, y;
} shared;

/* One step is one request, tested and done at once. A server that steps from several threads holds
 * a lock on the zone for the step, and for no longer. */
static void step(const char *who, jespurla_zone *zone, jespurla_job *job)
{
    jespurla_step_answer answer = jespurla_job_step_lent(zone, sizeof *zone, *job);

    stop_if_refused("jespurla_job_step_lent", answer.refusal);
    *job = answer.job;
    printf("  %s: %s", who, stage_text(job->stage));
    if (job->count != 0) {
        printf(" (");
        print_count(job->count, "request");
        printf(" sent)");
    }
    puts("");
    print_found(zone, job->name);
}

/* Steps a job until it has ended: an add takes at most six steps, a remove at most two. */
static void run(const char *who, jespurla_zone *zone, jespurla_job *job)
{
    while (!jespurla_job_has_ended(*job))
        step(who, zone, job);
}

/* A fresh job, which has sent nothing yet. */
static jespurla_job fresh(jespurla_new_job made)
{
    stop_if_refused("a new job is", made.refusal);
    return made.job;
}

/* The name is X's, with one address; X is to remove it, and Y to add its own. */
static void begin(shared *s)
{
    jespurla_name name = name_of("\5pipe7\5stage");
    jespurla_address here = { { 10, 0, 0, 7 } };
    jespurla_address there = { { 10, 0, 0, 8 } };
    jespurla_job add = fresh(jespurla_new_add(name, dhcid_of('X'), JESPURLA_FAMILY_4, here,
                                              JESPURLA_KEEP_OTHERS));

    run("box 1 adds for X", &s->zone, &add);
    s->x = fresh(jespurla_new_remove(name, dhcid_of('X'), JESPURLA_FAMILY_4, here));
    s->y = fresh(jespurla_new_add(name, dhcid_of('Y'), JESPURLA_FAMILY_4, there,
                                  JESPURLA_KEEP_OTHERS));
}

/* Whether both ended alike: the same answers, and zones that mean the same. */
static int same_end(const shared *one, const shared *other)
{
    jespurla_same_answer zones =
        jespurla_zone_same(&one->zone, sizeof one->zone, &other->zone, sizeof other->zone);

    stop_if_refused("jespurla_zone_same", zones.refusal);
    return zones.same && one->x.stage == other->x.stage && one->y.stage == other->y.stage;
}

/* What somebody typed may make no job; the server says so and goes on. */
static void show_refused(void)
{
    jespurla_address address = { { 10, 0, 0, 7 } };
    jespurla_new_job made =
        jespurla_new_remove(name_of("\5pipe7\5stage"), dhcid_of('X'), 5, address);

    puts("\nA new job of family 5");
    printf("  ");
    if (made.refusal != JESPURLA_NOT_REFUSED)
        print_refusal(made.refusal);
    else
        printf("%s", stage_text(made.job.stage));
    puts("");
}

void show_jobs(void)
{
    static shared mixed, in_turn;

    puts("\nTwo boxes' jobs on one zone: X removes its only address, Y adds in between");
    begin(&mixed);
    step("box 1 removes for X", &mixed.zone, &mixed.x);
    run("box 2 adds for Y", &mixed.zone, &mixed.y);
    run("box 1 goes on for X", &mixed.zone, &mixed.x);

    puts("\nThe same jobs one after the other: Y whole, then X");
    begin(&in_turn);
    run("box 2 adds for Y", &in_turn.zone, &in_turn.y);
    run("box 1 removes for X", &in_turn.zone, &in_turn.x);
    puts(same_end(&mixed, &in_turn) ? "  both ended the same" : "  the ends differ");
    show_refused();
}
