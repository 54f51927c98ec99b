/* What the calls gave, and what ends the program. */
#include "damage.h"

#include <stdio.h>
#include <stdlib.h>

static const char *const names[CALLS] = {
    "flag_decision", "name_option_answer", "server_list", "lease_query",
    "query_by_address", "query_by_hardware", "query_by_client_id", "lease_reply_read",
    "zone_check", "request_a", "request_b", "request_remove_address",
    "request_remove_name", "new_add", "new_remove", "job_step",
    "zone_check_lent", "request_a_lent", "request_b_lent", "request_remove_address_lent",
    "request_remove_name_lent", "job_step_lent", "zone_find", "zone_same",
    "job_has_ended", "version",
};

typedef struct {
    unsigned long answered, refused;
    unsigned long kinds[257];
    unsigned long refusals[33];
    const uint32_t *listed;
} counts;

static counts tally[CALLS];

void must(bool holds, const char *what)
{
    if (holds)
        return;
    fprintf(stderr, "damage: %s\n", what);
    abort();
}

void tally_count(call which, uint32_t refusal, uint32_t kind, const uint32_t *listed)
{
    counts *t = &tally[which];
    t->listed = listed;
    if (refusal == 0) {
        must(kind <= 256, "an answer of no kind");
        t->answered++;
        t->kinds[kind]++;
        return;
    }
    while (*listed != refusal && *listed != 0)
        listed++;
    must(*listed == refusal, "a refusal that is not listed for this call");
    t->refused++;
    t->refusals[refusal]++;
}

/* The numbers that came up, each with its count. */
static void print_numbers(const char *title, const unsigned long *numbers, int count)
{
    printf("  %s", title);
    for (int i = 0; i < count; i++)
        if (numbers[i] > 0)
            printf(" %d:%lu", i, numbers[i]);
    puts("");
}

/* Whether the call was answered and met every refusal that is listed for it. */
static bool is_whole(const counts *t)
{
    bool whole = t->answered > 0;
    for (const uint32_t *listed = t->listed; whole && *listed != 0; listed++)
        whole = t->refusals[*listed] > 0;
    return whole;
}

bool tally_report(void)
{
    bool whole = true;
    unsigned long calls = 0;
    printf("%-28s%10s%10s\n", "call", "answered", "refused");
    for (int i = 0; i < CALLS; i++) {
        const counts *t = &tally[i];
        printf("%-28s%10lu%10lu\n", names[i], t->answered, t->refused);
        print_numbers("answers ", t->kinds, 257);
        print_numbers("refusals", t->refusals, 33);
        if (!is_whole(t))
            puts("  NOT WHOLE");
        whole = whole && is_whole(t);
        calls += t->answered + t->refused;
    }
    printf("%lu calls\n", calls);
    return whole;
}
