/*
 * What to do with a refusal. One that is about what somebody sent is written down, and the server
 * goes on: print_refusal. One that is about the server's own memory, clock or settings is a fault
 * in the server, and no later call will do better: stop_if_refused.
 */
#include "box.h"

#include <stdio.h>
#include <stdlib.h>

/* The constant that a program compares with, made from the same list as the constants. */
static const char *constant_of(uint32_t refusal)
{
    switch (refusal) {
#define JESPURLA_REFUSAL(number, name, text) \
    case number: \
        return "JESPURLA_REFUSED_" #name;
#include "jespurla_refusals.def"
#undef JESPURLA_REFUSAL
    default:
        return "no constant";
    }
}

void print_refusal(uint32_t refusal)
{
    printf("refused %u, %s: %s", (unsigned)refusal, constant_of(refusal),
           jespurla_refusal_text(refusal));
}

void stop_if_refused(const char *call, uint32_t refusal)
{
    if (refusal == JESPURLA_NOT_REFUSED)
        return;
    fflush(stdout);
    fprintf(stderr, "box: %s refused %u, %s: %s\n", call, (unsigned)refusal, constant_of(refusal),
            jespurla_refusal_text(refusal));
    exit(1);
}
