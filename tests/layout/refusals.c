/* The refusals: each constant has its number, and the list and its texts are as a program takes
 * them to be. It is C and C++. */
#include "jespurla.h"

#include <stdio.h>
#include <string.h>

#define COUNT(array) (sizeof(array) / sizeof *(array))

/* The numbers are written down here a second time: a server's log holds them, so they stay. */
static const struct {
    uint32_t number;
    uint32_t constant;
} expected[] = {
    { 1, JESPURLA_REFUSED_PACKET },
    { 2, JESPURLA_REFUSED_OP },
    { 3, JESPURLA_REFUSED_OPTIONS },
    { 4, JESPURLA_REFUSED_MESSAGE_TYPE },
    { 5, JESPURLA_REFUSED_GIADDR },
    { 6, JESPURLA_REFUSED_KEYS },
    { 7, JESPURLA_REFUSED_KEY_LENGTH },
    { 8, JESPURLA_REFUSED_LEASE_REPLY_ROOM },
    { 9, JESPURLA_REFUSED_LEASE_TABLE },
    { 10, JESPURLA_REFUSED_FLAGS },
    { 11, JESPURLA_REFUSED_NAME },
    { 12, JESPURLA_REFUSED_NAME_EMPTY },
    { 13, JESPURLA_REFUSED_NAME_TOO_LONG },
    { 14, JESPURLA_REFUSED_NAME_REPLY_ROOM },
    { 15, JESPURLA_REFUSED_CLOCK },
    { 16, JESPURLA_REFUSED_AREA },
    { 17, JESPURLA_REFUSED_ZONE },
    { 18, JESPURLA_REFUSED_NUMBERS },
    { 19, JESPURLA_REFUSED_QUERY },
    { 20, JESPURLA_REFUSED_REPLY },
    { 21, JESPURLA_REFUSED_XID },
    { 31, JESPURLA_REFUSED_SERVER_LIST },
    { 32, JESPURLA_REFUSED_QUERY_ROOM },
};

static const uint32_t listed[] = {
#define JESPURLA_REFUSAL(number, name, text) number,
#include "jespurla_refusals.def"
#undef JESPURLA_REFUSAL
};

static int failures;

static void must(int holds, uint32_t refusal, const char *what)
{
    if (holds)
        return;
    fprintf(stderr, "refusals: %u: %s\n", (unsigned)refusal, what);
    failures++;
}

/* As many as expected, the same numbers in the same order, which rise. */
static void check_numbers(void)
{
    must(COUNT(listed) == COUNT(expected), (uint32_t)COUNT(listed), "so many are listed");
    must(JESPURLA_NOT_REFUSED == 0, JESPURLA_NOT_REFUSED, "the number of no refusal");
    for (size_t i = 0; i < COUNT(listed) && i < COUNT(expected); i++) {
        must(listed[i] == expected[i].number, listed[i], "not listed in its place");
        must(expected[i].constant == expected[i].number, listed[i], "the constant differs");
        must(listed[i] > (i == 0 ? 0 : listed[i - 1]), listed[i], "does not rise");
    }
}

static int is_listed(uint32_t refusal)
{
    for (size_t i = 0; i < COUNT(listed); i++)
        if (listed[i] == refusal)
            return 1;
    return 0;
}

/* A text for each, no two the same; one for none, and one for every number that is not listed. */
static void check_texts(void)
{
    must(strcmp(jespurla_refusal_text(0), "not refused") == 0, 0, "its text");
    must(strcmp(jespurla_refusal_text(UINT32_MAX), "no such refusal") == 0, UINT32_MAX, "its text");
    for (uint32_t refusal = 1; refusal < 1000; refusal++) {
        const char *text = jespurla_refusal_text(refusal);
        int without = strcmp(text, "no such refusal") == 0;
        must(text[0] != '\0', refusal, "no text");
        must(without == !is_listed(refusal), refusal, "listed without a text, or a text unlisted");
        for (uint32_t before = 0; before < refusal && !without; before++)
            must(strcmp(text, jespurla_refusal_text(before)) != 0, refusal, "the text of another");
    }
}

int main(void)
{
    check_numbers();
    check_texts();
    return failures != 0;
}
