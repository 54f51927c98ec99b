/* The flag decision and the name option answer. */
#include "damage.h"

/* 0 is no, any other number yes. */
static uint8_t some_honour(void)
{
    return one_in(2) ? 0 : (uint8_t)random_next();
}

static void turn_flags(void)
{
    static const uint32_t listed[] = { 10, 0 };
    jespurla_flag_answer answer =
        jespurla_flag_decision((uint8_t)random_next(), some_honour(), some_honour());
    uint32_t flags = answer.flags;
    tally_count(FLAG_DECISION, answer.refusal, flags, listed);
    must(flags == 0 || (answer.refusal == 0 && (flags == 1 || flags == 2 || flags == 4)),
         "flags that are no answer");
}

/* A value or a suffix of the option: a name, behind a flags octet where it is a value. */
static size_t some_value(uint8_t *octets)
{
    static const uint8_t flags[] = { 0, 0, 1, 1, 1, 4, 4, 4, 2, 5 };
    if (one_in(64))
        return 0;
    octets[0] = (uint8_t)(random_next() & 0xf8) | flags[random_below(sizeof flags)];
    return one_in(64) ? 1 : 1 + some_name(octets + 1);
}

static size_t some_suffix(uint8_t *octets)
{
    static const uint8_t sound[] = "\5stage";
    size_t length = sizeof sound;
    if (one_in(4))
        return some_name(octets);
    for (size_t i = 0; i < length; i++)
        octets[i] = sound[i];
    mix_letters(octets, length);
    if (one_in(16))
        damage_octets(octets, length);
    return length;
}

static void turn_answer(void)
{
    static const uint32_t listed[] = { 14, 10, 11, 12, 13, 0 };
    uint8_t value[301], suffix[300], reply[400];
    size_t value_length = some_value(value), suffix_length = some_suffix(suffix);
    size_t reply_length =
        one_in(8) ? random_below(400) : JESPURLA_NAME_REPLY_MIN + random_below(4);
    jespurla_name_answer answer;
    uint8_t *lent;

    random_fill(reply, reply_length);
    lent = lend(REPLY, reply, reply_length);
    answer = jespurla_name_option_answer(lend_to_read(VALUE, value, value_length), value_length,
                                         lend_to_read(SUFFIX, suffix, suffix_length),
                                         suffix_length, some_honour(), some_honour(),
                                         lent, reply_length);
    tally_count(NAME_OPTION_ANSWER, answer.refusal, answer.refusal != 0 ? 0 : lent[0], listed);
    must((answer.refusal == 0) == (answer.length != 0), "a length beside a refusal, or none");
    lend_check(VALUE, 0);
    lend_check(SUFFIX, 0);
    lend_check(REPLY, answer.length);
}

void turn_names(void)
{
    turn_flags();
    turn_answer();
}
