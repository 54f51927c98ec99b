/* DHCPv6 name options: the flag decision and the server's answer. */
#include "box.h"

#include <stdio.h>

/* What completes a partial name. The 0 that ends the string is the 0 that ends the name. */
static const char suffix[] = "\5stage";

/* The suffix is a setting of the server, so it is tested once, before any client asks: a name that
 * the zone check takes is a full name. From then on a refused name can only be the client's. */
static void check_suffix(void)
{
    static const jespurla_zone empty;
    jespurla_check_answer answer =
        jespurla_zone_check_lent(&empty, sizeof empty, name_of(suffix), JESPURLA_FAMILY_4,
                                 JESPURLA_KEEP_OTHERS);
    stop_if_refused("the suffix is", answer.refusal);
}

/* The answer has at most one of the three flags. */
static const char *flags_text(uint32_t flags)
{
    switch (flags) {
    case 0: return "none";
    case JESPURLA_FLAG_S: return "S, the server updates the name's address";
    case JESPURLA_FLAG_O: return "O, against the client's wish the server won't update";
    case JESPURLA_FLAG_N: return "N, the server updates nothing";
    default: return "no such flags";
    }
}

static const char *honoured_text(uint8_t s, uint8_t n)
{
    if (s && n)
        return "S and N";
    return s ? "S alone" : n ? "N alone" : "neither";
}

/* The flag decision alone, for a server that writes its own answer. */
static void decide(uint8_t flags, uint8_t honour_s, uint8_t honour_n)
{
    jespurla_flag_answer answer = jespurla_flag_decision(flags, honour_s, honour_n);

    printf("Flags %u, %s may be honoured\n  ", (unsigned)flags, honoured_text(honour_s, honour_n));
    if (answer.refusal != JESPURLA_NOT_REFUSED)
        print_refusal(answer.refusal);
    else
        printf("answer %u: %s", (unsigned)answer.flags, flags_text(answer.flags));
    puts("");
}

/* What the answer's octets hold: the flags, and behind them the name. */
static void print_answer(const uint8_t *reply, size_t length)
{
    printf("  name: ");
    print_name(reply + 1, length - 1);
    printf(", %zu octets\n  flags: %s\n", length - 1, flags_text(reply[0]));
}

/* One client's name option, answered with the server's suffix. */
static void reply_to(const char *file, const char *who, uint8_t honour_s, uint8_t honour_n)
{
    message option = read_message(file);
    uint8_t reply[JESPURLA_NAME_REPLY_MIN];
    jespurla_name_answer answer = jespurla_name_option_answer(
        option.octets, option.length, (const uint8_t *)suffix, sizeof suffix, honour_s, honour_n,
        reply, sizeof reply);

    printf("%s: %s\n", file, who);
    if (answer.refusal == JESPURLA_REFUSED_NAME_REPLY_ROOM)
        stop_if_refused("jespurla_name_option_answer", answer.refusal);
    if (answer.refusal != JESPURLA_NOT_REFUSED) {
        printf("  ");
        print_refusal(answer.refusal);
        puts("\n  the reply goes out without a name option");
        return;
    }
    print_answer(reply, answer.length);
}

void show_name_options(void)
{
    puts("\nName options (suffix stage.)");
    check_suffix();
    decide(JESPURLA_FLAG_S, 1, 0);
    decide(JESPURLA_FLAG_S, 0, 0);
    decide(JESPURLA_FLAG_S | JESPURLA_FLAG_N, 1, 1);
    reply_to("name-partial.bin", "a pipe asks for S, which may be honoured", 1, 0);
    reply_to("name-partial.bin", "the same where S may not be honoured", 0, 0);
    reply_to("name-full.bin", "an oboe with a full name asks for N", 1, 1);
    reply_to("name-odd.bin", "a label has a dot, a backslash, a blank and a bell in it", 1, 1);
    reply_to("name-s-and-n.bin", "a client asks for S and N at once", 1, 1);
    reply_to("name-cut.bin", "a client's label is cut off", 1, 1);
}
