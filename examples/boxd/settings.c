/* The arguments of boxd. */
#include "boxd.h"

#include <string.h>

static const struct {
    const char *option;
    treatment replies;
} options[] = {
    { "--mute", MUTE },
    { "--damage", DAMAGED },
    { "--other-xid", OTHER_XID },
    { "--stray", STRAY },
};

static int read_option(const char *text, treatment *replies)
{
    for (size_t i = 0; i < sizeof options / sizeof *options; i++) {
        if (strcmp(text, options[i].option) != 0)
            continue;
        *replies = options[i].replies;
        return 1;
    }
    return 0;
}

fault read_settings(int count, char **arguments, settings *read)
{
    read->replies = SOUND;
    if (count < 2)
        return (fault){ "the port is missing", "" };
    if (count > 3)
        return (fault){ "too many arguments", "" };
    if (count == 3 && !read_option(arguments[1], &read->replies))
        return (fault){ "no such option", arguments[1] };
    if (!read_port(arguments[count - 1], &read->port))
        return (fault){ "not a port", arguments[count - 1] };
    return (fault){ NULL, NULL };
}
