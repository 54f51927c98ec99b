/*
 * The box at work: what an address server asks of the library, and what it does with the answer.
 * Each part has a file of its own in the folder box, and together they make every call there is.
 */
#include "box/box.h"

#include <stdio.h>
#include <stdlib.h>

/* A program compiled with the header of one version and linked with the library of another may take
 * a struct for what it is not, so it compares the two before any other call. */
static void check_version(void)
{
    uint32_t linked = jespurla_version();

    if (linked != JESPURLA_VERSION) {
        fprintf(stderr, "box: the library has version number %u, its header %u\n",
                (unsigned)linked, (unsigned)JESPURLA_VERSION);
        exit(1);
    }
    printf("Jespurla %u.%u.%u\n", (unsigned)(linked >> 16), (unsigned)(linked >> 8 & 255),
           (unsigned)(linked & 255));
}

/* The one argument, where it is given, is the folder of the messages. */
int main(int count, char **arguments)
{
    if (count > 1)
        read_from(arguments[1]);
    check_version();
    show_name_options();
    show_server_list();
    show_lease_queries();
    show_written_queries();
    show_requests();
    show_lookups();
    show_jobs();
    show_by_value();
    return 0;
}
