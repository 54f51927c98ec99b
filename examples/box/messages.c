/* Messages, each from a file: a server would read them from a socket. */
#include "box.h"

#include <stdio.h>
#include <stdlib.h>

static const char *from = "examples/octets";

void read_from(const char *folder)
{
    from = folder;
}

message read_message(const char *file)
{
    message read = { .length = 0 };
    char path[4096];
    FILE *in;

    snprintf(path, sizeof path, "%s/%s", from, file);
    in = fopen(path, "rb");
    if (in == NULL) {
        perror(path);
        exit(1);
    }
    read.length = fread(read.octets, 1, sizeof read.octets, in);
    if (ferror(in)) {
        perror(path);
        exit(1);
    }
    fclose(in);
    return read;
}
