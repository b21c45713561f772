/* The arguments of the programs. */
#include "arguments.h"
#include "stream.h"

#include <stdio.h>
#include <stdlib.h>
#include <string.h>

static void write_help(const char *program, const char *help)
{
    bool good = stream_write(help, strlen(help)) || stream_trouble(program, STANDARD_OUTPUT);

    exit(good ? EXIT_SUCCESS : EXIT_TROUBLE);
}

void arguments_take(const char *program, int argc, char **argv, bool files, const char *help)
{
    for (int i = 1; i < argc; i++) {
        bool option = argv[i][0] == '-' && argv[i][1] != '\0';

        if (strcmp(argv[i], "--help") == 0)
            write_help(program, help);
        if (option || !files) {
            fprintf(stderr, "%s: unknown argument: %s\n%s", program, argv[i], help);
            exit(EXIT_TROUBLE);
        }
    }
}
