#include "trouble.h"

#include <errno.h>
#include <stdio.h>
#include <stdlib.h>
#include <string.h>

_Noreturn void stop(const char *what)
{
    fprintf(stderr, "%s: %s: %s\n", tool, what, strerror(errno));
    exit(TROUBLE);
}

_Noreturn void stop_argument(const char *what, const char *argument)
{
    fprintf(stderr, "%s: %s: %s; see %s --help\n", tool, what, argument, tool);
    exit(TROUBLE);
}
