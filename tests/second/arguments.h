/* What the programs do with their arguments first. */
#ifndef ARGUMENTS_H
#define ARGUMENTS_H

#include <stdbool.h>

/* The status where an argument is not taken, or reading or writing failed. */
#define EXIT_TROUBLE 2

/*
 * Ends the program at the first option, an argument of `-` and more: `--help` writes the help, any
 * other is told on standard error, and nothing is answered. Other arguments are files, where the
 * program takes these, and are told too where it does not.
 */
void arguments_take(const char *program, int argc, char **argv, bool files, const char *help);

#endif
