/* How a tool ends when something is wrong: a message on standard error that begins with its name. */
#ifndef TROUBLE_H
#define TROUBLE_H

#define TROUBLE 2 /* the status */

/* The tool's name. Each tool has its own. */
extern const char tool[];

/* What failed; errno says why. */
_Noreturn void stop(const char *what);

/* What is wrong with an argument. */
_Noreturn void stop_argument(const char *what, const char *argument);

#endif
