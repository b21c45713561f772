/* Input; standard output in whole pieces, whatever a write takes at a time; what is told where one fails. */
#ifndef STREAM_H
#define STREAM_H

#include <stdbool.h>
#include <stddef.h>
#include <sys/types.h>

/* What messages call them. */
#define STANDARD_INPUT "standard input"
#define STANDARD_OUTPUT "standard output"

/* What is there, up to size bytes; 0 at the end of the input, -1 where reading failed. */
ssize_t stream_read(int fd, void *buffer, size_t size);

/* False where writing failed. */
bool stream_write(const char *bytes, size_t length);

/* Tells on standard error why the last call failed, and answers false. */
bool stream_trouble(const char *program, const char *name);

#endif
