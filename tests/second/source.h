/*
 * The recorder's file as the programs `replay` and `expect` read it: its header, then
 * blocks of 8,192 records. Written from document 02, request a.
 */
#ifndef SOURCE_H
#define SOURCE_H

#include <stdbool.h>
#include <stddef.h>
#include <stdint.h>

#define SOURCE_HEADER_BYTES 8u
#define SOURCE_RECORD_BYTES 4u
#define SOURCE_BLOCK_RECORDS 8192u

/* A file that a program reads, and whether that failed; then it has been told. */
struct source {
    const char *program;
    const char *name;
    int fd;
    bool failed;
};

/* Records as they were read. Only the last block may have bytes left over, one to three. */
struct source_block {
    uint32_t records[SOURCE_BLOCK_RECORDS];
    size_t count;
    size_t left;
    bool last;
};

/* Opens the file of a name, standard input for `-`. False where it cannot be opened. */
bool source_open(struct source *source, const char *program, const char *name);

/* Closes what was opened; standard input stays open. */
void source_close(struct source *source);

/* Reads the header; returns the number of its refusal, or 0. */
uint32_t source_header(struct source *source, uint8_t header[SOURCE_HEADER_BYTES]);

/* Reads the next block. It has no records where the file has ended. */
void source_next(struct source *source, struct source_block *block);

#endif
