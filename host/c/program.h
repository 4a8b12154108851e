/* What the C programs here share: arguments, files, and the end on an error. */
#ifndef PROGRAM_H
#define PROGRAM_H

#include <ctype.h>
#include <errno.h>
#include <inttypes.h>
#include <stdio.h>
#include <stdlib.h>

/*
 * Reads a number, as C writes them: decimal, with 0x hexadecimal, with a leading
 * 0 octal. Says whether the text is one and at most `most`.
 */
static inline int read_number(const char *text, uint64_t most, uint64_t *number)
{
    char *end;
    errno = 0;
    *number = strtoull(text, &end, 0);
    return isdigit((unsigned char)*text) && *end == '\0' && errno == 0 &&
           *number <= most;
}

/* Ends the program unless this holds, with a word of what went wrong. */
static inline void expect(int holds, const char *what)
{
    if (!holds) {
        fprintf(stderr, "%s\n", what);
        exit(EXIT_FAILURE);
    }
}

/* Ends the program, with what the system says of a file. */
static inline void fail(const char *file)
{
    perror(file);
    exit(EXIT_FAILURE);
}

/* Reads a file, of which at most this many bytes; gives their number. */
static inline size_t read_file(const char *name, uint8_t *bytes, size_t most)
{
    FILE *file = fopen(name, "rb");
    if (file == NULL)
        fail(name);
    size_t length = fread(bytes, 1, most, file);
    if (ferror(file))
        fail(name);
    fclose(file);
    return length;
}

#endif
