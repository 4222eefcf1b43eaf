/* Numbers and replies as text, for the sample programs. */
#ifndef SAMPLES_TEXT_H
#define SAMPLES_TEXT_H

#include <errno.h>
#include <stdio.h>
#include <stdlib.h>

#include "sktelbaan_runner.h"

/* A whole number from lo to hi, or the end of the program. */
static inline long long whole(const char *text, long long lo, long long hi) {
    char *end;
    errno = 0;
    long long v = strtoll(text, &end, 0);
    if (errno != 0 || end == text || *end != 0 || v < lo || v > hi) {
        fprintf(stderr, "not a number from %lld to %lld: %s\n", lo, hi, text);
        exit(2);
    }
    return v;
}

/* Reads components from the words that a program is started with, all of them, and gives their count. */
static inline size_t read_components(char **from, int count, int32_t *components) {
    for (int i = 0; i < count; i++)
        components[i] = (int32_t)whole(from[i], INT32_MIN, INT32_MAX);
    return (size_t)count;
}

/* Prints a reply with its floats, and whether the colour was pulled in. A refusal's text goes to standard error. */
static inline void print_reply(const char *what, uint64_t reply, const double floats[4]) {
    static const char *const names[] = {"", "Gray", "RGB", "CMYK", "XYZ", "NoMark", "EveryInk"};
    uint32_t refusal = sktelbaan_refusal(reply);
    if (refusal != 0) {
        printf("%s refused %u block %u\n", what, (unsigned)refusal, (unsigned)sktelbaan_block(reply));
        fprintf(stderr, "%s: %s\n", what, sktelbaan_refusal_text(refusal));
        return;
    }
    uint32_t in = sktelbaan_value(reply);
    printf("%s %s", what, names[in]);
    for (uint32_t i = 0; i < sktelbaan_floats(in); i++)
        printf(" %.17g", floats[i]);
    printf("%s\n", sktelbaan_moved(reply) ? " moved" : "");
}

#endif
