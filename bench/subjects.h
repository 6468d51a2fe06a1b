/* What is measured: the library call and the two forms of document 01 in C. */
#ifndef SUBJECTS_H
#define SUBJECTS_H

#include <stdio.h>
#include <stdlib.h>

#include "plain.h"

struct subject {
    const char *name;
    struct lingfallow_returned (*analyse)(const uint8_t *, size_t, uint8_t *, size_t);
};

enum { SUBJECTS = 3, ROOM = LINGFALLOW_DECIDING_BYTES };

static const struct subject subjects[SUBJECTS] = {
    {"lingfallow_analyse", lingfallow_analyse},
    {"plain_analyse", plain_analyse},
    {"steps_analyse", steps_analyse},
};

/* Reads a plan's bytes into room for any of them. */
static inline size_t load_plan(const char *path, uint8_t bytes[ROOM]) {
    FILE *in = fopen(path, "rb");
    if (in == NULL) {
        perror(path);
        exit(2);
    }
    size_t length = fread(bytes, 1, ROOM, in);
    fclose(in);
    return length;
}

#endif
