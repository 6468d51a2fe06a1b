/* Converts stored plans, each file where it stands: method 0 of an accepted plan, which was XLWX before version 0.8.0,
 * becomes 2. Says of each file whether it was converted, kept or refused. Exit status: 0 all accepted, 1 one refused,
 * 2 if a file could not be read or written, or standard output not be written. Behind a file that failed it goes on
 * with the next, behind a lost output it stops. Nothing else may write to the files meanwhile.
 *
 *     bash -c '. tests/common/build.sh && build_archives'
 *     gcc -std=c11 -Iinclude examples/convert.c target/staticlib/libconverter.a -o target/convert
 *     target/convert FILE..
 */
#define _POSIX_C_SOURCE 200809L
#include <errno.h>
#include <fcntl.h>
#include <stdbool.h>
#include <stdio.h>
#include <string.h>
#include <unistd.h>

#include "lingfallow.h"

enum { ACCEPTED = 0, REFUSED = 1, FAILED = 2 };

static int failed(const char *name) {
    fprintf(stderr, "convert: %s: %s\n", name, strerror(errno));
    return FAILED;
}

/* Reads the bytes that decide. A file that has more is longer than any plan, and is refused: so no plan is cut. */
static bool read_file(const char *path, uint8_t *bytes, size_t *length) {
    FILE *file = fopen(path, "rb");
    if (file == NULL) {
        return false;
    }
    *length = fread(bytes, 1, LINGFALLOW_DECIDING_BYTES, file);
    bool complete = !ferror(file);
    fclose(file);
    return complete;
}

/* Where the plan was changed, or its length: a conversion changes one byte at most. */
static size_t changed_at(const uint8_t *before, const uint8_t *after, size_t length) {
    size_t at = 0;
    while (at < length && before[at] == after[at]) {
        at++;
    }
    return at;
}

/* One byte cannot be half written, so the file holds a whole plan whatever fails. And it keeps its owner, rights and
 * links, which a new file put in its place would not. */
static bool write_byte(const char *path, size_t at, uint8_t byte) {
    int file = open(path, O_WRONLY);
    if (file < 0) {
        return false;
    }
    bool written = pwrite(file, &byte, 1, (off_t)at) == 1 && fsync(file) == 0;
    return close(file) == 0 && written;
}

static int convert(const char *path) {
    uint8_t stored[LINGFALLOW_DECIDING_BYTES], plan[LINGFALLOW_DECIDING_BYTES];
    size_t length;
    if (!read_file(path, stored, &length)) {
        return failed(path);
    }
    memcpy(plan, stored, length);
    struct lingfallow_returned returned = lingfallow_convert(plan, length);
    if (returned.number != LINGFALLOW_ACCEPTED) {
        printf("%s: refused %u at %zu\n", path, (unsigned)returned.number, returned.value);
        return REFUSED;
    }
    size_t at = changed_at(stored, plan, length);
    if (at < length && !write_byte(path, at, plan[at])) {
        return failed(path);
    }
    printf("%s: %s\n", path, at < length ? "converted" : "kept");
    return ACCEPTED;
}

int main(int count, char **words) {
    int status = ACCEPTED;
    if (count < 2) {
        fprintf(stderr, "usage: convert FILE..\n");
        return FAILED;
    }
    for (int k = 1; k < count; k++) {
        int one = convert(words[k]);
        status = one > status ? one : status;
        if (fflush(stdout) != 0 || ferror(stdout)) {
            return failed("standard output");
        }
    }
    return status;
}
