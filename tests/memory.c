/* What a call does with memory: the bytes of its buffer, null pointers and the stack. Reads plan P.
 *
 *     gcc -std=c11 -Iinclude tests/memory.c target/staticlib/lib{analyser,writer,converter}.a -o target/memory
 *     target/memory < plans/P.plan
 */
#define _XOPEN_SOURCE 700
#include <stdbool.h>
#include <stdio.h>
#include <stdlib.h>
#include <string.h>
#include <ucontext.h>

#include "lingfallow.h"

enum { P_LENGTH = 81, P_REPLY = 51, ROOM = 64, HELD = 0xA5, STACK_LENT = 256 * 1024 };
enum { ANALYSE_STACK = 48 * 1024, WRITE_STACK = 16 * 1024, CONVERT_STACK = 1 * 1024, WRITE_ROOM = P_LENGTH + 9 };
enum { PRIORITY_FLITS = 2, SEVENTH = 9, SEVEN_LENGTH = P_LENGTH + 1 };
enum { METHOD = 8, LONGEST = LINGFALLOW_LONGEST_PLAN, AROUND = 64 };

static const uint8_t p_reply[P_REPLY] = {
    0x81, 0, 13, 0, 2, 0, 0xFF, 0xFF, 0, 0, 0x00, 0x3E, 0, 0, 0, 1, /* 2 bounded 62 rounds 1 */
    0x81, 0, 13, 0, 3, 0, 0xFF, 0xFF, 0, 0, 0x01, 0x48, 0, 0, 0, 2, /* 3 bounded 328 rounds 2 */
    0x81, 0, 13, 0, 5, 0, 0xFF, 0xFF, 0, 0, 0x01, 0x8C, 0, 0, 0, 2, /* 5 bounded 396 rounds 2 */
    0x7F, 0, 0,
};

static uint8_t plan[P_LENGTH];
static uint8_t plan_with_seven[SEVEN_LENGTH]; /* P with a platform record of seven bytes */
static uint8_t reply[ROOM];
static uint8_t written[WRITE_ROOM];
static uint8_t lent[AROUND + LONGEST + AROUND]; /* a plan to convert, and the bytes around it */
static struct lingfallow_plan numbers = {
    .platform = {6, 1, 1, 0, 10, 3, 0},
    .flows = {{2, 1, 4, 5, 60, 200, 200, 0}, {3, 2, 0, 5, 198, 4000, 4000, 0}, {5, 3, 1, 4, 128, 6000, 6000, 0}},
    .count = 3,
};
static uint8_t stack[STACK_LENT];
static ucontext_t caller, callee;

static void expect(bool found, const char *what) {
    if (!found) {
        fprintf(stderr, "memory: not so: %s\n", what);
        exit(1);
    }
}

static bool held(const uint8_t *bytes, size_t length) {
    for (size_t i = 0; i < length; i++) {
        if (bytes[i] != HELD) {
            return false;
        }
    }
    return true;
}

/* Whether the call returns this, writes so much of P's reply and leaves all behind it, outside the buffer too. */
static bool gives(size_t plan_length, size_t reply_length, uint8_t number, size_t value, size_t written) {
    memset(reply, HELD, ROOM);
    struct lingfallow_returned returned = lingfallow_analyse(plan, plan_length, reply, reply_length);
    return returned.number == number && returned.value == value && memcmp(reply, p_reply, written) == 0 &&
           held(reply + written, ROOM - written);
}

static bool null_gives(const uint8_t *bytes, size_t length, uint8_t number, size_t value) {
    struct lingfallow_returned returned = lingfallow_analyse(bytes, length, NULL, 0);
    return returned.number == number && returned.value == value;
}

/* The same of a writing of P, with another count and so many priority flits. */
static bool writes_with(uint8_t flits, size_t count, size_t length, uint8_t number, size_t value, size_t changed) {
    memset(written, HELD, WRITE_ROOM);
    numbers.platform.priority_flits = flits;
    numbers.count = count;
    struct lingfallow_returned returned = lingfallow_write(numbers, written, length);
    return returned.number == number && returned.value == value &&
           memcmp(written, flits == 0 ? plan : plan_with_seven, changed) == 0 &&
           held(written + changed, WRITE_ROOM - changed);
}

static bool writes(size_t count, size_t length, uint8_t number, size_t value, size_t changed) {
    return writes_with(0, count, length, number, value, changed);
}

static void put_seven(void) {
    memcpy(plan_with_seven, plan, SEVENTH);
    plan_with_seven[2] = 7;
    plan_with_seven[SEVENTH] = PRIORITY_FLITS;
    memcpy(plan_with_seven + SEVENTH + 1, plan + SEVENTH, P_LENGTH - SEVENTH);
}

/* 64 flows that are in no fault: P's three, and more of one flit. */
static void fill_flows(void) {
    for (uint16_t k = 3; k < LINGFALLOW_MOST_FLOWS; k++) {
        numbers.flows[k] = (struct lingfallow_flow){(uint16_t)(100 + k), (uint16_t)(100 + k), 0, 1, 1, 9, 9, 0};
    }
}

static bool null_written(void) {
    struct lingfallow_returned returned = lingfallow_write(numbers, NULL, 0);
    return returned.number == 11 && returned.value == 0;
}

/* Whether a conversion of these bytes returns this, makes `then` of them and leaves all around them. */
static bool converts(const uint8_t *bytes, size_t length, uint8_t number, size_t value, const uint8_t *then) {
    memset(lent, HELD, sizeof lent);
    memcpy(lent + AROUND, bytes, length);
    struct lingfallow_returned returned = lingfallow_convert(lent + AROUND, length);
    return returned.number == number && returned.value == value && held(lent, AROUND) &&
           memcmp(lent + AROUND, then, length) == 0 && held(lent + AROUND + length, AROUND + LONGEST - length);
}

/* The same of any bytes: what lingfallow_analyse refuses is refused so, and method 0 of an accepted plan becomes 2. */
static bool converts_as_read(const uint8_t *bytes, size_t length) {
    uint8_t room[LINGFALLOW_LONGEST_REPLY], then[LONGEST];
    struct lingfallow_returned read = lingfallow_analyse(bytes, length, room, sizeof room);
    memcpy(then, bytes, length);
    if (read.number == 0 && then[METHOD] == 0) {
        then[METHOD] = 2;
    }
    return converts(bytes, length, read.number, read.number == 0 ? 0 : read.value, then);
}

/* The plan with method 0, cut at every place, and with every value in the place of every byte. */
static bool damaged_converts(const uint8_t *bytes, size_t length) {
    bool all = true;
    uint8_t damaged[SEVEN_LENGTH];
    for (size_t at = 0; at < length; at++) {
        memcpy(damaged, bytes, length);
        damaged[METHOD] = 0;
        all = all && converts_as_read(damaged, at);
        for (unsigned value = 0; value < 256; value++) {
            damaged[at] = (uint8_t)value;
            all = all && converts_as_read(damaged, length);
        }
    }
    return all;
}

static bool null_converted(void) {
    struct lingfallow_returned returned = lingfallow_convert(NULL, 0);
    return returned.number == 1 && returned.value == 0;
}

static void convert_p(void) {
    lingfallow_convert(plan, P_LENGTH);
}

static void write_p(void) {
    lingfallow_write(numbers, written, WRITE_ROOM);
}

static void analyse_p(void) {
    lingfallow_analyse(plan, P_LENGTH, reply, ROOM);
}

/* The call runs on a stack of its own, filled beforehand: what changed of it was used. It grows downwards. */
static size_t stack_used(void (*call)(void)) {
    memset(stack, HELD, STACK_LENT);
    expect(getcontext(&callee) == 0, "there is a context");
    callee.uc_stack.ss_sp = stack;
    callee.uc_stack.ss_size = STACK_LENT;
    callee.uc_link = &caller;
    makecontext(&callee, call, 0);
    expect(swapcontext(&caller, &callee) == 0, "the call comes back");
    size_t untouched = 0;
    while (untouched < STACK_LENT && stack[untouched] == HELD) {
        untouched++;
    }
    return STACK_LENT - untouched;
}

static void check_analysing(void) {
    expect(gives(P_LENGTH, 50, 11, 0, 0), "a buffer of 50 bytes is too short and stays as it was");
    expect(gives(P_LENGTH, 51, 0, 51, P_REPLY), "a buffer of 51 bytes holds the reply; nothing behind it changes");
    expect(gives(P_LENGTH, ROOM, 0, 51, P_REPLY), "a longer buffer keeps its further bytes");
    expect(gives(78, ROOM, 1, 78, 0), "without the end record P is refused and the buffer stays as it was");
    expect(gives(0, ROOM, 1, 0, 0), "no bytes are refused and the buffer stays as it was");
    expect(null_gives(NULL, 0, 1, 0), "two null pointers of length 0 are an empty plan and an empty buffer");
    expect(null_gives(plan, P_LENGTH, 11, 0), "a null pointer of length 0 is a buffer that is too short");
}

static void check_writing(void) {
    expect(writes(3, P_LENGTH - 1, 11, 0, 0), "a buffer of 80 bytes is too short for P and stays as it was");
    expect(writes(3, P_LENGTH, 0, P_LENGTH, P_LENGTH), "a buffer of 81 bytes holds P; nothing behind it changes");
    expect(writes(3, WRITE_ROOM, 0, P_LENGTH, P_LENGTH), "a longer buffer keeps its further bytes");
    expect(writes(4, WRITE_ROOM, 31, 83, 0), "a fourth flow of zeros has no priority, and the buffer stays as it was");
    expect(writes_with(PRIORITY_FLITS, 3, P_LENGTH, 11, 0, 0), "a buffer of 81 bytes is too short with a seventh byte");
    expect(writes_with(PRIORITY_FLITS, 3, WRITE_ROOM, 0, SEVEN_LENGTH, SEVEN_LENGTH), "2 priority flits are written");
    expect(writes_with(9, 3, WRITE_ROOM, 26, SEVENTH, 0), "9 priority flits are refused, and the buffer stays");
    expect(writes_with(255, 3, WRITE_ROOM, 26, SEVENTH, 0), "so are 255");
    fill_flows();
    expect(writes(64, WRITE_ROOM, 11, 0, 0), "64 flows are not refused, but for the buffer's length");
    expect(writes(65, WRITE_ROOM, 6, 1481, 0), "a 65th flow is refused at its place");
    expect(writes_with(PRIORITY_FLITS, 65, WRITE_ROOM, 6, 1482, 0), "with priority flits that is one byte later");
    numbers.platform.priority_flits = 0;
    numbers.count = 3;
    expect(null_written(), "a null pointer of length 0 is a buffer that is too short for a plan");
}

/* The plan, which has method 3, with method 0 and with 2. */
static void check_method_0(const uint8_t *bytes, size_t length) {
    uint8_t stored[LONGEST + 1], converted[LONGEST];
    memcpy(stored, bytes, length);
    memcpy(converted, bytes, length);
    stored[METHOD] = 0;
    stored[length] = 0;
    converted[METHOD] = 2;
    expect(converts(stored, length, 0, 0, converted), "method 0 becomes 2, and no other byte changes");
    expect(converts(converted, length, 0, 0, converted), "method 2 stays, and so does every other byte");
    expect(converts(bytes, length, 0, 0, bytes), "so does method 3");
    expect(converts(stored, length - 3, 1, length - 3, stored), "without its end record it is refused and stays");
    expect(converts(stored, length + 1, 10, length, stored), "with a byte behind it, too");
}

/* The longest plan is one of 64 flows with priority flits. */
static void check_converting(void) {
    uint8_t longest[LONGEST];
    struct lingfallow_plan most = numbers;
    most.platform.priority_flits = PRIORITY_FLITS;
    most.count = LINGFALLOW_MOST_FLOWS;
    expect(lingfallow_write(most, longest, LONGEST).value == LONGEST, "64 flows with a seventh byte have 1,485 bytes");
    check_method_0(plan, P_LENGTH);
    check_method_0(plan_with_seven, SEVEN_LENGTH);
    check_method_0(longest, LONGEST);
    expect(damaged_converts(plan, P_LENGTH), "P in any damage is converted or refused as it is read");
    expect(damaged_converts(plan_with_seven, SEVEN_LENGTH), "so it is with a seventh byte");
    expect(null_converted(), "a null pointer of length 0 is an empty plan to convert");
}

static void check_stack(void) {
    size_t analysing = stack_used(analyse_p), writing = stack_used(write_p), converting = stack_used(convert_p);
    expect(analysing < ANALYSE_STACK, "an analysis takes under 48 KiB of stack");
    expect(writing < WRITE_STACK, "a writing takes under 16 KiB of stack");
    expect(converting < CONVERT_STACK, "a conversion takes under 1 KiB of stack");
    printf("memory: every byte as promised, %zu bytes of stack to analyse, %zu to write, %zu to convert\n", analysing,
           writing, converting);
}

int main(void) {
    expect(fread(plan, 1, P_LENGTH, stdin) == P_LENGTH && getchar() == EOF, "standard input has the 81 bytes of P");
    put_seven();
    check_analysing();
    check_writing();
    check_converting();
    check_stack();
    return 0;
}
