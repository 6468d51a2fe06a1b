/* The stack of one call: stack PLAN... prints for each plan its path and the bytes that each subject used. */
#define _XOPEN_SOURCE 700
#include <string.h>
#include <ucontext.h>

#include "subjects.h"

enum { LENT = 256 * 1024, HELD = 0xA5 };

static uint8_t stack[LENT], bytes[ROOM], reply[LINGFALLOW_LONGEST_REPLY];
static size_t length;
static const struct subject *subject;
static ucontext_t caller, callee;

static void analyse(void) { subject->analyse(bytes, length, reply, sizeof reply); }

/* The call runs on a stack of its own, filled beforehand: what changed of it was used. It grows downwards. */
static size_t stack_used(void) {
    memset(stack, HELD, LENT);
    if (getcontext(&callee) != 0) exit(2);
    callee.uc_stack.ss_sp = stack;
    callee.uc_stack.ss_size = LENT;
    callee.uc_link = &caller;
    makecontext(&callee, analyse, 0);
    if (swapcontext(&caller, &callee) != 0) exit(2);
    size_t untouched = 0;
    while (untouched < LENT && stack[untouched] == HELD) {
        untouched++;
    }
    return LENT - untouched;
}

int main(int count, char **words) {
    for (int k = 1; k < count; k++) {
        length = load_plan(words[k], bytes);
        printf("%s", words[k]);
        for (subject = subjects; subject < subjects + SUBJECTS; subject++) {
            printf(" %zu", stack_used());
        }
        printf("\n");
    }
    return 0;
}
