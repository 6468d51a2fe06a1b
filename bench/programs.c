/* Times whole programs: programs PLAN PROGRAM... runs them in turns with the plan as standard input, and prints the
 * least microseconds of processor time of each, start-up included.
 */
#define _DEFAULT_SOURCE
#include <fcntl.h>
#include <stdio.h>
#include <stdlib.h>
#include <sys/resource.h>
#include <sys/wait.h>
#include <unistd.h>

enum { MOST_PROGRAMS = 8, TURNS_FEWEST = 5, TURNS_MOST = 300 };
static const double LONGEST = 1e6; /* microseconds for all turns, unless the fewest take longer */

static void fail(const char *what) {
    perror(what);
    exit(2);
}

static void become(const char *plan, char *program) {
    int in = open(plan, O_RDONLY), out = open("/dev/null", O_WRONLY);
    if (in < 0 || out < 0 || dup2(in, STDIN_FILENO) < 0 || dup2(out, STDOUT_FILENO) < 0) fail(plan);
    char *words[] = {program, NULL};
    execv(program, words);
    fail(program);
}

static double microseconds(struct timeval t) { return (double)t.tv_sec * 1e6 + (double)t.tv_usec; }

static double run_once(const char *plan, char *program) {
    int status;
    struct rusage used;
    pid_t child = fork();
    if (child < 0) fail("fork");
    if (child == 0) become(plan, program);
    if (wait4(child, &status, 0, &used) != child || status != 0) fail(program);
    return microseconds(used.ru_utime) + microseconds(used.ru_stime);
}

int main(int count, char **words) {
    double least[MOST_PROGRAMS], spent = 0;
    int programs = count - 2;
    if (programs < 1 || programs > MOST_PROGRAMS) return 2;
    for (int turn = 0; turn < TURNS_FEWEST || (turn < TURNS_MOST && spent < LONGEST); turn++) {
        for (int k = 0; k < programs; k++) {
            double one = run_once(words[1], words[2 + k]);
            least[k] = turn == 0 || one < least[k] ? one : least[k];
            spent += one;
        }
    }
    for (int k = 0; k < programs; k++) {
        printf("%s%.0f", k == 0 ? "" : " ", least[k]);
    }
    printf("\n");
    return 0;
}
