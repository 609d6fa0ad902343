/*
 * Makes hostile calls of every exported function: inputs on which float code errs, limits, lists of any length. Each call
 * must end, write only where the header says, and answer the same in every thread.
 *
 *   hostile [OPTION VALUE]..
 *
 *   --count N        calls of each function with random inputs
 *   --seed S         decides the inputs
 *   --state NAME     the processor's state, one of STATES below; all of them, one after another, if it is not given
 *   --threads N      so many threads, each with the same inputs
 *   --only PREFIX    the functions whose names begin so
 *   --requests FILE  requests to be made first, one a line
 *   --limit SECONDS  for all calls of one function: if they take longer, the program fails
 */
#define _POSIX_C_SOURCE 200809L
#include "calls.h"
#include <inttypes.h>
#include <pthread.h>
#include <signal.h>
#include <stdio.h>
#include <stdlib.h>
#include <string.h>
#include <unistd.h>

enum { MOST_THREADS = 64 };

/*
 * The header asks for the first state, in which a program starts. In the others answers may be others, but calls must end
 * and keep to their lists.
 */
static const struct state {
    const char *name;
    unsigned mxcsr;
} STATES[] = {
    {"usual", 0x1f80},
    {"ftz", 0x9f80},     /* a subnormal result becomes 0 */
    {"daz", 0x1fc0},     /* a subnormal operand counts as 0 */
    {"ftz+daz", 0x9fc0}, /* both, as in a program linked with -ffast-math */
    {"down", 0x3f80},    /* rounding to minus infinity */
    {"up", 0x5f80},      /* to plus infinity */
    {"zero", 0x7f80},    /* to zero */
};

static struct options {
    uint64_t count, seed, threads, limit;
    const char *only, *state, *requests;
} options = {.count = 10000, .seed = 1, .threads = 1, .limit = 60, .only = "", .state = "", .requests = "/dev/null"};

static struct caller *callers[MOST_THREADS];

/* A call does not end, or reads or writes a page beside a list. */
static void stopped(int signal_number) {
    fputs(signal_number == SIGALRM ? "no end within the limit\n" : "a read or write beside a list\n", stderr);
    for (size_t i = 0; i < options.threads; i++)
        tell(callers[i], "at work");
    _exit(1);
}

static void fail(const char *what, const char *which) {
    fprintf(stderr, "%s: %s\n", what, which);
    exit(2);
}

static void make_requests(struct caller *caller) {
    char line[400];
    FILE *file = fopen(options.requests, "r");
    if (file == NULL)
        fail("no such file", options.requests);
    while (fgets(line, sizeof line, file) != NULL) {
        struct request request;
        line[strcspn(line, "\n")] = '\0';
        if (line[0] == '#')
            continue;
        if (!read_request(line, &request))
            fail("bad request", request.reason);
        if (strpbrk(request.routine->lists, "FPB") != NULL)
            fail("a request with a list that is read", request.routine->name);
        call_with(caller, &request);
        free_request(&request);
    }
    fclose(file);
}

static bool is_chosen(const struct routine *routine) {
    return strncmp(routine->function, options.only, strlen(options.only)) == 0;
}

static void *call_all(void *argument) {
    struct caller *caller = argument;
    alarm((unsigned)options.limit);
    make_requests(caller);
    for (const struct routine *routine = routines; routine < routines + routine_count; routine++)
        if (is_chosen(routine)) {
            alarm((unsigned)options.limit);
            call_often(caller, routine, options.count);
        }
    return NULL;
}

static size_t count_chosen(void) {
    size_t count = 0;
    for (const struct routine *routine = routines; routine < routines + routine_count; routine++)
        count += is_chosen(routine);
    return count;
}

/* Calls everything in one state, in each thread with the same inputs. */
static void run(const struct state *state) {
    pthread_t threads[MOST_THREADS];
    for (size_t i = 0; i < options.threads; i++) {
        caller_start(callers[i], options.seed, state->mxcsr);
        if (pthread_create(&threads[i], NULL, call_all, callers[i]) != 0)
            fail("no thread", state->name);
    }
    for (size_t i = 0; i < options.threads; i++)
        pthread_join(threads[i], NULL);
    for (size_t i = 1; i < options.threads; i++)
        if (callers[i]->digest != callers[0]->digest)
            fail("other answers in another thread", state->name);
    printf("%s: %zu functions, %" PRIu64 " calls each, answers %016" PRIx64 "\n", state->name, count_chosen(),
           options.count, callers[0]->digest);
    fflush(stdout);
}

static void read_options(char **words) {
    const struct {
        const char *name;
        uint64_t *number;
        const char **text;
    } known[] = {
        {"--count", &options.count, NULL},     {"--seed", &options.seed, NULL},   {"--threads", &options.threads, NULL},
        {"--limit", &options.limit, NULL},     {"--only", NULL, &options.only},   {"--state", NULL, &options.state},
        {"--requests", NULL, &options.requests},
    };
    for (; words[0] != NULL; words += 2) {
        size_t i = 0;
        while (i < sizeof known / sizeof known[0] && strcmp(words[0], known[i].name) != 0)
            i++;
        if (i == sizeof known / sizeof known[0] || words[1] == NULL)
            fail("no such option, or no value", words[0]);
        if (known[i].number != NULL)
            *known[i].number = strtoull(words[1], NULL, 10);
        else
            *known[i].text = words[1];
    }
    if (options.threads < 1 || options.threads > MOST_THREADS)
        fail("not from 1 to 64", "--threads");
}

int main(int argc, char **argv) {
    (void)argc;
    read_options(argv + 1);
    struct sigaction action = {.sa_handler = stopped};
    sigaction(SIGALRM, &action, NULL);
    sigaction(SIGSEGV, &action, NULL);
    for (size_t i = 0; i < options.threads; i++)
        callers[i] = calloc(1, sizeof *callers[i]);
    for (size_t i = 0; i < sizeof STATES / sizeof STATES[0]; i++)
        if (options.state[0] == '\0' || strcmp(options.state, STATES[i].name) == 0)
            run(&STATES[i]);
    return 0;
}
