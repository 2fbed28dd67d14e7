/* Times the check of the archive and the plain one on the same accepted pairs, in alternation, and measures the stack of each
 * function, with these and with damaged texts.
 *
 * With no argument it prints the tables. `bench show NAME FOLDER` writes the two texts of a pair into a folder. `bench archive
 * NAME N` and `bench plain NAME N` only make the pairs and call one of the checks N times, for a profile. */
#define _GNU_SOURCE
#include <pthread.h>
#include <stdbool.h>
#include <stdio.h>
#include <stdlib.h>
#include <string.h>
#include <sys/mman.h>
#include <time.h>

#include "pairs.h"
#include "plain.h"
#include "walnutgleam.h"

enum { BATCHES = 41, STACK_BYTES = 4 << 20, PAINT = 0xA5 };

typedef uint32_t check_function(const uint8_t *, size_t, const uint8_t *, size_t);

static check_function *const checks[2] = {walnutgleam_check, plain_check};
static struct pair pairs[PAIRS];
static volatile uint32_t sink;

static uint32_t call(check_function *check, const struct pair *p) {
    return check(p->history.bytes, p->history.length, p->certificate.bytes, p->certificate.length);
}

static double now(void) {
    struct timespec t;
    clock_gettime(CLOCK_MONOTONIC, &t);
    return (double)t.tv_sec + 1e-9 * (double)t.tv_nsec;
}

/* The seconds that so many calls take. */
static double batch(check_function *check, const struct pair *p, unsigned calls) {
    const double start = now();
    for (unsigned i = 0; i < calls; i++) sink += call(check, p);
    return now() - start;
}

/* How many calls take about 5 milliseconds. */
static unsigned calls_of(check_function *check, const struct pair *p) {
    unsigned calls = 1;
    for (;;) {
        const double t = batch(check, p, calls);
        if (t > 1e-3) return 1 + (unsigned)((double)calls * 5e-3 / t);
        calls *= 2;
    }
}

/* Each round times one batch of each check on each pair, so that a noisy moment of the machine does not fall on one pair alone. */
static void print_times(void) {
    unsigned calls[PAIRS][2];
    double best[PAIRS][2];
    for (unsigned i = 0; i < PAIRS; i++) {
        for (unsigned c = 0; c < 2; c++) {
            calls[i][c] = calls_of(checks[c], &pairs[i]);
            best[i][c] = 1e9;
        }
    }
    for (unsigned k = 0; k < BATCHES; k++) {
        for (unsigned i = 0; i < PAIRS; i++) {
            for (unsigned c = 0; c < 2; c++) {
                const double t = batch(checks[c], &pairs[i], calls[i][c]) / calls[i][c];
                if (t < best[i][c]) best[i][c] = t;
            }
        }
    }
    printf("best of %d batches of about 5 ms each, in alternation; texts in bytes\n", (int)BATCHES);
    printf("%-18s %8s %12s %15s %10s %7s\n", "pair", "history", "certificate", "walnutgleam us", "plain us", "ratio");
    for (unsigned i = 0; i < PAIRS; i++) {
        const struct pair *p = &pairs[i];
        printf("%-18s %8zu %12zu %15.2f %10.2f %7.2f\n", p->name, p->history.length, p->certificate.length, best[i][0] * 1e6,
               best[i][1] * 1e6, best[i][0] / best[i][1]);
    }
}

struct visit {
    check_function *check;
    const struct pair *pair;
    const uint8_t *top; /* the place of the stack where the call is made */
};

static void *visit(void *given) {
    struct visit *v = given;
    v->top = __builtin_frame_address(0);
    sink += call(v->check, v->pair);
    return NULL;
}

/* How many bytes of stack one call takes: it runs in a thread whose stack was painted, and the lowest byte that has changed says
 * how deep it went. */
static size_t stack_of(check_function *check, const struct pair *p) {
    uint8_t *stack = mmap(NULL, STACK_BYTES, PROT_READ | PROT_WRITE, MAP_PRIVATE | MAP_ANONYMOUS, -1, 0);
    if (stack == MAP_FAILED) abort();
    memset(stack, PAINT, STACK_BYTES);
    struct visit v = {check, p, NULL};
    pthread_attr_t attributes;
    pthread_t thread;
    if (pthread_attr_init(&attributes) != 0 || pthread_attr_setstack(&attributes, stack, STACK_BYTES) != 0 ||
        pthread_create(&thread, &attributes, visit, &v) != 0 || pthread_join(thread, NULL) != 0)
        abort();
    pthread_attr_destroy(&attributes);
    size_t lowest = 0;
    while (stack[lowest] == PAINT) lowest++;
    const size_t depth = (size_t)(v.top - (stack + lowest));
    munmap(stack, STACK_BYTES);
    return depth;
}

/* The other functions of the header on a pair, each as a check is called. Weakening goes to each criterion. */
static uint32_t places[7];
static uint8_t buffer[32768];
static uint64_t length;

static uint32_t verdict(const uint8_t *history, size_t n, const uint8_t *certificate, size_t m) {
    return walnutgleam_verdict(history, n, certificate, m, places, 7);
}

static uint32_t weaken(const uint8_t *history, size_t n, const uint8_t *certificate, size_t m) {
    uint32_t answers = 0;
    for (uint32_t wanted = 0; wanted <= 5; wanted++)
        answers += walnutgleam_weaken(history, n, certificate, m, wanted, buffer, sizeof buffer, &length);
    return answers;
}

static uint32_t sequential(const uint8_t *history, size_t n, const uint8_t *certificate, size_t m) {
    return walnutgleam_sequential(history, n, certificate, m, buffer, sizeof buffer, &length);
}

static uint32_t rewrite_history(const uint8_t *history, size_t n, const uint8_t *certificate, size_t m) {
    (void)certificate;
    (void)m;
    return walnutgleam_rewrite_history(history, n, buffer, sizeof buffer, &length);
}

static uint32_t rewrite_certificate(const uint8_t *history, size_t n, const uint8_t *certificate, size_t m) {
    return walnutgleam_rewrite_certificate(history, n, certificate, m, buffer, sizeof buffer, &length);
}

/* The most stack that a function takes on a pair as it is and with one byte of a text changed, in turn at some places of each. */
static size_t most_stack(check_function *function, const struct pair *p) {
    static struct pair damaged;
    size_t most = stack_of(function, p);
    damaged = *p;
    for (unsigned which = 0; which < 2; which++) {
        struct text *t = which == 0 ? &damaged.history : &damaged.certificate;
        for (size_t k = 0; k < 16; k++) {
            const size_t place = t->length - 1 - k * t->length / 16;
            const uint8_t byte = t->bytes[place];
            t->bytes[place] = byte == '9' ? '8' : '9';
            const size_t depth = stack_of(function, &damaged);
            t->bytes[place] = byte;
            if (depth > most) most = depth;
        }
    }
    return most;
}

static void print_stacks(void) {
    static const struct {
        const char *name;
        check_function *function;
    } functions[] = {
        {"walnutgleam_check", walnutgleam_check},
        {"walnutgleam_verdict", verdict},
        {"walnutgleam_weaken", weaken},
        {"walnutgleam_sequential", sequential},
        {"walnutgleam_rewrite_history", rewrite_history},
        {"walnutgleam_rewrite_certificate", rewrite_certificate},
        {"plain_check", plain_check},
    };
    printf("\n%-34s %s\n", "function", "most stack of one call, bytes");
    for (size_t f = 0; f < sizeof functions / sizeof functions[0]; f++) {
        size_t most = 0;
        for (unsigned i = 0; i < PAIRS; i++) {
            const size_t depth = most_stack(functions[f].function, &pairs[i]);
            if (depth > most) most = depth;
        }
        printf("%-34s %zu\n", functions[f].name, most);
    }
}

static bool save(const char *folder, const char *file, const struct text *t) {
    char path[512];
    snprintf(path, sizeof path, "%s/%s", folder, file);
    FILE *f = fopen(path, "wb");
    if (f == NULL) return false;
    const bool whole = fwrite(t->bytes, 1, t->length, f) == t->length;
    return fclose(f) == 0 && whole;
}

int main(int argc, char **argv) {
    make_pairs(pairs, 1);
    if (argc == 4) {
        const struct pair *p = NULL;
        for (unsigned i = 0; i < PAIRS; i++)
            if (strcmp(pairs[i].name, argv[2]) == 0) p = &pairs[i];
        if (p == NULL) return 2;
        if (strcmp(argv[1], "show") == 0)
            return save(argv[3], "history.txt", &p->history) && save(argv[3], "certificate.txt", &p->certificate) ? 0 : 1;
        check_function *check = strcmp(argv[1], "plain") == 0 ? plain_check : walnutgleam_check;
        for (int k = atoi(argv[3]); k > 0; k--) sink += call(check, p);
        return 0;
    }
    for (unsigned i = 0; i < PAIRS; i++) {
        const uint32_t a = call(walnutgleam_check, &pairs[i]);
        const uint32_t b = call(plain_check, &pairs[i]);
        if (a != 0 || b != 0) {
            printf("%s is not accepted: walnutgleam %u, plain %u\n", pairs[i].name, (unsigned)a, (unsigned)b);
            return 1;
        }
    }
    print_times();
    print_stacks();
    return 0;
}
