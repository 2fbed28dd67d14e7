/* Histories with certificates that are accepted, made from a fixed seed.
 *
 * First 64 events are drawn: process, object, op and value. Then a run of replicas is drawn: before a process does an event it
 * receives some of the events that the others have done, late and in an order that keeps what they had received
 * themselves. Then each event gets a view of what its process had received and itself, and its answer is what the
 * object gives in that view. Under pram and strict a process has one view: what it received and did, in order, and then
 * the events that it lacks. */
#include "pairs.h"

#include <stdbool.h>
#include <stdio.h>
#include <string.h>

enum { EVENTS = 64, OBJECTS = 16, PROCESSES = 8, WIDTH = 8 };
enum kind { REGISTER, QUEUE, STACK, WINDOW, CHANNEL };
enum op { WRITE, READ, PUSH, POP, PEEK };
enum site { MIXED, CHANNELS, ONE_LOADER };

static const char *const kinds[] = {"register", "queue", "stack", "window", "channel"};
static const char *const ops[] = {"write", "read", "push", "pop", "peek"};

struct answer {
    unsigned length;
    unsigned values[WIDTH];
};

struct event {
    unsigned process;
    unsigned object;
    enum op op;
    unsigned value;
    struct answer answer;
};

struct list {
    unsigned length;
    unsigned events[EVENTS];
};

struct run {
    unsigned processes;
    unsigned objects;
    enum kind kinds[OBJECTS];
    unsigned widths[OBJECTS];
    struct event events[EVENTS];
    uint64_t past[EVENTS];           /* what the event's process had received or done before it */
    struct list received[PROCESSES]; /* what each process received and did, in order */
    struct list views[EVENTS];       /* the view that gives each event its answer */
};

unsigned below(uint64_t *seed, unsigned bound) {
    uint64_t z = *seed += UINT64_C(0x9E3779B97F4A7C15);
    z = (z ^ (z >> 30)) * UINT64_C(0xBF58476D1CE4E5B9);
    z = (z ^ (z >> 27)) * UINT64_C(0x94D049BB133111EB);
    z ^= z >> 31;
    return (unsigned)((z >> 32) * bound >> 32);
}

static uint64_t bit(unsigned e) { return UINT64_C(1) << e; }

static void append(struct list *l, unsigned e) { l->events[l->length++] = e; }

/* What the object of the last event of a view gives it. */
static struct answer answer_in(const struct run *r, const struct list *view) {
    const unsigned last = view->events[view->length - 1];
    const unsigned object = r->events[last].object;
    const enum kind kind = r->kinds[object];
    const unsigned read = kind == WINDOW ? r->widths[object] : 1; /* so many values are read */
    unsigned values[1 + EVENTS] = {0};
    unsigned held = kind == REGISTER ? 1 : 0;
    struct answer a = {0};
    for (unsigned i = 0; i < view->length; i++) {
        const struct event *e = &r->events[view->events[i]];
        if (e->object != object) continue;
        a.length = 0;
        const bool full = kind == CHANNEL && held == r->widths[object];
        if (e->op == PUSH && full)
            a.values[a.length++] = e->value;
        else if (e->op == WRITE || e->op == PUSH)
            values[held++] = e->value;
        if (e->op == WRITE && held > read) memmove(values, values + 1, --held * sizeof values[0]);
        if (e->op == READ)
            while (a.length < held) {
                a.values[a.length] = values[a.length];
                a.length++;
            }
        if ((e->op == POP || e->op == PEEK) && held > 0) {
            a.values[a.length++] = kind == STACK ? values[held - 1] : values[0];
            if (e->op == POP && kind != STACK) memmove(values, values + 1, (held - 1) * sizeof values[0]);
            if (e->op == POP) held--;
        }
    }
    return a;
}

/* The first four kinds in turn; or channels of one to three slots, onto which more is pushed than they hold; or all kinds
 * in turn, with one process that does every update. */
static void draw_events(struct run *r, uint64_t *seed, enum site site) {
    for (unsigned o = 0; o < r->objects; o++) {
        r->kinds[o] = site == CHANNELS ? CHANNEL : (enum kind)(o % (site == ONE_LOADER ? 5 : 4));
        r->widths[o] = r->kinds[o] == CHANNEL ? 1 + o % 3 : r->kinds[o] == WINDOW ? 2 + o % 7 : 0;
    }
    for (unsigned i = 0; i < EVENTS; i++) {
        struct event *e = &r->events[i];
        e->process = below(seed, r->processes);
        e->object = below(seed, r->objects);
        const unsigned which = below(seed, 10);
        const enum kind kind = r->kinds[e->object];
        if (kind == REGISTER || kind == WINDOW)
            e->op = which < 5 ? WRITE : READ;
        else if (kind == CHANNEL)
            e->op = which < 7 ? PUSH : which < 9 ? POP : PEEK;
        else
            e->op = which < 5 ? PUSH : which < 8 ? POP : PEEK;
        e->value = e->op == WRITE || e->op == PUSH ? below(seed, 65536) : 0;
        if (site == ONE_LOADER && e->op != READ && e->op != PEEK) e->process = 0;
    }
}

/* A process receives each event that it lacks and that nothing it lacks comes before, with a chance of so many in 100. Under pram
 * only the earlier events of the same process come before an event, else its whole past does. */
static void draw_run(struct run *r, uint64_t *seed, unsigned chance, bool pram) {
    uint64_t known[PROCESSES] = {0};
    uint64_t done[PROCESSES] = {0};
    uint64_t before[EVENTS];
    memset(r->received, 0, sizeof r->received);
    for (unsigned e = 0; e < EVENTS; e++) {
        const unsigned p = r->events[e].process;
        for (unsigned f = 0; f < e; f++) {
            if (known[p] & bit(f) || before[f] & ~known[p] || below(seed, 100) >= chance) continue;
            known[p] |= bit(f);
            append(&r->received[p], f);
        }
        r->past[e] = known[p];
        before[e] = pram ? done[p] : known[p];
        known[p] |= bit(e);
        done[p] |= bit(e);
        append(&r->received[p], e);
        r->views[e] = r->received[p];
    }
}

/* The past of each event in rising order, then the event. */
static void rising_views(struct run *r) {
    for (unsigned e = 0; e < EVENTS; e++) {
        r->views[e].length = 0;
        for (unsigned f = 0; f < EVENTS; f++)
            if ((r->past[e] | bit(e)) & bit(f)) append(&r->views[e], f);
    }
}

/* The past of each event in a drawn order that extends the pasts, then the event. */
static void drawn_views(struct run *r, uint64_t *seed) {
    for (unsigned e = 0; e < EVENTS; e++) {
        uint64_t left = r->past[e];
        r->views[e].length = 0;
        while (left != 0) {
            unsigned ready[EVENTS];
            unsigned many = 0;
            for (unsigned f = 0; f < EVENTS; f++)
                if (left & bit(f) && !(r->past[f] & left)) ready[many++] = f;
            const unsigned f = ready[below(seed, many)];
            left &= ~bit(f);
            append(&r->views[e], f);
        }
        append(&r->views[e], e);
    }
}

static void put(struct text *t, const char *s) {
    const size_t n = strlen(s);
    memcpy(t->bytes + t->length, s, n);
    t->length += n;
}

static void put_number(struct text *t, unsigned n, const char *behind) {
    char spelt[16];
    snprintf(spelt, sizeof spelt, "%u", n);
    put(t, spelt);
    put(t, behind);
}

static void put_list(struct text *t, const unsigned *items, unsigned length) {
    for (unsigned i = 0; i < length; i++) put_number(t, items[i], i + 1 < length ? "," : "");
    put(t, length == 0 ? "-\n" : "\n");
}

static void put_history(struct text *t, const struct run *r) {
    t->length = 0;
    put(t, "object kind width\n");
    for (unsigned o = 0; o < r->objects; o++) {
        put_number(t, o, " ");
        put(t, kinds[r->kinds[o]]);
        put(t, " ");
        put_list(t, &r->widths[o], r->widths[o] != 0 ? 1 : 0);
    }
    put(t, "event process object op value answer\n");
    for (unsigned i = 0; i < EVENTS; i++) {
        const struct event *e = &r->events[i];
        put_number(t, i, " ");
        put_number(t, e->process, " ");
        put_number(t, e->object, " ");
        put(t, ops[e->op]);
        put(t, " ");
        if (e->op == WRITE || e->op == PUSH)
            put_number(t, e->value, " ");
        else
            put(t, "- ");
        put_list(t, e->answer.values, e->answer.length);
    }
}

static void put_view(struct text *t, unsigned number, const struct list *view) {
    put_number(t, number, " ");
    put_list(t, view->events, view->length);
}

static void put_pasts(struct text *t, const struct run *r) {
    put(t, "event past\n");
    for (unsigned e = 0; e < EVENTS; e++) {
        struct list past = {0};
        for (unsigned f = 0; f < EVENTS; f++)
            if (r->past[e] & bit(f)) append(&past, f);
        put_view(t, e, &past);
    }
}

/* For each process with events what it received and did, in order, and then the events that it lacks: they are in
 * rising order, so that each comes behind its past. */
static void put_process_views(struct text *t, const struct run *r) {
    for (unsigned p = 0; p < r->processes; p++) {
        struct list view = r->received[p];
        if (view.length == 0) continue; /* a process that does no event receives none */
        uint64_t known = 0;
        for (unsigned i = 0; i < view.length; i++) known |= bit(view.events[i]);
        for (unsigned e = 0; e < EVENTS; e++)
            if (!(known & bit(e))) append(&view, e);
        put_view(t, p, &view);
    }
}

static void make_pair(struct pair *pair, const char *name, const char *criterion, unsigned processes, unsigned objects,
                      unsigned chance, enum site site, uint64_t *seed) {
    static struct run run;
    struct run *r = &run;
    memset(r, 0, sizeof *r);
    r->processes = processes;
    r->objects = objects;
    const bool pram = strcmp(criterion, "pram") == 0;
    const bool weak = strcmp(criterion, "weak") == 0;
    const bool causal = strcmp(criterion, "causal") == 0;
    const bool converge = strcmp(criterion, "converge") == 0;
    const bool strict = strcmp(criterion, "strict") == 0;
    draw_events(r, seed, site);
    draw_run(r, seed, chance, pram);
    if (weak) drawn_views(r, seed);
    if (converge) rising_views(r);
    for (unsigned e = 0; e < EVENTS; e++) r->events[e].answer = answer_in(r, &r->views[e]);

    pair->name = name;
    put_history(&pair->history, r);
    struct text *t = &pair->certificate;
    t->length = 0;
    put(t, "criterion ");
    put(t, criterion);
    put(t, "\n");
    if (weak || causal || converge || strict) put_pasts(t, r);
    put(t, "view order\n");
    if (weak || causal) {
        for (unsigned e = 0; e < EVENTS; e++) put_view(t, e, &r->views[e]);
    } else if (pram || strict) {
        put_process_views(t, r);
    } else {
        struct list all = {0};
        for (unsigned e = 0; e < EVENTS; e++) append(&all, e);
        put_view(t, 0, &all);
    }
}

void make_pairs(struct pair pairs[PAIRS], uint64_t seed) {
    make_pair(&pairs[0], "sequential", "sequential", 4, 6, 100, MIXED, &seed);
    make_pair(&pairs[1], "pram", "pram", 4, 6, 40, MIXED, &seed);
    make_pair(&pairs[2], "weak", "weak", 4, 6, 40, MIXED, &seed);
    make_pair(&pairs[3], "causal", "causal", 4, 6, 40, MIXED, &seed);
    make_pair(&pairs[4], "converge", "converge", 4, 6, 40, MIXED, &seed);
    make_pair(&pairs[5], "causal-full", "causal", 8, 16, 100, MIXED, &seed);
    make_pair(&pairs[6], "channels", "causal", 4, 6, 40, CHANNELS, &seed);
    make_pair(&pairs[7], "strict", "strict", 4, 6, 40, MIXED, &seed);
    make_pair(&pairs[8], "strict-full", "strict", 8, 16, 100, MIXED, &seed);
    make_pair(&pairs[9], "one-line", "causal", 8, 16, 40, ONE_LOADER, &seed);
    make_pair(&pairs[10], "one-line-weak", "weak", 4, 6, 40, ONE_LOADER, &seed);
    make_pair(&pairs[11], "one-line-strict", "strict", 8, 16, 100, ONE_LOADER, &seed);
    make_pair(&pairs[12], "one-line-converge", "converge", 4, 6, 40, ONE_LOADER, &seed);
}
