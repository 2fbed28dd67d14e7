/* A plain check in C and the writing of one line, with no proof: the measure of the benchmark, and no part of the product.
 *
 * Each text is read in one pass, a byte at a time. A set of events is 64 bits. A replay keeps an array of values for each object.
 * Of the check only the answer's number is given, so where a rule asks for the lowest event or view any one of them will do. */
#include "plain.h"

#include <stdbool.h>
#include <string.h>

enum {
    HISTORY_BYTES = 16384,
    CERTIFICATE_BYTES = 32768,
    OBJECTS = 16,
    EVENTS = 64,
    PROCESSES = 8,
    WIDTH = 8,
    CAPACITY = 64,
    VALUES = 65536,
    LARGE = 100000, /* a number that has come so far is over every limit, and its further digits are only passed over */
};

enum kind { REGISTER, QUEUE, STACK, WINDOW, CHANNEL, NO_KIND };
enum op { WRITE, READ, PUSH, POP, PEEK, OFFER, NO_OP }; /* an offer is a push onto a channel, which may be full */
enum criterion { PRAM, WEAK, CAUSAL, CONVERGE, SEQUENTIAL, STRICT, NO_CRITERION };

struct object {
    uint8_t kind;
    uint8_t width; /* how many values a read answers, or a channel holds, at most */
};

struct event {
    uint8_t process;
    uint8_t object;
    uint8_t op;
    uint8_t answered; /* the length of the answer */
    uint16_t value;
    uint16_t answer[WIDTH];
};

struct history {
    unsigned declared;
    unsigned count;
    struct object objects[OBJECTS];
    struct event events[EVENTS];
    uint64_t lost;                  /* the events whose answer is lost */
    uint64_t of_process[PROCESSES]; /* the events of each process */
    uint64_t earlier[EVENTS];       /* the earlier events of the same process */
};

struct view {
    unsigned length;
    uint64_t set;
    uint8_t events[EVENTS];
};

struct certificate {
    enum criterion criterion;
    unsigned views;
    uint8_t numbers[EVENTS]; /* the number of each view: of a process or of an event */
    uint64_t past[EVENTS];
    struct view view[EVENTS];
};

/* The lines of a text that have their line feed. A scan that stops at the first byte that it does not want cannot leave them. */
struct lines {
    const uint8_t *at;
    const uint8_t *end;
    bool rest; /* whether bytes without a line feed come behind the end */
};

static uint64_t bit(unsigned e) { return UINT64_C(1) << e; }

static struct lines lines_of(const uint8_t *text, size_t length) {
    const uint8_t *end = text + length;
    while (end != text && end[-1] != '\n') end--;
    return (struct lines){text, end, end != text + length};
}

/* Passes over a word, if it stands here. */
static inline bool pass(struct lines *t, const char *word, size_t length) {
    if ((size_t)(t->end - t->at) < length || memcmp(t->at, word, length) != 0) return false;
    t->at += length;
    return true;
}
#define PASS(t, word) pass(t, word, sizeof word - 1)

/* Passes over a number, if one stands here. A zero before other digits ends the number, and the digit behind it is then wrong. */
static inline bool digits(struct lines *t, uint32_t *value) {
    const uint8_t *p = t->at;
    uint32_t v = (uint32_t)*p - '0';
    *value = v;
    if (v > 9) return false;
    p++;
    if (v != 0) {
        for (uint32_t digit; (digit = (uint32_t)*p - '0') <= 9; p++)
            if (v < LARGE) v = v * 10 + digit;
    }
    *value = v;
    t->at = p;
    return true;
}

/* Passes over a number and the byte behind it. */
static inline bool number(struct lines *t, uint8_t behind, uint32_t *value) {
    return digits(t, value) && *t->at++ == behind;
}

/* Passes over a number of a list and the comma behind it, or the line feed, which ends the list. */
static inline bool item(struct lines *t, uint32_t *value, bool *last) {
    if (!digits(t, value)) return false;
    const uint8_t behind = *t->at++;
    *last = behind == '\n';
    return *last || behind == ',';
}

static enum kind read_kind(struct lines *t) {
    if (PASS(t, "register ")) return REGISTER;
    if (PASS(t, "queue ")) return QUEUE;
    if (PASS(t, "stack ")) return STACK;
    if (PASS(t, "window ")) return WINDOW;
    if (PASS(t, "channel ")) return CHANNEL;
    return NO_KIND;
}

static enum op read_op(struct lines *t) {
    if (PASS(t, "write ")) return WRITE;
    if (PASS(t, "read ")) return READ;
    if (PASS(t, "push ")) return PUSH;
    if (PASS(t, "pop ")) return POP;
    if (PASS(t, "peek ")) return PEEK;
    return NO_OP;
}

static enum criterion read_criterion(struct lines *t) {
    if (PASS(t, "criterion pram\n")) return PRAM;
    if (PASS(t, "criterion weak\n")) return WEAK;
    if (PASS(t, "criterion causal\n")) return CAUSAL;
    if (PASS(t, "criterion converge\n")) return CONVERGE;
    if (PASS(t, "criterion sequential\n")) return SEQUENTIAL;
    if (PASS(t, "criterion strict\n")) return STRICT;
    return NO_CRITERION;
}

/* Reads the line of the next object. */
static uint32_t read_object(struct history *h, struct lines *t) {
    uint32_t own;
    uint32_t width = 1;
    if (!number(t, ' ', &own) || own != h->declared) return 2;
    const enum kind kind = read_kind(t);
    if (kind == NO_KIND) return 2;
    const bool dash = PASS(t, "-\n");
    if (!dash && !number(t, '\n', &width)) return 2;
    if (own >= OBJECTS || width == 0 || width > (kind == CHANNEL ? CAPACITY : WIDTH)) return 3;
    if (dash == (kind == WINDOW || kind == CHANNEL)) return 4;
    h->objects[h->declared++] = (struct object){(uint8_t)kind, (uint8_t)width};
    return 0;
}

/* Whether an op of an object can answer so many values. */
static bool can_answer(struct object o, enum op op, uint32_t length) {
    if (op == READ) return o.kind == WINDOW ? length <= o.width : length == 1;
    if (op == POP || op == PEEK || op == OFFER) return length <= 1;
    return length == 0;
}

/* Reads the line of the next event. */
static uint32_t read_event(struct history *h, struct lines *t) {
    uint32_t own, process, object;
    uint32_t value = 0;
    if (!number(t, ' ', &own) || own != h->count) return 2;
    if (!number(t, ' ', &process)) return 2;
    if (!number(t, ' ', &object)) return 2;
    enum op op = read_op(t);
    if (op == NO_OP) return 2;
    const bool dash = PASS(t, "- ");
    if (!dash && !number(t, ' ', &value)) return 2;

    struct event e;
    uint32_t length = 0;
    bool over = false;
    bool lost = false;
    if (!PASS(t, "-\n") && !(lost = PASS(t, "?\n"))) {
        for (bool last = false; !last; length++) {
            uint32_t v;
            if (!item(t, &v, &last)) return 2;
            if (v >= VALUES) over = true;
            if (length < WIDTH) e.answer[length] = (uint16_t)v;
        }
    }
    if (over || own >= EVENTS || process >= PROCESSES || object >= h->declared || value >= VALUES) return 3;
    const struct object o = h->objects[object];
    const bool pushes = o.kind == QUEUE || o.kind == STACK || o.kind == CHANNEL; /* the kinds with push, pop and peek */
    if (pushes == (op == WRITE || op == READ)) return 4;
    if (dash == (op == WRITE || op == PUSH)) return 4;
    if (op == PUSH && o.kind == CHANNEL) op = OFFER;
    if (!lost && !can_answer(o, op, length)) return 5;

    e.process = (uint8_t)process;
    e.object = (uint8_t)object;
    e.op = (uint8_t)op;
    e.answered = (uint8_t)length;
    e.value = (uint16_t)value;
    h->events[own] = e;
    if (lost) h->lost |= bit(own);
    h->earlier[own] = h->of_process[process];
    h->of_process[process] |= bit(own);
    h->count++;
    return 0;
}

static uint32_t read_history(struct history *h, const uint8_t *text, size_t length) {
    if (length > HISTORY_BYTES) return 1;
    struct lines t = lines_of(text, length);
    h->declared = 0;
    h->count = 0;
    h->lost = 0;
    memset(h->of_process, 0, sizeof h->of_process);
    if (!PASS(&t, "object kind width\n")) return 2;
    while (!PASS(&t, "event process object op value answer\n")) {
        if (t.at == t.end) return 2;
        const uint32_t fault = read_object(h, &t);
        if (fault != 0) return fault;
    }
    while (t.at != t.end) {
        const uint32_t fault = read_event(h, &t);
        if (fault != 0) return fault;
    }
    return t.rest ? 2 : 0;
}

/* Reads the line of the past of event e, in a history with so many events. */
static uint32_t read_past(struct lines *t, unsigned e, unsigned count, uint64_t *past) {
    uint32_t own;
    uint64_t set = 0;
    *past = 0;
    if (t->at == t->end || !number(t, ' ', &own) || own != e) return 2;
    if (PASS(t, "-\n")) return 0;
    uint32_t length = 0;
    uint32_t next = 0; /* the least that the next entry may be */
    bool over = false;
    bool rising = true;
    for (bool last = false; !last; length++) {
        uint32_t v;
        if (!item(t, &v, &last)) return 2;
        if (v >= count) {
            over = true;
        } else {
            if (v < next) rising = false;
            next = v + 1;
            set |= bit(v);
        }
    }
    if (over || length > count) return 3;
    if (!rising) return 6;
    *past = set;
    return 0;
}

/* Reads the line of the view with this number, in a history with so many events. */
static uint32_t read_view(struct lines *t, unsigned view, unsigned count, struct view *w) {
    uint32_t own;
    uint32_t length = 0;
    uint64_t set = 0;
    bool over = false;
    if (t->at == t->end || !number(t, ' ', &own) || own != view) return 2;
    if (!PASS(t, "-\n")) {
        for (bool last = false; !last; length++) {
            uint32_t v;
            if (!item(t, &v, &last)) return 2;
            if (v >= count || length >= count) {
                over = true;
            } else {
                set |= bit(v);
                w->events[length] = (uint8_t)v;
            }
        }
    }
    if (over) return 3;
    w->length = length;
    w->set = set;
    return 0;
}

/* The numbers of the views that the criterion wants. */
static void number_views(struct certificate *c, const struct history *h) {
    c->views = 0;
    switch (c->criterion) {
    case PRAM:
    case STRICT:
        for (unsigned p = 0; p < PROCESSES; p++)
            if (h->of_process[p] != 0) c->numbers[c->views++] = (uint8_t)p;
        break;
    case WEAK:
    case CAUSAL:
        while (c->views < h->count) {
            c->numbers[c->views] = (uint8_t)c->views;
            c->views++;
        }
        break;
    default:
        c->numbers[c->views++] = 0;
    }
}

static bool has_pasts(enum criterion c) { return c != PRAM && c != SEQUENTIAL; }

static uint32_t read_certificate(struct certificate *c, const struct history *h, const uint8_t *text, size_t length) {
    if (length > CERTIFICATE_BYTES) return 1;
    struct lines t = lines_of(text, length);
    c->criterion = read_criterion(&t);
    if (c->criterion == NO_CRITERION) return 2;
    if (has_pasts(c->criterion)) {
        if (!PASS(&t, "event past\n")) return 2;
        for (unsigned e = 0; e < h->count; e++) {
            const uint32_t fault = read_past(&t, e, h->count, &c->past[e]);
            if (fault != 0) return fault;
        }
    }
    if (!PASS(&t, "view order\n")) return 2;
    number_views(c, h);
    for (unsigned k = 0; k < c->views; k++) {
        const uint32_t fault = read_view(&t, c->numbers[k], h->count, &c->view[k]);
        if (fault != 0) return fault;
    }
    return t.at != t.end || t.rest ? 2 : 0;
}

/* 11, 12 and 13: whether the pasts are a strict partial order that contains program order. */
static uint32_t check_pasts(const struct history *h, const uint64_t *past) {
    for (unsigned e = 0; e < h->count; e++)
        if (h->earlier[e] & ~past[e]) return 11;
    for (unsigned e = 0; e < h->count; e++)
        if (past[e] & bit(e)) return 12;
    for (unsigned e = 0; e < h->count; e++) {
        uint64_t before = 0;
        for (uint64_t left = past[e]; left != 0; left &= left - 1) before |= past[__builtin_ctzll(left)];
        if (before & ~past[e]) return 13;
    }
    return 0;
}

/* Whether an event of the view comes before one that the order has before it. */
static bool is_against(const struct view *w, const uint64_t *order) {
    uint64_t left = w->set;
    for (unsigned i = 0; i < w->length; i++) {
        const unsigned e = w->events[i];
        if (order[e] & left) return true;
        left &= ~bit(e);
    }
    return false;
}

/* Whether before one of these events of the view stands one that is not in its past. */
static bool breaks_past(const struct view *w, const uint64_t *past, uint64_t own) {
    uint64_t before = 0;
    for (unsigned i = 0; i < w->length; i++) {
        const unsigned e = w->events[i];
        if (own & bit(e) && before & ~past[e]) return true;
        before |= bit(e);
    }
    return false;
}

/* What the objects hold: values[o][head[o]] is the oldest value and values[o][tail[o] - 1] the newest. A register is a window of
 * width 1 that begins with a 0. It is written once, since a replay writes only behind it. */
struct contents {
    uint8_t start[OBJECTS]; /* where the tails begin */
    uint8_t head[OBJECTS];
    uint8_t tail[OBJECTS];
    uint16_t values[OBJECTS][1 + EVENTS];
};

static void start_contents(struct contents *s, const struct history *h) {
    memset(s->start, 0, sizeof s->start);
    for (unsigned o = 0; o < h->declared; o++) {
        if (h->objects[o].kind != REGISTER) continue;
        s->start[o] = 1;
        s->values[o][0] = 0;
    }
}

/* Replays those events of the view that are kept, and says whether it gives every visible answer. */
static bool replay(const struct history *h, struct contents *s, const struct view *w, uint64_t kept, uint64_t visible) {
    memset(s->head, 0, sizeof s->head);
    memcpy(s->tail, s->start, sizeof s->tail);
    for (unsigned i = 0; i < w->length; i++) {
        const unsigned no = w->events[i];
        if (!(kept & bit(no))) continue;
        const struct event *e = &h->events[no];
        const unsigned o = e->object;
        const bool seen = (visible & bit(no)) != 0;
        uint16_t *values = s->values[o];
        switch ((enum op)e->op) {
        case WRITE:
            values[s->tail[o]++] = e->value;
            if (s->tail[o] - s->head[o] > h->objects[o].width) s->head[o]++;
            break;
        case READ:
            if (seen && e->answered != s->tail[o] - s->head[o]) return false;
            for (unsigned k = 0; seen && k < e->answered; k++)
                if (e->answer[k] != values[s->head[o] + k]) return false;
            break;
        case PUSH:
            values[s->tail[o]++] = e->value;
            break;
        case OFFER: {
            const unsigned full = s->tail[o] - s->head[o] == h->objects[o].width;
            if (seen) {
                if (e->answered != full) return false;
                if (full && e->answer[0] != e->value) return false;
            }
            if (!full) values[s->tail[o]++] = e->value;
            break;
        }
        default: { /* pop and peek */
            const unsigned held = s->head[o] != s->tail[o];
            const bool newest = h->objects[o].kind == STACK;
            if (seen) {
                if (e->answered != held) return false;
                if (held && e->answer[0] != values[newest ? s->tail[o] - 1 : s->head[o]]) return false;
            }
            if (held && e->op == POP) {
                if (newest)
                    s->tail[o]--;
                else
                    s->head[o]++;
            }
        }
        }
    }
    return true;
}

/* 16: whether every view gives its visible answers. A lost one is visible in none. */
static bool replays_well(const struct history *h, const struct certificate *c) {
    const uint64_t all = ~UINT64_C(0);
    const uint64_t recorded = ~h->lost;
    struct contents s;
    start_contents(&s, h);
    if (c->criterion == CONVERGE) {
        for (unsigned e = 0; e < h->count; e++)
            if (!replay(h, &s, &c->view[0], c->past[e] | bit(e), bit(e) & recorded)) return false;
        return true;
    }
    for (unsigned k = 0; k < c->views; k++) {
        uint64_t visible = all;
        if (c->criterion == PRAM || c->criterion == STRICT) visible = h->of_process[c->numbers[k]];
        if (c->criterion == WEAK) visible = bit(k);
        if (c->criterion == CAUSAL) visible = h->of_process[h->events[k].process];
        if (!replay(h, &s, &c->view[k], all, visible & recorded)) return false;
    }
    return true;
}

static uint32_t read_both(struct history *h, struct certificate *c, const uint8_t *history, size_t history_length,
                          const uint8_t *certificate, size_t certificate_length) {
    const uint32_t fault = read_history(h, history, history_length);
    return fault != 0 ? fault : read_certificate(c, h, certificate, certificate_length);
}

static uint32_t check_records(const struct history *h, const struct certificate *c) {
    const bool pasts = has_pasts(c->criterion);
    if (pasts) {
        const uint32_t fault = check_pasts(h, c->past);
        if (fault != 0) return fault;
    }
    const uint64_t all = h->count == EVENTS ? ~UINT64_C(0) : bit(h->count) - 1;
    const bool each = c->criterion == WEAK || c->criterion == CAUSAL;
    for (unsigned k = 0; k < c->views; k++) {
        const uint64_t wanted = each ? c->past[k] | bit(k) : all;
        const unsigned size = (unsigned)__builtin_popcountll(wanted);
        if (c->view[k].set != wanted || c->view[k].length != size) return 14;
    }
    const uint64_t *order = pasts ? c->past : h->earlier;
    for (unsigned k = 0; k < c->views; k++)
        if (is_against(&c->view[k], order)) return 15;
    for (unsigned k = 0; c->criterion == STRICT && k < c->views; k++)
        if (breaks_past(&c->view[k], c->past, h->of_process[c->numbers[k]])) return 20;
    return replays_well(h, c) ? 0 : 16;
}

uint32_t plain_check(const uint8_t *history, size_t history_length,
                     const uint8_t *certificate, size_t certificate_length) {
    struct history h;
    struct certificate c;
    const uint32_t fault = read_both(&h, &c, history, history_length, certificate, certificate_length);
    return fault != 0 ? fault : check_records(&h, &c);
}

static bool is_update(const struct event *e) { return e->op != READ && e->op != PEEK; }

/* The events in one line, or false where two updates are unordered. An update stands at the place that the count of
 * updates in its past says; two at one place are unordered. A read or peek stands before the update of its place. */
static bool line_up(const struct history *h, const uint64_t *past, struct view *line) {
    uint64_t updates = 0;
    for (unsigned e = 0; e < h->count; e++)
        if (is_update(&h->events[e])) updates |= bit(e);
    uint64_t at[EVENTS + 1] = {0}; /* the reads and peeks of each place */
    uint8_t update[EVENTS];
    uint64_t taken = 0; /* the places that have an update */
    for (unsigned e = 0; e < h->count; e++) {
        const unsigned place = (unsigned)__builtin_popcountll(past[e] & updates);
        if (!(updates & bit(e))) {
            at[place] |= bit(e);
        } else if (taken & bit(place)) {
            return false;
        } else {
            taken |= bit(place);
            update[place] = (uint8_t)e;
        }
    }
    line->length = 0;
    for (unsigned place = 0; line->length < h->count; place++) {
        for (uint64_t left = at[place]; left != 0; left &= left - 1)
            line->events[line->length++] = (uint8_t)__builtin_ctzll(left);
        if (place < EVENTS && taken & bit(place)) line->events[line->length++] = update[place];
    }
    return true;
}

/* Room for the sequential text: at most two digits and a comma an event. */
enum { LINE_BYTES = 40 + 3 * EVENTS };

/* Writes the sequential text of a line and gives its length. */
static size_t put_line(uint8_t text[LINE_BYTES], const struct view *line) {
    static const char head[] = "criterion sequential\nview order\n0 ";
    memcpy(text, head, sizeof head - 1);
    size_t n = sizeof head - 1;
    for (unsigned i = 0; i < line->length; i++) {
        if (i > 0) text[n++] = ',';
        if (line->events[i] > 9) text[n++] = (uint8_t)('0' + line->events[i] / 10);
        text[n++] = (uint8_t)('0' + line->events[i] % 10);
    }
    if (line->length == 0) text[n++] = '-';
    text[n++] = '\n';
    return n;
}

uint32_t plain_sequential(const uint8_t *history, size_t history_length, const uint8_t *certificate, size_t certificate_length,
                          uint8_t *buffer, size_t buffer_length, uint64_t *length) {
    struct history h;
    struct certificate c;
    struct view line;
    uint8_t text[LINE_BYTES];
    *length = 0;
    uint32_t fault = read_both(&h, &c, history, history_length, certificate, certificate_length);
    if (fault != 0) return fault;
    if (!has_pasts(c.criterion)) return 17;
    fault = check_records(&h, &c);
    if (fault != 0) return fault;
    if (!line_up(&h, c.past, &line)) return 26;
    const size_t n = put_line(text, &line);
    if (buffer_length < n) return 18;
    memcpy(buffer, text, n);
    *length = n;
    return 0;
}
