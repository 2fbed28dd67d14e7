/* Compares the two checks, and the two that write one line: on the sample folders that are named as arguments, on pairs of
 * many seeds, as they are and with some answers lost, and on damaged variants of all of them. Both must give the same
 * number, and the same bytes where a line is written; where both texts are read the verdict of the archive must carry the
 * line that goes with it. Prints how often each number came.
 *
 * agree ROUNDS FOLDER...: so many damaged variants of each pair. */
#include <stdbool.h>
#include <stdio.h>
#include <stdlib.h>
#include <string.h>

#include "pairs.h"
#include "plain.h"
#include "walnutgleam.h"

enum { SEEDS = 4, NUMBERS = 32 };

static unsigned long counts[NUMBERS];
static unsigned long written[NUMBERS]; /* of the writing of one line */
static unsigned long differences;

static uint64_t seed = 2;

static unsigned draw(unsigned bound) { return below(&seed, bound); }

/* Where the heading of the events starts, or the end of a text without one. */
static size_t events_of(const struct text *t) {
    static const char heading[] = "event process object op value answer\n";
    const size_t n = sizeof heading - 1;
    size_t a = 0;
    while (a + n <= t->length && memcmp(t->bytes + a, heading, n) != 0) a++;
    return a + n <= t->length ? a : t->length;
}

/* Where the line of a place ends: at its line feed, or at the end of the text. */
static size_t end_of_line(const struct text *t, size_t a) {
    while (a < t->length && t->bytes[a] != '\n') a++;
    return a;
}

/* Whether an answer carries the line that it should: with 11 to 13 and 16 that of its event, which is found here by
 * going down from the heading of the events, and none with any other. Reading refusals are not judged here. */
static bool carries_its_line(const struct text *t, uint32_t answer, const uint32_t places[7]) {
    if (answer != 0 && answer < 11) return true;
    if (answer == 0 || (answer > 13 && answer != 16))
        return places[1] == 0 && places[2] == WALNUTGLEAM_NONE && places[5] == 0 && places[6] == 0;
    size_t a = events_of(t);
    uint32_t line = 1;
    for (size_t i = 0; i < a; i++) line += t->bytes[i] == '\n';
    for (uint32_t down = 0; down <= places[4] && a < t->length; down++) {
        a = end_of_line(t, a) + 1;
        line++;
    }
    return a < t->length && places[1] == 1 && places[2] == line && places[5] == a && places[6] == end_of_line(t, a) - a;
}

/* Whether the two that write one line give the same number, length and bytes, in a buffer that often has no room. */
static bool write_the_same(const uint8_t *h, size_t n, const uint8_t *c, size_t m) {
    static uint8_t buffers[2][256];
    uint64_t lengths[2] = {99, 99};
    const size_t room = draw(2) == 0 ? sizeof buffers[0] : draw(sizeof buffers[0]);
    memset(buffers, '.', sizeof buffers);
    const uint32_t a = walnutgleam_sequential(h, n, c, m, buffers[0], room, &lengths[0]);
    const uint32_t b = plain_sequential(h, n, c, m, buffers[1], room, &lengths[1]);
    written[a < NUMBERS ? a : NUMBERS - 1]++;
    return a == b && lengths[0] == lengths[1] && memcmp(buffers[0], buffers[1], sizeof buffers[0]) == 0;
}

static uint32_t compare(const struct pair *p) {
    /* Copies of exactly the texts' lengths, so that a tool that watches memory sees a read past an end. */
    uint8_t *h = malloc(p->history.length == 0 ? 1 : p->history.length);
    uint8_t *c = malloc(p->certificate.length == 0 ? 1 : p->certificate.length);
    if (h == NULL || c == NULL) abort();
    memcpy(h, p->history.bytes, p->history.length);
    memcpy(c, p->certificate.bytes, p->certificate.length);
    const uint32_t a = walnutgleam_check(h, p->history.length, c, p->certificate.length);
    const uint32_t b = plain_check(h, p->history.length, c, p->certificate.length);
    uint32_t places[7] = {99, 99, 99, 99, 99, 99, 99};
    const uint32_t verdict = walnutgleam_verdict(h, p->history.length, c, p->certificate.length, places, 7);
    const bool same_line = write_the_same(h, p->history.length, c, p->certificate.length);
    free(h);
    free(c);
    counts[a < NUMBERS ? a : NUMBERS - 1]++;
    const bool its_line = carries_its_line(&p->history, verdict, places);
    if (a != b || verdict != a || !its_line || !same_line) {
        differences++;
        if (differences <= 3)
            printf("walnutgleam %u, its verdict %u%s, plain %u%s on\n%.*s%.*s", (unsigned)a, (unsigned)verdict,
                   its_line ? "" : " with another line", (unsigned)b, same_line ? "" : ", and another answer or text of one line",
                   (int)p->history.length, (const char *)p->history.bytes, (int)p->certificate.length,
                   (const char *)p->certificate.bytes);
    }
    return a;
}

/* Puts other bytes in the place of those from a to b. */
static void replace(struct text *t, size_t a, size_t b, const uint8_t *bytes, size_t length) {
    if (t->length - (b - a) + length > TEXT_BYTES) return;
    memmove(t->bytes + a + length, t->bytes + b, t->length - b);
    memcpy(t->bytes + a, bytes, length);
    t->length = t->length - (b - a) + length;
}

static bool is_digit(uint8_t b) { return b >= '0' && b <= '9'; }

/* The place of some number of the text, or false. */
static bool some_number(const struct text *t, size_t *a, size_t *b) {
    for (unsigned tries = 0; tries < 50 && t->length > 0; tries++) {
        size_t i = draw((unsigned)t->length);
        if (!is_digit(t->bytes[i])) continue;
        size_t k = i;
        while (i > 0 && is_digit(t->bytes[i - 1])) i--;
        while (k < t->length && is_digit(t->bytes[k])) k++;
        *a = i;
        *b = k;
        return true;
    }
    return false;
}

/* The place of some line with its line feed. */
static void some_line(const struct text *t, size_t *a, size_t *b) {
    size_t i = t->length == 0 ? 0 : draw((unsigned)t->length);
    size_t k = i;
    while (i > 0 && t->bytes[i - 1] != '\n') i--;
    while (k < t->length && t->bytes[k] != '\n') k++;
    *a = i;
    *b = k < t->length ? k + 1 : k;
}

static void put_number(struct text *t, size_t a, size_t b, const char *before, unsigned n) {
    char spelt[32];
    const int length = snprintf(spelt, sizeof spelt, "%s%u", before, n);
    replace(t, a, b, (const uint8_t *)spelt, (size_t)length);
}

static unsigned value_at(const struct text *t, size_t a, size_t b) {
    unsigned v = 0;
    while (a < b && v < 1000000) v = v * 10 + (unsigned)(t->bytes[a++] - '0');
    return v;
}

static const char *const words[] = {
    "register", "queue", "stack", "window", "channel", "write", "read", "push", "pop", "peek", "pram", "weak", "causal",
    "converge", "sequential", "strict", "-", "0", "7", "8", "9", "15", "16", "63", "64", "65", "65535", "65536",
    "99999999999999999999", "00", "1,2,3,4,5,6,7,8,9", "?", "?,7", "??",
};

/* Another width for some object, often at a limit or past it: the last field of a line above the heading of the events. */
static void other_width(struct text *t) {
    static const char *const widths[] = {"-", "0", "1", "2", "3", "4", "8", "9", "63", "64", "65", "256"};
    const size_t end = events_of(t);
    if (end == t->length || end == 0) return;
    size_t b = draw((unsigned)end);
    while (t->bytes[b] != '\n') b++;
    size_t a = b;
    while (a > 0 && t->bytes[a - 1] != ' ' && t->bytes[a - 1] != '\n') a--;
    const char *w = widths[draw(sizeof widths / sizeof widths[0])];
    replace(t, a, b, (const uint8_t *)w, strlen(w));
}

/* The place behind the first such word from some place on, or false. */
static bool behind_some(const struct text *t, const char *word, size_t *behind) {
    const size_t n = strlen(word);
    size_t a = t->length == 0 ? 0 : draw((unsigned)t->length);
    while (a + n <= t->length && memcmp(t->bytes + a, word, n) != 0) a++;
    *behind = a + n;
    return a + n <= t->length;
}

/* Another answer for some push: the pushed value where it answered nothing, else nothing, or some number. */
static void other_answer(struct text *t) {
    size_t a;
    if (!behind_some(t, " push ", &a)) return;
    size_t b = a; /* the value is from a to b, the answer from c to d */
    while (b < t->length && t->bytes[b] != ' ' && t->bytes[b] != '\n') b++;
    if (b == t->length || t->bytes[b] == '\n') return;
    const size_t c = b + 1;
    size_t d = c;
    while (d < t->length && t->bytes[d] != '\n') d++;
    uint8_t value[32];
    const size_t length = b - a < sizeof value ? b - a : sizeof value;
    memcpy(value, t->bytes + a, length);
    if (draw(4) == 0)
        put_number(t, c, d, "", draw(4));
    else if (d - c == 1 && t->bytes[c] == '-')
        replace(t, c, d, value, length);
    else
        replace(t, c, d, (const uint8_t *)"-", 1);
}

/* Another answer for some read: a zero more in front, its oldest value less, or nothing. */
static void other_read(struct text *t) {
    size_t a;
    if (!behind_some(t, " read - ", &a)) return;
    size_t b = a; /* the oldest value is from a to b, the answer from a to c */
    while (b < t->length && is_digit(t->bytes[b])) b++;
    size_t c = b;
    while (c < t->length && t->bytes[c] != '\n') c++;
    const uint8_t *zero = (const uint8_t *)"0,"; /* alone where the answer was none */
    switch (draw(3)) {
    case 0:
        replace(t, a, b == a ? c : a, zero, b == a ? 1 : 2);
        break;
    case 1:
        if (b < c && t->bytes[b] == ',') replace(t, a, b + 1, zero, 0);
        break;
    default:
        replace(t, a, c, (const uint8_t *)"-", 1);
    }
}

static void damage(struct text *t) {
    static const char bytes[] = "0123456789-, \n\nabw?";
    size_t a = 0, b = 0, c = 0, d = 0;
    const size_t at = t->length == 0 ? 0 : draw((unsigned)t->length);
    const uint8_t byte = draw(40) == 0 ? (uint8_t)draw(256) : (uint8_t)bytes[draw(sizeof bytes - 1)];
    const unsigned which = draw(20);
    switch (which) {
    case 0: /* another byte */
        if (t->length > 0) t->bytes[at] = byte;
        break;
    case 1: /* a byte more */
        replace(t, at, at, &byte, 1);
        break;
    case 2: /* a byte less */
        if (t->length > 0) replace(t, at, at + 1, &byte, 0);
        break;
    case 3: /* an end too early */
        if (draw(4) == 0) t->length = at;
        break;
    case 4: /* a line less */
        some_line(t, &a, &b);
        replace(t, a, b, &byte, 0);
        break;
    case 5: { /* a line twice, or in another place */
        static uint8_t line[TEXT_BYTES];
        some_line(t, &a, &b);
        const size_t length = b - a;
        memcpy(line, t->bytes + a, length);
        if (draw(2) == 0) replace(t, a, b, line, 0);
        some_line(t, &c, &d);
        replace(t, c, c, line, length);
        break;
    }
    case 6: /* a word for a field */
        if (t->length > 0) {
            a = at;
            b = at;
            while (a > 0 && t->bytes[a - 1] != ' ' && t->bytes[a - 1] != '\n') a--;
            while (b < t->length && t->bytes[b] != ' ' && t->bytes[b] != '\n') b++;
            const char *w = words[draw(sizeof words / sizeof words[0])];
            replace(t, a, b, (const uint8_t *)w, strlen(w));
        }
        break;
    case 7: /* a very long text */
        if (draw(20) == 0)
            while (t->length < TEXT_BYTES) t->bytes[t->length++] = byte;
        break;
    case 8: /* a number more in a list, often the next one */
        if (some_number(t, &a, &b)) put_number(t, b, b, ",", draw(2) == 0 ? value_at(t, a, b) + 1 : draw(64));
        break;
    case 9: /* a number less in a list */
        if (some_number(t, &a, &b)) {
            if (b < t->length && t->bytes[b] == ',')
                b++;
            else if (a > 0 && t->bytes[a - 1] == ',')
                a--;
            replace(t, a, b, &byte, 0);
        }
        break;
    case 10:
    case 11: /* two neighbours of a list the other way round */
        if (some_number(t, &a, &b) && b < t->length && t->bytes[b] == ',') {
            c = b + 1;
            d = c;
            while (d < t->length && is_digit(t->bytes[d])) d++;
            const unsigned v = value_at(t, a, b);
            const unsigned w = value_at(t, c, d);
            put_number(t, c, d, "", v);
            put_number(t, a, b, "", w);
        }
        break;
    case 12:
        other_width(t);
        break;
    case 13:
        other_answer(t);
        break;
    case 14:
        other_read(t);
        break;
    default: /* another number */
        if (some_number(t, &a, &b)) {
            const unsigned v = value_at(t, a, b);
            const unsigned way = draw(4);
            put_number(t, a, b, "", way == 0 ? v + 1 : way == 1 && v > 0 ? v - 1 : draw(way == 2 ? 8 : 64));
        }
    }
}

/* Loses one answer in so many: the last field of a line below the heading of the events becomes `?`. */
static void lose(struct text *t, unsigned rarity) {
    size_t a = events_of(t);
    while (a < t->length && t->bytes[a] != '\n') a++;
    for (a++; a < t->length; a++) {
        size_t field = a; /* where the line's last field starts */
        while (a < t->length && t->bytes[a] != '\n') {
            if (t->bytes[a] == ' ') field = a + 1;
            a++;
        }
        if (draw(rarity) == 0) {
            replace(t, field, a, (const uint8_t *)"?", 1);
            a = field + 1;
        }
    }
}

/* Every third variant has lost answers besides. */
static void damaged(const struct pair *p, unsigned rounds) {
    static struct pair q;
    for (unsigned i = 0; i < rounds; i++) {
        q = *p;
        if (draw(3) == 0) lose(&q.history, 1 + draw(8));
        for (unsigned many = 1 + draw(3) * draw(2); many > 0; many--) damage(draw(3) == 0 ? &q.history : &q.certificate);
        compare(&q);
    }
}

static void load(struct text *t, const char *folder, const char *file) {
    char path[512];
    snprintf(path, sizeof path, "%s/%s", folder, file);
    t->length = 0;
    FILE *f = fopen(path, "rb");
    if (f == NULL) return;
    t->length = fread(t->bytes, 1, TEXT_BYTES, f);
    fclose(f);
}

int main(int argc, char **argv) {
    static struct pair pairs[PAIRS];
    static struct pair lost;
    const unsigned rounds = argc > 1 ? (unsigned)atoi(argv[1]) : 500;
    for (int i = 2; i < argc; i++) {
        struct pair *p = &pairs[0];
        load(&p->history, argv[i], "history.txt");
        load(&p->certificate, argv[i], "certificate.txt");
        printf("%s: %u\n", argv[i], (unsigned)compare(p));
        damaged(p, rounds);
    }
    for (unsigned s = 1; s <= SEEDS; s++) {
        make_pairs(pairs, s);
        for (unsigned i = 0; i < PAIRS; i++) {
            if (compare(&pairs[i]) != 0) {
                printf("%s of seed %u is not accepted\n", pairs[i].name, s);
                return 1;
            }
            for (unsigned rarity = 1; rarity <= 16; rarity++) {
                lost = pairs[i];
                lose(&lost.history, rarity);
                if (compare(&lost) != 0) {
                    printf("%s of seed %u with lost answers is not accepted\n", pairs[i].name, s);
                    return 1;
                }
            }
            damaged(&pairs[i], rounds);
        }
    }
    unsigned long all = 0;
    for (unsigned i = 0; i < NUMBERS; i++) {
        all += counts[i];
        if (counts[i] > 0) printf("answer %u: %lu\n", i, counts[i]);
    }
    for (unsigned i = 0; i < NUMBERS; i++)
        if (written[i] > 0) printf("one line, answer %u: %lu\n", i, written[i]);
    printf("%lu pairs of texts, %lu differences\n", all, differences);
    return differences == 0 ? 0 : 1;
}
