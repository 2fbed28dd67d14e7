/* A small console, as the customer's would be: takes the names of a history file and a certificate file, checks the two by the archive and
 * says the verdict in one plain sentence, with the line or the event at fault. With the word `sequential` before the names it writes the
 * sequential text made of the certificate, with `weaken` and a criterion the weakened text, to standard output, or the refusal to
 * standard error. Exit status 0 is acceptance or a text, 1 is everything else. */
#include <inttypes.h>
#include <stdbool.h>
#include <stdio.h>
#include <stdlib.h>
#include <string.h>

#include "walnutgleam.h"

/* One byte more than the longest text, so that a text that is too long is seen to be. */
enum { ROOM = 32769 };

typedef struct {
    const char *name;
    uint8_t *bytes;
    size_t length;
} text;

enum place { CRITERION, WHICH, LINE, VIEW, EVENT, START, LENGTH, PLACES };

/* A file that cannot be opened counts as empty. */
static text read_text(const char *name) {
    text t = {name, malloc(ROOM), 0};
    if (t.bytes == NULL) {
        fprintf(stderr, "no memory\n");
        exit(1);
    }
    FILE *file = fopen(name, "rb");
    if (file != NULL) {
        t.length = fread(t.bytes, 1, ROOM, file);
        fclose(file);
    }
    return t;
}

enum { CRITERIA = 6 };
static const char *const criteria[CRITERIA] = {"pram", "weak", "causal", "converge", "sequential", "strict"};

static const char *criterion_word(uint32_t number) { return number < CRITERIA ? criteria[number] : "unknown"; }

/* The number of the criterion with this word, or CRITERIA. */
static uint32_t criterion_number(const char *word) {
    uint32_t number = 0;
    while (number < CRITERIA && strcmp(word, criteria[number]) != 0) number++;
    return number;
}

static const char *meaning(uint32_t answer) {
    switch (answer) {
    case 1: return "the text is too long";
    case 2: return "the line is not laid out as it should be";
    case 3: return "a number is over its limit";
    case 4: return "the op, its value or the width does not go with the kind";
    case 5: return "the op cannot give an answer of this length";
    case 6: return "the past is not strictly rising";
    case 11: return "its past lacks an earlier event of its process";
    case 12: return "it is in its own past";
    case 13: return "its past lacks an event of the past of one of its events";
    case 14: return "it is not its set of events, each once";
    case 15: return "it is against its order";
    case 16: return "the replay does not give its answer";
    case 17: return "the text wanted is not made from a certificate of this criterion";
    case 18: return "there is no room for the text";
    case 20: return "before an event of the view's process stands one that is not in its past";
    case 26: return "its causal order leaves two updates unordered";
    default: return "unknown answer";
    }
}

static void say_part(FILE *to, const text *t, uint64_t start, uint64_t length) {
    if (start <= t->length && length <= t->length - start) fprintf(to, ": %.*s", (int)length, (const char *)t->bytes + start);
}

static void say_refusal(FILE *to, const text *history, const text *certificate, uint32_t answer, const uint32_t *places) {
    if (places[CRITERION] == WALNUTGLEAM_NONE) { /* a reading refusal */
        const text *t = places[WHICH] == 1 ? history : certificate;
        fprintf(to, "Refused with %" PRIu32 ", %s, line %" PRIu32 ": %s", answer, t->name, places[LINE], meaning(answer));
        say_part(to, t, places[START], places[LENGTH]);
    } else {
        fprintf(to, "Refused with %" PRIu32 " as %s", answer, criterion_word(places[CRITERION]));
        if (places[VIEW] != WALNUTGLEAM_NONE) fprintf(to, ", view %" PRIu32, places[VIEW]);
        if (places[EVENT] != WALNUTGLEAM_NONE) fprintf(to, ", event %" PRIu32, places[EVENT]);
        fprintf(to, ": %s", meaning(answer));
        if (places[WHICH] == 1) say_part(to, history, places[START], places[LENGTH]);
    }
    fprintf(to, "\n");
}

static uint32_t verdict(const text *history, const text *certificate, uint32_t *places) {
    return walnutgleam_verdict(history->bytes, history->length, certificate->bytes, certificate->length, places, PLACES);
}

static uint32_t check(const text *history, const text *certificate) {
    uint32_t places[PLACES];
    const uint32_t answer = verdict(history, certificate, places);
    if (answer == 0)
        printf("Accepted: %s holds for %s.\n", certificate->name, history->name);
    else
        say_refusal(stdout, history, certificate, answer, places);
    return answer;
}

enum task { CHECK, SEQUENTIAL, WEAKEN, NO_TASK };

/* Writes the sequential text, or the one weakened to the criterion wanted, to standard output, or says on standard error why
 * there is none. These operations give only the number of a refusal: where the verdict has the same number its places are
 * told, and 17, 18 and 26 have no place. */
static uint32_t write_text(const text *h, const text *c, enum task task, uint32_t wanted) {
    static uint8_t buffer[ROOM];
    uint64_t length = 0;
    const uint32_t answer =
        task == WEAKEN
            ? walnutgleam_weaken(h->bytes, h->length, c->bytes, c->length, wanted, buffer, sizeof buffer, &length)
            : walnutgleam_sequential(h->bytes, h->length, c->bytes, c->length, buffer, sizeof buffer, &length);
    if (answer == 0) {
        fwrite(buffer, 1, (size_t)length, stdout);
        return 0;
    }
    uint32_t places[PLACES];
    if (verdict(h, c, places) != answer) {
        places[WHICH] = 0;
        places[VIEW] = WALNUTGLEAM_NONE;
        places[EVENT] = WALNUTGLEAM_NONE;
    }
    say_refusal(stderr, h, c, answer, places);
    return answer;
}

/* What the arguments ask for. */
static enum task task_of(int count, char **words) {
    const bool sequential = count > 1 && strcmp(words[1], "sequential") == 0;
    const bool weaken = count > 1 && strcmp(words[1], "weaken") == 0;
    if (count == 3 && !sequential && !weaken) return CHECK;
    if (count == 4 && sequential) return SEQUENTIAL;
    if (count == 5 && weaken && criterion_number(words[2]) < CRITERIA) return WEAKEN;
    return NO_TASK;
}

int main(int count, char **words) {
    const enum task task = task_of(count, words);
    if (task == NO_TASK) {
        fprintf(stderr, "usage: console [sequential | weaken CRITERION] HISTORY CERTIFICATE\n");
        return 1;
    }
    text history = read_text(words[count - 2]);
    text certificate = read_text(words[count - 1]);
    const uint32_t answer = task == CHECK ? check(&history, &certificate)
                                          : write_text(&history, &certificate, task, criterion_number(words[2]));
    free(history.bytes);
    free(certificate.bytes);
    return answer == 0 ? 0 : 1;
}
