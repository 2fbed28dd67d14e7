/* Calls the archive as the fleet console does, on the sample dispenser Q: the check, its places with the event's line,
 * both texts read and written back, certificates weakened, and sequential ones written from those with pasts; and some of
 * these with an answer lost, and on a channel that gets full. Then gives each function NULL with length 0 for each of its
 * slices. Prints a line each; make test compares them with tests/call_from_c.out. */
#include <inttypes.h>
#include <stdio.h>
#include <string.h>

#include "walnutgleam.h"

static const char history[] =
    "object kind width\n"
    "0 queue -\n"
    "event process object op value answer\n"
    "0 0 0 push 7 -\n"
    "1 1 0 pop - 7\n";

static const char lost[] =
    "object kind width\n"
    "0 queue -\n"
    "event process object op value answer\n"
    "0 0 0 push 7 -\n"
    "1 1 0 pop - ?\n";

static const char channel[] =
    "object kind width\n"
    "0 channel 1\n"
    "event process object op value answer\n"
    "0 0 0 push 5 -\n"
    "1 1 0 push 6 6\n";

static const char certificate[] =
    "criterion sequential\n"
    "view order\n"
    "0 1,0\n";

static const char accepted[] =
    "criterion sequential\n"
    "view order\n"
    "0 0,1\n";

/* event 1 in its own past */
static const char itself[] =
    "criterion converge\n"
    "event past\n"
    "0 -\n"
    "1 1\n"
    "view order\n"
    "0 0,1\n";

/* event 1 not in the view */
static const char without[] =
    "criterion sequential\n"
    "view order\n"
    "0 0\n";

/* event 0 in the past of event 1, and behind it in the view */
static const char behind[] =
    "criterion converge\n"
    "event past\n"
    "0 -\n"
    "1 0\n"
    "view order\n"
    "0 1,0\n";

static const char strict[] =
    "criterion strict\n"
    "event past\n"
    "0 -\n"
    "1 0\n"
    "view order\n"
    "0 0,1\n"
    "1 0,1\n";

/* event 0 before event 1 in process 1's view, and not in its past */
static const char outside[] =
    "criterion strict\n"
    "event past\n"
    "0 -\n"
    "1 -\n"
    "view order\n"
    "0 0,1\n"
    "1 0,1\n";

/* event 1 first in process 1's view, with an empty past */
static const char alone[] =
    "criterion strict\n"
    "event past\n"
    "0 -\n"
    "1 -\n"
    "view order\n"
    "0 0,1\n"
    "1 1,0\n";

/* the push and the pop unordered: accepted where the pop's answer is lost */
static const char crossing[] =
    "criterion weak\n"
    "event past\n"
    "0 -\n"
    "1 -\n"
    "view order\n"
    "0 0\n"
    "1 1\n";

static const uint8_t *bytes(const char *text) { return (const uint8_t *)text; }

/* The verdict on a history and a certificate with its places, and the line that it carries of the history. */
static void verdict(const char *name, const char *text, const char *order, const char *given) {
    uint32_t places[7];
    const uint32_t answer = walnutgleam_verdict(bytes(text), strlen(text), bytes(given), strlen(given), places, 7);
    printf("verdict, %s, %s: %" PRIu32 ", places", name, order, answer);
    for (size_t i = 0; i < 7; i++) printf(" %" PRIu32, places[i]);
    if (places[1] == 1) printf(", line %" PRIu32 ": %.*s", places[2], (int)places[6], text + places[5]);
    printf("\n");
}

/* Says what a writing into the first `room` bytes of a buffer of 128 gave: the answer, the length, how many of the buffer's last bytes
 * are as they were, and the text. */
static void say_written(size_t room, uint32_t answer, uint64_t length, const uint8_t buffer[128]) {
    size_t unchanged = 0;
    while (unchanged < 128 && buffer[127 - unchanged] == '.') unchanged++;
    printf(" into %zu: %" PRIu32 ", length %" PRIu64 ", unchanged %zu\n", room, answer, length, unchanged);
    printf("%.*s", (int)length, (const char *)buffer);
}

static void weaken(const char *given, uint32_t wanted, size_t room) {
    uint8_t buffer[128];
    uint64_t length = 99;
    memset(buffer, '.', sizeof buffer);
    const uint32_t answer =
        walnutgleam_weaken(bytes(history), strlen(history), bytes(given), strlen(given), wanted, buffer, room, &length);
    printf("weaken to %" PRIu32, wanted);
    say_written(room, answer, length, buffer);
}

/* Writes one line of a certificate. */
static void one_line(const char *name, const char *text, const char *given, size_t room) {
    uint8_t buffer[128];
    uint64_t length = 99;
    memset(buffer, '.', sizeof buffer);
    const uint32_t answer =
        walnutgleam_sequential(bytes(text), strlen(text), bytes(given), strlen(given), buffer, room, &length);
    printf("sequential, %s", name);
    say_written(room, answer, length, buffer);
}

/* A history in both orders of its two events and with event 1 in its own past, and the text read and written back. */
static void both_orders(const char *name, const char *text) {
    const size_t n = strlen(text);
    uint32_t answer = walnutgleam_check(bytes(text), n, bytes(accepted), strlen(accepted));
    printf("check, %s, 0,1: %" PRIu32 "\n", name, answer);
    answer = walnutgleam_check(bytes(text), n, bytes(certificate), strlen(certificate));
    printf("check, %s, 1,0: %" PRIu32 "\n", name, answer);

    verdict(name, text, "1,0", certificate);
    verdict(name, text, "1 in its own past", itself);

    uint8_t buffer[128];
    uint64_t length = 99;
    memset(buffer, '.', sizeof buffer);
    answer = walnutgleam_rewrite_history(bytes(text), n, buffer, n, &length);
    const char *const kept = memcmp(buffer, text, n) == 0 && buffer[n] == '.' ? "same" : "other";
    printf("history, %s: %" PRIu32 " %" PRIu64 " %s\n", name, answer, length, kept);
}

/* What the last call gave besides its answer. */
static uint64_t given_length = 99;
static uint32_t given_places[7];

static void say_length(const char *call, uint32_t answer) {
    printf("%s: %" PRIu32 ", length %" PRIu64 "\n", call, answer, given_length);
    given_length = 99;
}

static void say_places(const char *call, uint32_t answer) {
    printf("%s: %" PRIu32 ", places", call, answer);
    for (size_t i = 0; i < 7; i++) printf(" %" PRIu32, given_places[i]);
    printf("\n");
    memset(given_places, 0, sizeof given_places);
}

/* NULL with length 0 for each slice of each function, alone and for all at once. An empty text lacks its first line, an empty buffer
 * is too short, and an empty slice of places gets none. */
static void give_null(void) {
    const uint8_t *const h = bytes(history);
    const uint8_t *const a = bytes(accepted);
    const uint8_t *const r = bytes(certificate);
    const size_t hn = strlen(history);
    const size_t an = strlen(accepted);
    const size_t rn = strlen(certificate);
    uint8_t buffer[128];

    printf("check, NULL history: %" PRIu32 "\n", walnutgleam_check(NULL, 0, a, an));
    printf("check, NULL certificate: %" PRIu32 "\n", walnutgleam_check(h, hn, NULL, 0));
    printf("check, all NULL: %" PRIu32 "\n", walnutgleam_check(NULL, 0, NULL, 0));

    say_places("verdict, NULL history", walnutgleam_verdict(NULL, 0, a, an, given_places, 7));
    say_places("verdict, NULL certificate", walnutgleam_verdict(h, hn, NULL, 0, given_places, 7));
    say_places("verdict, NULL places", walnutgleam_verdict(h, hn, r, rn, NULL, 0));
    say_places("verdict, all NULL", walnutgleam_verdict(NULL, 0, NULL, 0, NULL, 0));

    say_length("weaken, NULL history", walnutgleam_weaken(NULL, 0, a, an, 2, buffer, sizeof buffer, &given_length));
    say_length("weaken, NULL certificate", walnutgleam_weaken(h, hn, NULL, 0, 2, buffer, sizeof buffer, &given_length));
    say_length("weaken, NULL buffer", walnutgleam_weaken(h, hn, a, an, 2, NULL, 0, &given_length));
    say_length("weaken to 5, NULL buffer", walnutgleam_weaken(h, hn, a, an, 5, NULL, 0, &given_length));
    say_length("weaken to 6, NULL buffer", walnutgleam_weaken(h, hn, a, an, 6, NULL, 0, &given_length));
    say_length("weaken what is refused, NULL buffer", walnutgleam_weaken(h, hn, r, rn, 2, NULL, 0, &given_length));
    say_length("weaken, all NULL", walnutgleam_weaken(NULL, 0, NULL, 0, 2, NULL, 0, &given_length));

    const uint8_t *const s = bytes(strict);
    const size_t sn = strlen(strict);
    say_length("sequential, NULL history", walnutgleam_sequential(NULL, 0, s, sn, buffer, sizeof buffer, &given_length));
    say_length("sequential, NULL certificate", walnutgleam_sequential(h, hn, NULL, 0, buffer, sizeof buffer, &given_length));
    say_length("sequential, NULL buffer", walnutgleam_sequential(h, hn, s, sn, NULL, 0, &given_length));
    say_length("sequential of sequential, NULL buffer", walnutgleam_sequential(h, hn, a, an, NULL, 0, &given_length));
    say_length("sequential, all NULL", walnutgleam_sequential(NULL, 0, NULL, 0, NULL, 0, &given_length));

    say_length("history, NULL history", walnutgleam_rewrite_history(NULL, 0, buffer, sizeof buffer, &given_length));
    say_length("history, NULL buffer", walnutgleam_rewrite_history(h, hn, NULL, 0, &given_length));
    say_length("history, all NULL", walnutgleam_rewrite_history(NULL, 0, NULL, 0, &given_length));

    say_length("certificate, NULL history", walnutgleam_rewrite_certificate(NULL, 0, a, an, buffer, sizeof buffer, &given_length));
    say_length("certificate, NULL certificate", walnutgleam_rewrite_certificate(h, hn, NULL, 0, buffer, sizeof buffer, &given_length));
    say_length("certificate, NULL buffer", walnutgleam_rewrite_certificate(h, hn, a, an, NULL, 0, &given_length));
    say_length("certificate, all NULL", walnutgleam_rewrite_certificate(NULL, 0, NULL, 0, NULL, 0, &given_length));
}

int main(void) {
    const size_t h = strlen(history);
    const size_t c = strlen(certificate);

    printf("check %" PRIu32 "\n", walnutgleam_check(bytes(history), h, bytes(certificate), c));

    uint32_t places[9];
    for (size_t i = 0; i < 9; i++) places[i] = 99;
    printf("verdict %" PRIu32 ":", walnutgleam_verdict(bytes(history), h, bytes(certificate), c, places, 7));
    for (size_t i = 0; i < 9; i++) printf(" %" PRIu32, places[i]);
    printf("\nline %" PRIu32 ": %.*s\n", places[2], (int)places[6], history + places[5]);

    /* the same with only the first three asked for */
    for (size_t i = 0; i < 9; i++) places[i] = 99;
    printf("verdict %" PRIu32 ":", walnutgleam_verdict(bytes(history), h, bytes(certificate), c, places, 3));
    for (size_t i = 0; i < 9; i++) printf(" %" PRIu32, places[i]);
    printf("\n");

    /* a damaged certificate: the places name its line, and only the first three are asked for */
    for (size_t i = 0; i < 9; i++) places[i] = 99;
    printf("verdict %" PRIu32 ":", walnutgleam_verdict(bytes(history), h, bytes("criterion sequential\nview ordre\n"), 32, places, 3));
    for (size_t i = 0; i < 9; i++) printf(" %" PRIu32, places[i]);
    printf("\n");

    /* an event's line comes with 12, and none with 14, with 15 and with 0 */
    verdict("Q", history, "1 in its own past", itself);
    verdict("Q", history, "0 alone", without);
    verdict("Q", history, "1,0 and 0 in the past of 1", behind);
    verdict("Q", history, "0,1", accepted);

    /* strict is criterion 5; 20 has the view, which is the process's number, and no line */
    verdict("Q", history, "strict", strict);
    verdict("Q", history, "strict, 0 outside the past of 1", outside);
    verdict("Q", history, "strict, 1 alone", alone);

    uint8_t buffer[128];
    uint64_t length = 0;
    memset(buffer, '.', sizeof buffer);
    uint32_t answer = walnutgleam_rewrite_history(bytes(history), h, buffer, sizeof buffer, &length);
    printf("history %" PRIu32 " %" PRIu64 " %s\n", answer, length, memcmp(buffer, history, h) == 0 && buffer[h] == '.' ? "same" : "other");
    answer = walnutgleam_rewrite_certificate(bytes(history), h, bytes(certificate), c, buffer, c - 1, &length);
    printf("certificate %" PRIu32 " %" PRIu64 " %s\n", answer, length, memcmp(buffer, history, h) == 0 ? "unchanged" : "changed");
    answer = walnutgleam_rewrite_certificate(bytes(history), h, bytes(certificate), c, buffer, c, &length);
    printf("certificate %" PRIu32 " %" PRIu64 " %s\n", answer, length, memcmp(buffer, certificate, c) == 0 ? "same" : "other");

    /* to causal, which takes 57 bytes; a buffer one byte shorter; to strict; no such criterion; a certificate that the
     * check refuses, by an answer of the replay and by its layout; from strict to causal, to pram and to sequential,
     * which is no pair; and one of strict that is refused with 20 */
    weaken(accepted, 2, 128);
    weaken(accepted, 2, 57);
    weaken(accepted, 2, 56);
    weaken(accepted, 5, 128);
    weaken(accepted, 6, 128);
    weaken(certificate, 2, 128);
    weaken("criterion sequential\nview ordre\n", 2, 128);
    weaken(strict, 2, 128);
    weaken(strict, 0, 128);
    weaken(strict, 4, 128);
    weaken(outside, 2, 128);

    /* one line of Q, which takes 38 bytes; a buffer one byte shorter; two updates unordered, also with no room; a sequential
     * certificate, also one that the check refuses; and faults of the check and of the layout */
    one_line("strict", history, strict, 128);
    one_line("strict", history, strict, 38);
    one_line("strict", history, strict, 37);
    one_line("unordered, lost", lost, crossing, 128);
    one_line("unordered, lost", lost, crossing, 0);
    one_line("0,1", history, accepted, 128);
    one_line("1,0", history, certificate, 128);
    one_line("unordered", history, crossing, 128);
    one_line("1 in its own past", history, itself, 128);
    one_line("0 outside the past of 1", history, outside, 128);
    one_line("layout", history, "criterion strict\nevent pasts\n", 128);

    /* Q with the answer of event 1 lost: the order that Q refuses is accepted. A channel of one slot, which event 0 had. */
    both_orders("lost", lost);
    both_orders("channel", channel);
    give_null();
    return 0;
}
