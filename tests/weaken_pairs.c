/* Weakens certificates, an accepted one of each criterion among them, to every number from 0 to 7. Of an accepted one:
 * for a pair of documents 01 and 02 the weakened text is accepted and names the criterion wanted, it fills exactly its
 * length of a buffer, and a buffer one byte shorter is refused unchanged; for every other number the answer is 17.
 * Prints a line for each; make test compares them with tests/weaken_pairs.out. */
#include <inttypes.h>
#include <stdio.h>
#include <string.h>

#include "walnutgleam.h"

enum { ROOM = 40000 };

static uint8_t history[ROOM];
static uint8_t certificate[ROOM];
static uint8_t buffer[ROOM];
static uint8_t exact[ROOM];

static size_t read_file(const char *folder, const char *name, uint8_t *into) {
    char path[512];
    snprintf(path, sizeof path, "%s/%s", folder, name);
    FILE *file = fopen(path, "rb");
    if (file == NULL) return 0;
    const size_t n = fread(into, 1, ROOM, file);
    fclose(file);
    return n;
}

static int all_are(const uint8_t *bytes, size_t n, uint8_t value) {
    for (size_t i = 0; i < n; i++)
        if (bytes[i] != value) return 0;
    return 1;
}

static void weaken_to(const char *name, size_t h, size_t c, uint32_t wanted) {
    uint64_t length = 99;
    memset(buffer, '.', ROOM);
    const uint32_t answer = walnutgleam_weaken(history, h, certificate, c, wanted, buffer, ROOM, &length);
    printf("%s to %" PRIu32 ": %" PRIu32 ", length %" PRIu64, name, wanted, answer, length);
    if (answer != 0) {
        printf("%s\n", all_are(buffer, ROOM, '.') ? ", nothing written" : ", WRITTEN");
        return;
    }
    uint32_t places[7];
    const uint32_t verdict = walnutgleam_verdict(history, h, buffer, (size_t)length, places, 7);
    printf(", checked %" PRIu32 ", names %" PRIu32, verdict, places[0]);
    printf("%s", all_are(buffer + length, ROOM - (size_t)length, '.') ? "" : ", MORE WRITTEN");

    uint64_t again = 99;
    memset(exact, '.', ROOM);
    const uint32_t fits = walnutgleam_weaken(history, h, certificate, c, wanted, exact, (size_t)length, &again);
    printf(", exact %" PRIu32 "%s", fits, fits == 0 && again == length && memcmp(exact, buffer, ROOM) == 0 ? "" : " DIFFERS");
    memset(exact, '.', ROOM);
    const uint32_t shorter = walnutgleam_weaken(history, h, certificate, c, wanted, exact, (size_t)length - 1, &again);
    printf(", shorter %" PRIu32 "%s\n", shorter, shorter == 18 && again == 0 && all_are(exact, ROOM, '.') ? "" : " DIFFERS");
}

int main(int count, char **folders) {
    for (int i = 1; i < count; i++) {
        const size_t h = read_file(folders[i], "history.txt", history);
        const size_t c = read_file(folders[i], "certificate.txt", certificate);
        for (uint32_t wanted = 0; wanted <= 7; wanted++) weaken_to(folders[i], h, c, wanted);
    }
    return 0;
}
