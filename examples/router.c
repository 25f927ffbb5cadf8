/* A router's main loop in small: start a run from a stored table, run it slot by slot, and print which values are current.
 *
 * usage: router TABLE SLOTS STOLEN     (STOLEN: a pattern of '.' and 'x', one a slot, repeated) */
#include "channelfox.h"
#include <stdio.h>
#include <stdlib.h>
#include <string.h>

static channelfox_run run;

static int refused(const char *what, channelfox_verdict verdict) {
    printf("%s: refused %u at %zu: %s\n", what, (unsigned)verdict.number, verdict.place, channelfox_refusal_text(verdict.number));
    return 1;
}

static void print_values(void) {
    for (size_t i = 0; i < run.count; i++) {
        const channelfox_run_row *row = &run.rows[i];
        channelfox_reading reading = channelfox_read_value(run, row->planned.id);
        printf("object %u: ", (unsigned)row->planned.id);
        if (reading.verdict.number != 0)
            printf("refused %u", (unsigned)reading.verdict.number);
        else if (reading.value == CHANNELFOX_READING_FRESH)
            printf("current, %u slots old of %u", (unsigned)reading.age, (unsigned)row->planned.validity);
        else
            printf("%s", reading.value == CHANNELFOX_READING_STALE ? "stale" : "no value yet");
        printf(", %u skipped\n", (unsigned)row->skips);
    }
}

int main(int argc, char **argv) {
    static uint8_t bytes[4097];
    if (argc != 4 || argv[3][0] == 0) {
        fprintf(stderr, "usage: router TABLE SLOTS STOLEN\n");
        return 2;
    }
    FILE *file = fopen(argv[1], "rb");
    if (!file) {
        perror(argv[1]);
        return 1;
    }
    size_t length = fread(bytes, 1, sizeof bytes, file);
    fclose(file);

    channelfox_run_answer started = channelfox_start_stored(bytes, length, 4294967290u);
    if (started.verdict.number != 0)
        return refused("start", started.verdict);
    run = started.run;

    long slots = strtol(argv[2], NULL, 10);
    size_t pattern = strlen(argv[3]);
    for (long t = 0; t < slots; t++) {
        channelfox_verdict verdict = channelfox_slot(&run, argv[3][(size_t)t % pattern] == 'x');
        if (verdict.number != 0)
            return refused("slot", verdict);
    }
    print_values();
    return 0;
}
