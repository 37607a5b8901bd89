/* Times calls of the library for C: `bench/faces.py` builds and runs it. Its words: how many cells, how many rounds. */
#define _POSIX_C_SOURCE 200809L

#include "fazhundel.h"

#include <stdio.h>
#include <stdlib.h>
#include <string.h>
#include <time.h>

enum { TODAY = 45292, UNDO_LIMIT = 20, TEXT_ROOM = 32 };

/* Ends the program where a call wasn't done. */
static void must(fz_status status, const char *call)
{
    if (status != FZ_DONE) {
        fprintf(stderr, "%s: status %d\n", call, status);
        exit(1);
    }
}

/* The seconds that the processor worked for this program. */
static double worked(void)
{
    struct timespec now;
    clock_gettime(CLOCK_PROCESS_CPUTIME_ID, &now);
    return (double)now.tv_sec + 1e-9 * (double)now.tv_nsec;
}

/* Prints what one of so many calls, or cells, took since then. */
static void tell(const char *what, double since, double count)
{
    printf("%s %.1f\n", what, 1e9 * (worked() - since) / count);
}

int main(int count, char **words)
{
    uint32_t cells = count > 1 ? (uint32_t)atoi(words[1]) : 100000;
    uint32_t rounds = count > 2 ? (uint32_t)atoi(words[2]) : 10;
    fz_book book = FZ_CLOSED;
    uint32_t sheet;
    char text[TEXT_ROOM], room[TEXT_ROOM];
    fz_shown shown;

    must(fz_open(&book, UNDO_LIMIT, TODAY, NULL, 0, NULL, 0, NULL, 0), "fz_open");
    must(fz_add_sheet(&book, "Sheet", 5, &sheet), "fz_add_sheet");

    double since = worked();
    for (uint32_t row = 0; row < cells; row++) {
        must(fz_set_number(&book, sheet, row, 0, 1000000 * (int64_t)row), "fz_set_number");
    }
    tell("set_number-new", since, cells);
    since = worked();
    for (uint32_t row = 0; row < cells; row++) {
        must(fz_set_number(&book, sheet, row, 0, 1000000 * (int64_t)row), "fz_set_number");
    }
    tell("set_number", since, cells);
    since = worked();
    for (uint32_t row = 0; row < cells; row++) {
        int length = snprintf(text, sizeof text, "%u", row);
        must(fz_set(&book, sheet, row, 0, text, (size_t)length), "fz_set");
    }
    tell("set", since, cells);

    must(fz_value(&book, sheet, 0, 0, room, sizeof room, &shown), "fz_value");
    since = worked();
    for (uint32_t round = 0; round < rounds; round++) {
        for (uint32_t row = 0; row < cells; row++) {
            must(fz_value(&book, sheet, row, 0, room, sizeof room, &shown), "fz_value");
        }
    }
    tell("value", since, (double)rounds * cells);

    fz_cell *rows = malloc(cells * sizeof *rows);
    fz_sizes sizes;
    if (rows == NULL) {
        return 1;
    }
    since = worked();
    for (uint32_t round = 0; round < rounds; round++) {
        must(fz_values(&book, sheet, 0, 0, cells - 1, 0, rows, cells, NULL, 0, &sizes), "fz_values");
    }
    tell("values", since, (double)rounds * cells);
    free(rows);

    fz_written *written = malloc(cells * sizeof *written);
    char *texts = malloc((size_t)cells * TEXT_ROOM);
    if (written == NULL || texts == NULL) {
        return 1;
    }
    size_t bytes = 0;
    for (uint32_t row = 0; row < cells; row++) {
        int length = snprintf(texts + bytes, TEXT_ROOM, "%u", row);
        written[row] = (fz_written){sheet, row, 1, bytes, (size_t)length};
        bytes += (size_t)length;
    }
    since = worked();
    must(fz_write_all(&book, written, cells, texts, bytes), "fz_write_all");
    tell("write_all", since, cells);
    free(written);
    free(texts);
    fz_close(&book);
    return 0;
}
