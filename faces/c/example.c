/* A program that holds a workbook: it works an invoice out and prints what it comes to. */
#include "fazhundel.h"

#include <stdio.h>
#include <string.h>

/* Two lines of a quantity and a price, and what each and both come to. */
static const struct {
    uint32_t row, col;
    const char *text;
} cells[] = {
    {0, 0, "2"}, {0, 1, "10.5"}, {0, 2, "=A1*B1"}, {1, 0, "3"}, {1, 1, "120"}, {1, 2, "=A2*B2"}, {2, 2, "=C1+C2"},
};

/* The day that formulas see as today: 2024-01-01. */
enum { TODAY = 45292, UNDO_LIMIT = 20 };

/* Fills the invoice, and makes a row for titles above its lines. */
static fz_status fill(fz_book *book, uint32_t sheet)
{
    for (size_t i = 0; i < sizeof cells / sizeof cells[0]; i++) {
        fz_status status = fz_set(book, sheet, cells[i].row, cells[i].col, cells[i].text, strlen(cells[i].text));
        if (status != FZ_DONE) {
            return status;
        }
    }
    return fz_insert_rows(book, sheet, 0, 1);
}

int main(void)
{
    fz_book book = FZ_CLOSED;
    uint32_t sheet;
    char room[64];
    size_t length;

    fz_status status = fz_open(&book, UNDO_LIMIT, TODAY, NULL, 0, NULL, 0, NULL, 0);
    if (status == FZ_DONE) {
        status = fz_add_sheet(&book, "Invoice", 7, &sheet);
    }
    if (status == FZ_DONE) {
        status = fill(&book, sheet);
    }
    if (status == FZ_DONE) {
        status = fz_value_text(&book, sheet, 3, 2, room, sizeof room, &length);
    }
    if (status == FZ_DONE) {
        printf("%.*s\n", (int)length, room);
    }
    fz_close(&book);
    return status;
}
