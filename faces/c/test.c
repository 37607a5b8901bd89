/* Calls the library as a caller does, each call at least once, and as it shouldn't. Prints what failed, and answers 1 then. */
#include "fazhundel.h"

#include <stdio.h>
#include <string.h>

static int failures;

#define CHECK(what) check((what), #what, __LINE__)

static void check(bool holds, const char *what, int line)
{
    if (!holds) {
        printf("line %d: %s\n", line, what);
        failures++;
    }
}

enum { TODAY = 45292 };

/* A workbook with one sheet, number 0. */
static fz_book opened(void)
{
    fz_book book = FZ_CLOSED;
    uint32_t number = 7;
    CHECK(fz_open(&book, 20, TODAY, NULL, 0, NULL, 0, NULL, 0) == FZ_DONE);
    CHECK(fz_add_sheet(&book, "Plan", 4, &number) == FZ_DONE && number == 0);
    return book;
}

static fz_status set(fz_book *book, uint32_t row, uint32_t col, const char *text)
{
    return fz_set(book, 0, row, col, text, strlen(text));
}

/* Whether the cell's formula is this text; no text for a cell without one. */
static bool reads(fz_book *book, uint32_t row, uint32_t col, const char *text)
{
    char room[256];
    size_t length = 0;
    return fz_formula(book, 0, row, col, room, sizeof room, &length) == FZ_DONE && length == strlen(text)
        && memcmp(room, text, length) == 0;
}

static bool shows(fz_book *book, uint32_t row, uint32_t col, const char *text)
{
    char room[256];
    size_t length = 0;
    return fz_value_text(book, 0, row, col, room, sizeof room, &length) == FZ_DONE && length == strlen(text)
        && memcmp(room, text, length) == 0;
}

static void cells_and_values(void)
{
    fz_book book = opened();
    char room[8] = "........";
    fz_shown value = {9, 9, 9};
    CHECK(set(&book, 0, 0, "-1.5") == FZ_DONE);
    CHECK(fz_value(&book, 0, 0, 0, NULL, 0, &value) == FZ_DONE);
    CHECK(value.kind == FZ_NUMBER && value.number == -1500000 && value.length == 0);
    CHECK(set(&book, 0, 1, "=A1<0") == FZ_DONE);
    CHECK(fz_value(&book, 0, 0, 1, NULL, 0, &value) == FZ_DONE && value.kind == FZ_TRUTH && value.number == 1);
    CHECK(set(&book, 0, 2, "=1/0") == FZ_DONE);
    CHECK(fz_value(&book, 0, 0, 2, NULL, 0, &value) == FZ_DONE && value.kind == FZ_FAULT && value.number == FZ_DIV0);
    CHECK(fz_value(&book, 0, 9, 9, NULL, 0, &value) == FZ_DONE && value.kind == FZ_EMPTY && value.number == 0);
    CHECK(set(&book, 0, 3, "h\xc3\xbcte") == FZ_DONE);
    CHECK(fz_value(&book, 0, 0, 3, room, sizeof room, &value) == FZ_DONE);
    CHECK(value.kind == FZ_TEXT && value.length == 5 && memcmp(room, "h\xc3\xbcte...", 8) == 0);
    CHECK(shows(&book, 0, 0, "-1.5") && shows(&book, 0, 1, "TRUE") && shows(&book, 0, 2, "#DIV/0!"));
    CHECK(reads(&book, 0, 1, "=A1<0") && reads(&book, 0, 0, "") && reads(&book, 9, 9, ""));
    CHECK(fz_clear(&book, 0, 0, 0, 0, 3) == FZ_DONE && shows(&book, 0, 3, ""));
    fz_close(&book);
}

/* The kind of a cell's content, or 9. */
static uint32_t kind_of(fz_book *book, uint32_t row, uint32_t col)
{
    uint32_t kind = 9;
    fz_kind(book, 0, row, col, &kind);
    return kind;
}

/* Whether the cell holds a text, shows it, and is given it by another one. */
static bool holds_text(fz_book *book, uint32_t row, uint32_t col, const char *text, const char *given)
{
    char room[16];
    size_t length = 99;
    return kind_of(book, row, col) == FZ_TEXT && shows(book, row, col, text)
        && fz_content(book, 0, row, col, room, sizeof room, &length) == FZ_DONE && length == strlen(given)
        && memcmp(room, given, length) == 0;
}

/* Numbers and truth values come to cells without a text, each as a step. */
static void numbers_and_truths_are_given(void)
{
    fz_book book = opened();
    CHECK(fz_set_number(&book, 0, 0, 0, -1500000) == FZ_DONE && shows(&book, 0, 0, "-1.5"));
    CHECK(kind_of(&book, 0, 0) == FZ_NUMBER && fz_set_number(&book, 0, 0, 0, 1) == FZ_DONE && shows(&book, 0, 0, "0.000001"));
    CHECK(fz_undo(&book) == FZ_DONE && shows(&book, 0, 0, "-1.5"));
    CHECK(fz_set_number(&book, 0, 0, 1, 999999999999999999) == FZ_DONE && shows(&book, 0, 1, "999999999999.999999"));
    CHECK(fz_set_number(&book, 0, 0, 1, -999999999999999999) == FZ_DONE && shows(&book, 0, 1, "-999999999999.999999"));
    CHECK(fz_set_number(&book, 0, 0, 1, 1000000000000000000) == FZ_BAD_NUMBER);
    CHECK(fz_set_number(&book, 0, 0, 1, -1000000000000000000) == FZ_BAD_NUMBER);
    CHECK(fz_set_number(&book, 0, 0, 1, INT64_MAX) == FZ_BAD_NUMBER);
    CHECK(fz_set_number(&book, 0, 0, 1, INT64_MIN) == FZ_BAD_NUMBER && shows(&book, 0, 1, "-999999999999.999999"));
    CHECK(fz_set_number(&book, 5, 0, 0, 0) == FZ_NO_SHEET && fz_set_number(&book, 0, 1048576, 0, 0) == FZ_OUTSIDE);
    CHECK(fz_set_truth(&book, 0, 1, 0, true) == FZ_DONE && shows(&book, 1, 0, "TRUE"));
    CHECK(fz_set_truth(&book, 0, 1, 0, false) == FZ_DONE && shows(&book, 1, 0, "FALSE") && kind_of(&book, 1, 0) == FZ_TRUTH);
    CHECK(fz_set_truth(&book, 5, 0, 0, true) == FZ_NO_SHEET && fz_set_truth(&book, 0, 0, 18278, true) == FZ_OUTSIDE);
    CHECK(fz_undo(&book) == FZ_DONE && shows(&book, 1, 0, "TRUE"));
    fz_close(&book);
}

/* A text comes to a cell as it is, whatever it looks like, and the apostrophe that it needs counts as a byte of it. */
static void texts_are_given(void)
{
    static char many[8193];
    fz_book book = opened();
    size_t length = 9;
    CHECK(fz_set_text(&book, 0, 0, 0, "tax", 3) == FZ_DONE && holds_text(&book, 0, 0, "tax", "tax"));
    CHECK(fz_set_text(&book, 0, 0, 0, "007", 3) == FZ_DONE && holds_text(&book, 0, 0, "007", "'007"));
    CHECK(fz_set_text(&book, 0, 0, 1, "=A1", 3) == FZ_DONE && holds_text(&book, 0, 1, "=A1", "'=A1") && reads(&book, 0, 1, ""));
    CHECK(fz_set_text(&book, 0, 0, 2, "true", 4) == FZ_DONE && holds_text(&book, 0, 2, "true", "'true"));
    CHECK(fz_set_text(&book, 0, 0, 3, "'tis", 4) == FZ_DONE && holds_text(&book, 0, 3, "'tis", "''tis"));
    CHECK(fz_set_text(&book, 0, 0, 4, NULL, 0) == FZ_DONE && holds_text(&book, 0, 4, "", "'"));
    CHECK(fz_undo(&book) == FZ_DONE && kind_of(&book, 0, 4) == FZ_EMPTY);
    memset(many, 'x', sizeof many);
    CHECK(fz_set_text(&book, 0, 1, 0, many, 8193) == FZ_TEXT_LIMIT && fz_set_text(&book, 0, 1, 0, many, 8192) == FZ_DONE);
    CHECK(fz_content(&book, 0, 1, 0, NULL, 0, &length) == FZ_NO_ROOM && length == 8192);
    many[0] = '=';
    CHECK(fz_set_text(&book, 0, 1, 0, many, 8192) == FZ_TEXT_LIMIT && fz_set_text(&book, 0, 1, 0, many, 8191) == FZ_DONE);
    CHECK(fz_content(&book, 0, 1, 0, NULL, 0, &length) == FZ_NO_ROOM && length == 8192);
    CHECK(fz_set_text(&book, 5, 0, 0, "x", 1) == FZ_NO_SHEET && fz_set_text(&book, 0, 1048576, 0, "x", 1) == FZ_OUTSIDE);
    fz_close(&book);
}

/* Many cells come as one change, or none. */
static void many_cells_are_written(void)
{
    const char texts[] = "=A2*2" "7" "\xff" "plain";
    fz_written cells[] = {{0, 0, 0, 0, 5}, {0, 1, 0, 5, 1}, {0, 1, 3, 7, 5}, {0, 2, 0, 5, 0}};
    const size_t size = sizeof texts - 1;
    fz_book book = opened();
    CHECK(set(&book, 2, 0, "old") == FZ_DONE);
    CHECK(fz_write_all(&book, cells, 4, texts, size) == FZ_DONE);
    CHECK(shows(&book, 0, 0, "14") && reads(&book, 0, 0, "=A2*2") && shows(&book, 1, 3, "plain") && kind_of(&book, 2, 0) == FZ_EMPTY);
    CHECK(fz_undo(&book) == FZ_DONE && shows(&book, 2, 0, "old") && kind_of(&book, 0, 0) == FZ_EMPTY && kind_of(&book, 1, 3) == FZ_EMPTY);
    CHECK(fz_redo(&book) == FZ_DONE && shows(&book, 0, 0, "14") && fz_write_all(&book, NULL, 0, NULL, 0) == FZ_DONE);

    cells[1].row = 0; /* A1 is there already */
    CHECK(fz_write_all(&book, cells, 2, texts, size) == FZ_BAD_CELLS && shows(&book, 1, 0, "7"));
    cells[1].row = 1;
    cells[0].row = 3; /* not in order */
    CHECK(fz_write_all(&book, cells, 2, texts, size) == FZ_BAD_CELLS);
    cells[0].row = 0;
    cells[1].text_start = 6; /* no UTF-8 */
    CHECK(fz_write_all(&book, cells, 2, texts, size) == FZ_BAD_CELLS);
    cells[1].text_start = size; /* a byte behind the last one */
    CHECK(fz_write_all(&book, cells, 2, texts, size) == FZ_BAD_CELLS);
    cells[1].text_length = 0;
    CHECK(fz_write_all(&book, cells, 2, texts, size) == FZ_DONE && kind_of(&book, 1, 0) == FZ_EMPTY);
    cells[1].text_start = SIZE_MAX; /* the end doesn't overflow */
    cells[1].text_length = 2;
    CHECK(fz_write_all(&book, cells, 2, texts, size) == FZ_BAD_CELLS);
    cells[1] = (fz_written){9, 0, 0, 0, 1};
    CHECK(fz_write_all(&book, cells, 2, texts, size) == FZ_NO_SHEET && shows(&book, 0, 0, "0"));
    cells[1] = (fz_written){0, 1048576, 0, 0, 1};
    CHECK(fz_write_all(&book, cells, 2, texts, size) == FZ_OUTSIDE);
    fz_close(&book);
}

/* The number of the refusal that a change would have, or 99. */
static fz_status cause(fz_book *book, fz_change change, const char *name, const char *text)
{
    fz_status refusal = 99;
    CHECK(fz_cause(book, &change, name, strlen(name), text, strlen(text), &refusal) == FZ_DONE);
    return refusal;
}

/* It is told beforehand why a change would be refused. */
static void causes_are_told(void)
{
    static char many[8194];
    fz_book book = opened();
    fz_status refusal = 99;
    memset(many, 'x', sizeof many - 1);
    CHECK(cause(&book, (fz_change){.kind = FZ_CHANGE_SET, .row = 1}, "", "=A1") == 0);
    CHECK(cause(&book, (fz_change){.kind = FZ_CHANGE_SET}, "", many) == FZ_TEXT_LIMIT);
    CHECK(cause(&book, (fz_change){.kind = FZ_CHANGE_CLEAR, .row = 2}, "", "") == FZ_OUTSIDE);
    CHECK(cause(&book, (fz_change){.kind = FZ_CHANGE_CLEAR, .last_row = 2}, "", "") == 0);
    CHECK(cause(&book, (fz_change){.kind = FZ_CHANGE_INSERT_ROWS}, "", "") == FZ_BAD_SPAN);
    CHECK(cause(&book, (fz_change){.kind = FZ_CHANGE_INSERT_ROWS, .count = 1}, "", "") == 0);
    CHECK(cause(&book, (fz_change){.kind = FZ_CHANGE_DELETE_ROWS, .sheet = 3, .count = 1}, "", "") == FZ_NO_SHEET);
    CHECK(cause(&book, (fz_change){.kind = FZ_CHANGE_MOVE_ROWS, .count = 2, .to_row = 1}, "", "") == FZ_BAD_SPAN);
    CHECK(cause(&book, (fz_change){.kind = FZ_CHANGE_MOVE_ROWS, .count = 2, .to_row = 3}, "", "") == 0);
    CHECK(cause(&book, (fz_change){.kind = FZ_CHANGE_INSERT_COLS, .col = 18278, .count = 1}, "", "") == FZ_OUTSIDE);
    CHECK(cause(&book, (fz_change){.kind = FZ_CHANGE_DELETE_COLS, .col = 1, .count = 1}, "", "") == 0);
    CHECK(cause(&book, (fz_change){.kind = FZ_CHANGE_MOVE_COLS, .col = 1, .count = 1, .to_col = 18279}, "", "") == FZ_OUTSIDE);
    CHECK(cause(&book, (fz_change){.kind = FZ_CHANGE_MOVE_BLOCK, .last_row = 1, .to_row = 1048575}, "", "") == FZ_OUTSIDE);
    CHECK(cause(&book, (fz_change){.kind = FZ_CHANGE_MOVE_BLOCK, .last_row = 1, .to_col = 5}, "", "") == 0);
    CHECK(cause(&book, (fz_change){.kind = FZ_CHANGE_DROP_SHEET, .sheet = 1}, "", "") == FZ_NO_SHEET);
    CHECK(cause(&book, (fz_change){.kind = FZ_CHANGE_ADD_SHEET}, "PLAN", "") == FZ_SHEET_NAME_TAKEN);
    CHECK(cause(&book, (fz_change){.kind = FZ_CHANGE_RENAME_SHEET}, "", "") == FZ_SHEET_NAME_INVALID);
    CHECK(cause(&book, (fz_change){.kind = FZ_CHANGE_RENAME_SHEET}, "plan", "") == 0);
    CHECK(cause(&book, (fz_change){.kind = FZ_CHANGE_CLEAR_SHEET, .sheet = FZ_NO_NUMBER}, "", "") == FZ_NO_SHEET);
    CHECK(cause(&book, (fz_change){.kind = FZ_CHANGE_ADD_NAME, .sheet = FZ_WORKBOOK}, "rate", "=Plan!A1") == FZ_RELATIVE_ADDRESS);
    CHECK(cause(&book, (fz_change){.kind = FZ_CHANGE_ADD_NAME, .sheet = FZ_WORKBOOK}, "rate", "=Plan!$A$1") == 0);
    CHECK(cause(&book, (fz_change){.kind = FZ_CHANGE_CHANGE_NAME}, "rate", "=1") == FZ_NO_SUCH_NAME);
    CHECK(cause(&book, (fz_change){.kind = FZ_CHANGE_REMOVE_NAME, .sheet = FZ_WORKBOOK}, "rate", "") == FZ_NO_SUCH_NAME);
    CHECK(cause(&book, (fz_change){.kind = FZ_CHANGE_COPY, .last_row = 1048576}, "", "") == FZ_OUTSIDE);
    CHECK(cause(&book, (fz_change){.kind = FZ_CHANGE_CUT, .last_row = 1}, "", "") == 0);
    CHECK(cause(&book, (fz_change){.kind = FZ_CHANGE_PASTE}, "", "") == FZ_NOTHING_TO_PASTE);
    CHECK(cause(&book, (fz_change){.kind = FZ_CHANGE_COMMIT}, "", "") == FZ_NO_BATCH);
    CHECK(cause(&book, (fz_change){.kind = FZ_CHANGE_BEGIN}, "", "") == 0 && fz_begin(&book) == FZ_DONE);
    CHECK(cause(&book, (fz_change){.kind = FZ_CHANGE_BEGIN}, "", "") == FZ_BATCH_OPEN && fz_commit(&book) == FZ_DONE);
    CHECK(cause(&book, (fz_change){.kind = FZ_CHANGE_UNDO}, "", "") == 0);
    CHECK(cause(&book, (fz_change){.kind = FZ_CHANGE_REDO}, "", "") == FZ_NOTHING_TO_REDO);
    CHECK(fz_cause(&book, &(fz_change){.kind = 0}, NULL, 0, NULL, 0, &refusal) == FZ_BAD_CHANGE && refusal == 99);
    CHECK(fz_cause(&book, &(fz_change){.kind = 24}, NULL, 0, NULL, 0, &refusal) == FZ_BAD_CHANGE && refusal == 99);
    CHECK(fz_cause(&book, &(fz_change){.kind = 1}, NULL, 0, "\xff", 1, &refusal) == FZ_NOT_UTF8 && refusal == 99);
    CHECK(fz_cause(&book, &(fz_change){.kind = 11}, "\xff", 1, NULL, 0, &refusal) == FZ_NOT_UTF8 && refusal == 99);
    CHECK(fz_sheet_count(&book) == 1 && fz_can_undo(&book) && !fz_can_redo(&book));
    fz_close(&book);
}

/* Whether the text goes wrong at these bytes. */
static bool goes_wrong(fz_book *book, const char *text, size_t start, size_t length)
{
    fz_wrong wrong = {9, 9, 9};
    return fz_parse_error(book, 0, text, strlen(text), &wrong) == FZ_DONE && wrong.is_wrong == 1 && wrong.start == start
        && wrong.length == length;
}

/* It is told where a text stops being a formula. */
static void wrong_texts_are_told(void)
{
    static char many[8194];
    fz_book book = opened();
    fz_wrong wrong = {9, 9, 9};
    CHECK(fz_parse_error(&book, 0, "=SUM(A1:B2)*2", 13, &wrong) == FZ_DONE);
    CHECK(wrong.is_wrong == 0 && wrong.start == 0 && wrong.length == 0);
    CHECK(goes_wrong(&book, "=1+", 3, 0) && goes_wrong(&book, "=1+*2", 3, 1) && goes_wrong(&book, "=SUM(1,2", 8, 0));
    CHECK(goes_wrong(&book, "=1 two", 3, 3) && goes_wrong(&book, "=\"abc", 1, 4) && goes_wrong(&book, "=1)", 2, 1));
    CHECK(goes_wrong(&book, "abc", 0, 3) && goes_wrong(&book, "", 0, 0) && goes_wrong(&book, "=", 1, 0));
    CHECK(goes_wrong(&book, "=A1:\xc3\xbc", 4, 2) && goes_wrong(&book, "=A1:B", 4, 1));
    memset(many, '(', sizeof many - 1);
    many[0] = '=';
    CHECK(fz_parse_error(&book, 0, many, 8193, &wrong) == FZ_TEXT_LIMIT && wrong.is_wrong == 0);
    CHECK(fz_parse_error(&book, 0, many, 8192, &wrong) == FZ_DONE && wrong.start == 64 && wrong.length == 1);
    CHECK(fz_parse_error(&book, 1, "=1", 2, &wrong) == FZ_NO_SHEET && wrong.start == 64);
    CHECK(fz_parse_error(&book, 0, "=\xff", 2, &wrong) == FZ_NOT_UTF8 && wrong.start == 64);
    fz_close(&book);
}

/* The room is tested before anything is written, and the length that is needed is told. */
static void short_rooms(void)
{
    fz_book book = opened();
    char room[6] = "......";
    size_t length = 99;
    fz_shown value;
    CHECK(set(&book, 0, 0, "'=1+1") == FZ_DONE && set(&book, 1, 0, "=SUM(A1,2)") == FZ_DONE);
    CHECK(fz_content(&book, 0, 0, 0, room, 4, &length) == FZ_NO_ROOM && length == 5);
    CHECK(memcmp(room, "......", 6) == 0);
    CHECK(fz_content(&book, 0, 0, 0, room, 5, &length) == FZ_DONE && memcmp(room, "'=1+1.", 6) == 0);
    CHECK(fz_formula(&book, 0, 1, 0, NULL, 0, &length) == FZ_NO_ROOM && length == 10);
    CHECK(fz_value(&book, 0, 0, 0, NULL, 0, &value) == FZ_NO_ROOM && value.kind == FZ_TEXT && value.length == 4);
    CHECK(fz_value_text(&book, 0, 0, 0, NULL, 0, &length) == FZ_NO_ROOM && length == 4);
    CHECK(fz_sheet_name(&book, 0, room, 3, &length) == FZ_NO_ROOM && length == 4);
    length = 99;
    CHECK(fz_formula(&book, 0, 1048576, 0, room, sizeof room, &length) == FZ_OUTSIDE && length == 99);
    CHECK(fz_sheet_name(&book, 5, room, sizeof room, &length) == FZ_NO_SHEET && length == 99);
    CHECK(memcmp(room, "'=1+1.", 6) == 0);
    fz_close(&book);
}

static void formulas_follow(void)
{
    fz_book book = opened();
    CHECK(set(&book, 0, 0, "=B5+B9") == FZ_DONE);
    CHECK(fz_insert_rows(&book, 0, 2, 2) == FZ_DONE && reads(&book, 0, 0, "=B7+B11"));
    CHECK(fz_delete_rows(&book, 0, 10, 1) == FZ_DONE && reads(&book, 0, 0, "=B7+#REF!"));
    CHECK(fz_move_rows(&book, 0, 6, 1, 3) == FZ_DONE && reads(&book, 0, 0, "=B4+#REF!"));
    CHECK(fz_insert_cols(&book, 0, 1, 1) == FZ_DONE && reads(&book, 0, 0, "=C4+#REF!"));
    CHECK(fz_move_cols(&book, 0, 2, 1, 5) == FZ_DONE && reads(&book, 0, 0, "=E4+#REF!"));
    CHECK(fz_delete_cols(&book, 0, 1, 1) == FZ_DONE && reads(&book, 0, 0, "=D4+#REF!"));
    CHECK(fz_move_block(&book, 0, 0, 0, 0, 0, 0, 5, 5) == FZ_DONE && reads(&book, 5, 5, "=D4+#REF!"));
    CHECK(fz_insert_rows(&book, 0, 0, 0) == FZ_BAD_SPAN && fz_insert_rows(&book, 3, 0, 1) == FZ_NO_SHEET);
    fz_close(&book);
}

static void sheets_and_names(void)
{
    fz_book book = opened();
    uint32_t number = 9;
    char room[16];
    size_t length;
    fz_shown value;
    CHECK(fz_add_sheet(&book, "plan", 4, &number) == FZ_SHEET_NAME_TAKEN && number == 9);
    CHECK(fz_add_sheet(&book, "Two", 3, &number) == FZ_DONE && number == 1);
    CHECK(fz_sheet_count(&book) == 2 && fz_sheet_at(&book, 1) == 1 && fz_sheet_at(&book, 2) == FZ_NO_NUMBER);
    CHECK(fz_rename_sheet(&book, 1, "Zwei", 4) == FZ_DONE && fz_sheet_id(&book, "ZWEI", 4) == 1);
    CHECK(fz_sheet_id(&book, "Two", 3) == FZ_NO_NUMBER);
    CHECK(fz_sheet_name(&book, 1, room, sizeof room, &length) == FZ_DONE && length == 4 && memcmp(room, "Zwei", 4) == 0);
    CHECK(fz_add_name(&book, "rate", 4, FZ_WORKBOOK, "=Plan!$A$1", 10) == FZ_DONE);
    CHECK(fz_add_name(&book, "rate", 4, 1, "=2", 2) == FZ_DONE && set(&book, 0, 0, "3") == FZ_DONE);
    CHECK(fz_name_value(&book, "RATE", 4, 0, NULL, 0, &value) == FZ_DONE && value.number == 3000000);
    CHECK(fz_name_value(&book, "rate", 4, 1, NULL, 0, &value) == FZ_DONE && value.number == 2000000);
    CHECK(fz_change_name(&book, "rate", 4, 1, "=4", 2) == FZ_DONE);
    CHECK(fz_name_value(&book, "rate", 4, 1, NULL, 0, &value) == FZ_DONE && value.number == 4000000);
    CHECK(fz_remove_name(&book, "rate", 4, 1) == FZ_DONE && fz_remove_name(&book, "rate", 4, 1) == FZ_NO_SUCH_NAME);
    CHECK(fz_try(&book, 1, "=rate*2", 7, NULL, 0, &value) == FZ_DONE && value.number == 6000000);
    CHECK(fz_clear_sheet(&book, 0) == FZ_DONE && shows(&book, 0, 0, ""));
    CHECK(fz_drop_sheet(&book, 1) == FZ_DONE && fz_sheet_count(&book) == 1);
    fz_close(&book);
}

static void steps_and_batches(void)
{
    fz_book book = opened();
    fz_shown value = {7, 7, 7};
    CHECK(fz_begin(&book) == FZ_DONE && fz_has_batch(&book) && fz_begin(&book) == FZ_BATCH_OPEN);
    CHECK(set(&book, 0, 0, "1") == FZ_DONE && set(&book, 0, 1, "2") == FZ_DONE && !fz_can_undo(&book));
    CHECK(fz_value(&book, 0, 0, 0, NULL, 0, &value) == FZ_SUSPENDED && value.kind == 7 && value.number == 7);
    CHECK(fz_commit(&book) == FZ_DONE && !fz_has_batch(&book) && fz_commit(&book) == FZ_NO_BATCH);
    CHECK(fz_can_undo(&book) && !fz_can_redo(&book) && fz_undo(&book) == FZ_DONE);
    CHECK(shows(&book, 0, 0, "") && shows(&book, 0, 1, "") && fz_can_redo(&book));
    CHECK(fz_redo(&book) == FZ_DONE && shows(&book, 0, 1, "2") && fz_redo(&book) == FZ_NOTHING_TO_REDO);
    CHECK(fz_suspend(&book) == FZ_DONE && fz_is_suspended(&book));
    CHECK(fz_value(&book, 0, 0, 0, NULL, 0, &value) == FZ_SUSPENDED);
    CHECK(fz_resume(&book) == FZ_DONE && !fz_is_suspended(&book) && shows(&book, 0, 0, "1"));
    fz_close(&book);
}

/* Both lists of steps are forgotten, but not an open batch. */
static void history_is_cleared(void)
{
    fz_book book = opened();
    CHECK(set(&book, 0, 0, "1") == FZ_DONE && set(&book, 0, 0, "2") == FZ_DONE && fz_undo(&book) == FZ_DONE);
    CHECK(fz_can_undo(&book) && fz_can_redo(&book) && fz_clear_history(&book) == FZ_DONE);
    CHECK(!fz_can_undo(&book) && !fz_can_redo(&book) && shows(&book, 0, 0, "1"));
    CHECK(fz_undo(&book) == FZ_NOTHING_TO_UNDO && fz_redo(&book) == FZ_NOTHING_TO_REDO);
    CHECK(fz_clear_history(&book) == FZ_DONE && fz_begin(&book) == FZ_DONE && set(&book, 0, 0, "3") == FZ_DONE);
    CHECK(fz_clear_history(&book) == FZ_DONE && fz_has_batch(&book) && fz_commit(&book) == FZ_DONE);
    CHECK(shows(&book, 0, 0, "3") && fz_undo(&book) == FZ_DONE && shows(&book, 0, 0, "1") && !fz_can_undo(&book));
    CHECK(fz_suspend(&book) == FZ_DONE && fz_clear_history(&book) == FZ_DONE && !fz_can_redo(&book));
    fz_close(&book);
}

static void blocks_are_pasted(void)
{
    fz_book book = opened();
    CHECK(set(&book, 0, 0, "=B1") == FZ_DONE && fz_is_clipboard_empty(&book));
    CHECK(fz_copy(&book, 0, 0, 0, 0, 0) == FZ_DONE && !fz_is_clipboard_empty(&book));
    CHECK(fz_paste(&book, 0, 1, 1) == FZ_DONE && reads(&book, 1, 1, "=C2"));
    CHECK(fz_cut(&book, 0, 0, 0, 0, 0) == FZ_DONE && fz_paste(&book, 0, 2, 0) == FZ_DONE);
    CHECK(reads(&book, 2, 0, "=B1") && reads(&book, 0, 0, "") && fz_paste(&book, 0, 4, 0) == FZ_NOTHING_TO_PASTE);
    fz_close(&book);
}

static void links_are_listed(void)
{
    fz_book book = opened();
    fz_link links[3];
    char words[8] = "........";
    fz_counts counts = {0, 0};
    CHECK(fz_add_name(&book, "rate", 4, FZ_WORKBOOK, "=Plan!$A$1", 10) == FZ_DONE);
    CHECK(set(&book, 2, 0, "=SUM(A1:B1)+A1+rate") == FZ_DONE);
    CHECK(fz_precedents(&book, 0, 2, 0, links, 2, words, sizeof words, &counts) == FZ_NO_ROOM);
    CHECK(counts.links == 3 && counts.words == 4 && words[0] == '.');
    CHECK(fz_precedents(&book, 0, 2, 0, links, 3, words, sizeof words, &counts) == FZ_DONE);
    CHECK(links[0].kind == FZ_LINK_BLOCK && links[0].right == 1 && links[0].bottom == 0);
    CHECK(links[1].kind == FZ_LINK_CELL && links[1].sheet == 0 && links[1].top == 0 && links[1].left == 0);
    CHECK(links[2].kind == FZ_LINK_NAME && links[2].sheet == FZ_WORKBOOK && links[2].word_start == 0);
    CHECK(links[2].word_length == 4 && memcmp(words, "RATE....", 8) == 0);
    CHECK(fz_dependents(&book, 0, 0, 0, links, 3, words, sizeof words, &counts) == FZ_DONE);
    CHECK(counts.links == 2 && links[0].kind == FZ_LINK_CELL && links[0].top == 2 && links[1].kind == FZ_LINK_NAME);
    CHECK(fz_dependents(&book, 0, 9, 9, NULL, 0, NULL, 0, &counts) == FZ_DONE && counts.links == 0 && counts.words == 0);
    fz_close(&book);
}

/* The cells on a cycle, and not those that only read one; also where values aren't answered. */
static void cycles_are_listed(void)
{
    fz_book book = opened();
    fz_place places[4] = {{9, 9}, {9, 9}, {9, 9}, {9, 9}};
    size_t count = 9;
    uint32_t number;
    CHECK(fz_on_cycle(&book, 0, NULL, 0, &count) == FZ_DONE && count == 0);
    CHECK(set(&book, 0, 0, "=B1+1") == FZ_DONE && set(&book, 0, 1, "=A1") == FZ_DONE && set(&book, 0, 2, "=A1") == FZ_DONE);
    CHECK(set(&book, 2, 1, "=SUM(B3:B4)") == FZ_DONE && set(&book, 3, 1, "7") == FZ_DONE);
    CHECK(fz_on_cycle(&book, 0, NULL, 0, &count) == FZ_NO_ROOM && count == 3);
    count = 9;
    CHECK(fz_on_cycle(&book, 0, places, 2, &count) == FZ_NO_ROOM && count == 3 && places[0].row == 9 && places[1].col == 9);
    CHECK(fz_on_cycle(&book, 0, places, 3, &count) == FZ_DONE && count == 3 && places[3].row == 9 && places[3].col == 9);
    CHECK(places[0].row == 0 && places[0].col == 0 && places[1].row == 0 && places[1].col == 1);
    CHECK(places[2].row == 2 && places[2].col == 1 && shows(&book, 2, 1, "#CYCLE!") && shows(&book, 0, 2, "#CYCLE!"));
    CHECK(fz_add_sheet(&book, "Two", 3, &number) == FZ_DONE);
    CHECK(fz_on_cycle(&book, number, places, 4, &count) == FZ_DONE && count == 0);
    CHECK(set(&book, 0, 1, "2") == FZ_DONE && fz_suspend(&book) == FZ_DONE);
    CHECK(fz_on_cycle(&book, 0, places, 4, &count) == FZ_DONE && count == 1 && places[0].row == 2 && places[0].col == 1);
    CHECK(fz_resume(&book) == FZ_DONE && fz_begin(&book) == FZ_DONE && set(&book, 2, 1, "2") == FZ_DONE);
    CHECK(fz_on_cycle(&book, 0, NULL, 0, &count) == FZ_DONE && count == 0);
    count = 9;
    CHECK(fz_on_cycle(&book, 5, places, 4, &count) == FZ_NO_SHEET && count == 9 && places[0].row == 2);
    fz_close(&book);
}

/* Each kind of content, and which cells are filled. */
static void areas_are_told(void)
{
    fz_book book = opened();
    uint32_t kind = 9, number;
    fz_place places[5] = {{9, 9}, {9, 9}, {9, 9}, {9, 9}, {9, 9}};
    fz_used used = {9, 9, 9, 9, 9};
    size_t count = 9;
    CHECK(fz_used_area(&book, 0, &used) == FZ_DONE && used.is_used == 0);
    CHECK(used.top == 0 && used.left == 0 && used.bottom == 0 && used.right == 0);
    CHECK(fz_filled_in(&book, 0, NULL, 0, &count) == FZ_DONE && count == 0);
    CHECK(set(&book, 1, 2, "-1.5") == FZ_DONE && set(&book, 1, 3, "h\xc3\xbcte") == FZ_DONE);
    CHECK(set(&book, 2, 1, "TRUE") == FZ_DONE);
    CHECK(set(&book, 4, 1, "=A1") == FZ_DONE && set(&book, 4, 2, "=1+") == FZ_DONE);
    CHECK(fz_kind(&book, 0, 0, 0, &kind) == FZ_DONE && kind == FZ_EMPTY);
    CHECK(fz_kind(&book, 0, 1, 2, &kind) == FZ_DONE && kind == FZ_NUMBER);
    CHECK(fz_kind(&book, 0, 1, 3, &kind) == FZ_DONE && kind == FZ_TEXT);
    CHECK(fz_kind(&book, 0, 2, 1, &kind) == FZ_DONE && kind == FZ_TRUTH);
    CHECK(fz_kind(&book, 0, 4, 1, &kind) == FZ_DONE && kind == FZ_FORMULA);
    CHECK(fz_kind(&book, 0, 4, 2, &kind) == FZ_DONE && kind == FZ_UNREADABLE);
    CHECK(fz_used_area(&book, 0, &used) == FZ_DONE && used.is_used == 1);
    CHECK(used.top == 1 && used.left == 1 && used.bottom == 4 && used.right == 3);
    CHECK(fz_filled(&book, 0, 1, 1, 4, 2, places, 3, &count) == FZ_NO_ROOM && count == 4 && places[0].row == 9);
    CHECK(fz_filled(&book, 0, 1, 1, 4, 2, places, 5, &count) == FZ_DONE && count == 4);
    CHECK(places[0].row == 1 && places[0].col == 2 && places[1].row == 2 && places[1].col == 1);
    CHECK(places[3].row == 4 && places[3].col == 2 && places[4].row == 9);
    CHECK(fz_filled_in(&book, 0, places, 4, &count) == FZ_NO_ROOM && count == 5);
    CHECK(fz_filled_in(&book, 0, places, 5, &count) == FZ_DONE && places[1].row == 1 && places[1].col == 3);
    CHECK(fz_add_sheet(&book, "Two", 3, &number) == FZ_DONE);
    CHECK(fz_filled_in(&book, number, NULL, 0, &count) == FZ_DONE && count == 0);
    kind = 9;
    used.is_used = 9;
    count = 9;
    CHECK(fz_kind(&book, 5, 0, 0, &kind) == FZ_NO_SHEET && fz_kind(&book, 0, 1048576, 0, &kind) == FZ_OUTSIDE);
    CHECK(kind == 9);
    CHECK(fz_filled(&book, 5, 0, 0, 0, 0, places, 5, &count) == FZ_NO_SHEET);
    CHECK(fz_filled(&book, 0, 1, 0, 0, 0, places, 5, &count) == FZ_OUTSIDE);
    CHECK(fz_filled_in(&book, 5, places, 5, &count) == FZ_NO_SHEET && count == 9 && places[0].row == 1);
    CHECK(fz_used_area(&book, 5, &used) == FZ_NO_SHEET && used.is_used == 9);
    fz_close(&book);
}

/* What the cells of a block show, and their contents, of which both rooms have to be long enough. */
static void cells_are_listed(void)
{
    fz_book book = opened();
    fz_cell cells[5];
    char texts[16] = "................";
    fz_sizes sizes = {9, 9};
    cells[0].row = 9;
    CHECK(fz_values(&book, 0, 0, 0, 9, 9, NULL, 0, NULL, 0, &sizes) == FZ_DONE && sizes.rows == 0 && sizes.bytes == 0);
    CHECK(set(&book, 0, 0, "-1.5") == FZ_DONE && set(&book, 0, 1, "ab") == FZ_DONE);
    CHECK(set(&book, 1, 0, "=A1<0") == FZ_DONE);
    CHECK(set(&book, 1, 1, "=B1&\"c\"") == FZ_DONE && set(&book, 2, 2, "=1/0") == FZ_DONE);
    CHECK(fz_values(&book, 0, 0, 0, 2, 2, cells, 4, texts, sizeof texts, &sizes) == FZ_NO_ROOM);
    CHECK(sizes.rows == 5 && sizes.bytes == 5 && cells[0].row == 9 && texts[0] == '.');
    CHECK(fz_values(&book, 0, 0, 0, 2, 2, cells, 5, texts, 4, &sizes) == FZ_NO_ROOM);
    CHECK(sizes.rows == 5 && sizes.bytes == 5 && cells[0].row == 9 && texts[0] == '.');
    CHECK(fz_values(&book, 0, 0, 0, 2, 2, cells, 5, texts, 5, &sizes) == FZ_DONE && memcmp(texts, "ababc...", 8) == 0);
    CHECK(cells[0].row == 0 && cells[0].col == 0 && cells[0].shown.kind == FZ_NUMBER);
    CHECK(cells[0].shown.number == -1500000);
    CHECK(cells[1].col == 1 && cells[1].shown.kind == FZ_TEXT && cells[1].shown.length == 2 && cells[1].text_start == 0);
    CHECK(cells[2].row == 1 && cells[2].shown.kind == FZ_TRUTH && cells[2].shown.number == 1);
    CHECK(cells[2].shown.length == 0);
    CHECK(cells[3].shown.kind == FZ_TEXT && cells[3].shown.length == 3 && cells[3].text_start == 2);
    CHECK(cells[4].row == 2 && cells[4].col == 2 && cells[4].shown.kind == FZ_FAULT && cells[4].shown.number == FZ_DIV0);
    CHECK(fz_contents(&book, 0, 0, 1, 1, 1, cells, 2, texts, 8, &sizes) == FZ_NO_ROOM && sizes.rows == 2);
    CHECK(sizes.bytes == 9);
    CHECK(fz_contents(&book, 0, 0, 1, 1, 1, cells, 2, texts, 9, &sizes) == FZ_DONE);
    CHECK(memcmp(texts, "ab=B1&\"c\".", 10) == 0);
    CHECK(cells[0].col == 1 && cells[0].shown.kind == FZ_TEXT && cells[0].shown.length == 2);
    CHECK(cells[0].shown.number == 0);
    CHECK(cells[1].row == 1 && cells[1].text_start == 2 && cells[1].shown.length == 7);
    sizes.rows = 9;
    CHECK(fz_values(&book, 5, 0, 0, 2, 2, cells, 5, texts, 16, &sizes) == FZ_NO_SHEET);
    CHECK(fz_values(&book, 0, 0, 0, 2, 18278, cells, 5, texts, 16, &sizes) == FZ_OUTSIDE);
    CHECK(fz_contents(&book, 5, 0, 0, 2, 2, cells, 5, texts, 16, &sizes) == FZ_NO_SHEET);
    CHECK(fz_contents(&book, 0, 2, 0, 1, 2, cells, 5, texts, 16, &sizes) == FZ_OUTSIDE && sizes.rows == 9);
    CHECK(fz_suspend(&book) == FZ_DONE && fz_values(&book, 0, 0, 0, 2, 2, cells, 5, texts, 16, &sizes) == FZ_SUSPENDED);
    CHECK(sizes.rows == 9 && fz_contents(&book, 0, 0, 1, 1, 1, cells, 2, texts, 9, &sizes) == FZ_DONE && sizes.rows == 2);
    CHECK(fz_resume(&book) == FZ_DONE && fz_begin(&book) == FZ_DONE);
    CHECK(fz_values(&book, 0, 0, 0, 2, 2, cells, 5, texts, 16, &sizes) == FZ_SUSPENDED && sizes.rows == 2);
    fz_close(&book);
}

/* Names and their texts, and what is asked of the text of a formula. */
static void names_are_listed(void)
{
    fz_book book = opened();
    fz_name names[3];
    char words[9] = "........", room[16] = "...............";
    fz_sizes sizes = {9, 9};
    size_t length = 9;
    names[0].scope = 9;
    CHECK(fz_names(&book, NULL, 0, NULL, 0, &sizes) == FZ_DONE && sizes.rows == 0 && sizes.bytes == 0);
    CHECK(fz_add_name(&book, "rate", 4, 0, "=0.50*(2)", 9) == FZ_DONE);
    CHECK(fz_add_name(&book, "to", 2, FZ_WORKBOOK, "=2", 2) == FZ_DONE);
    CHECK(fz_names(&book, names, 1, words, 8, &sizes) == FZ_NO_ROOM && sizes.rows == 2 && sizes.bytes == 6);
    CHECK(fz_names(&book, names, 2, words, 5, &sizes) == FZ_NO_ROOM && names[0].scope == 9 && words[0] == '.');
    CHECK(fz_names(&book, names, 2, words, 8, &sizes) == FZ_DONE && memcmp(words, "TORATE..", 8) == 0);
    CHECK(names[0].scope == FZ_WORKBOOK && names[0].word_start == 0 && names[0].word_length == 2);
    CHECK(names[1].scope == 0 && names[1].word_start == 2 && names[1].word_length == 4);
    CHECK(fz_name_text(&book, "RATE", 4, 0, room, 7, &length) == FZ_NO_ROOM && length == 8 && room[0] == '.');
    CHECK(fz_name_text(&book, "RATE", 4, 0, room, 8, &length) == FZ_DONE && memcmp(room, "=0.5*(2).", 9) == 0);
    CHECK(fz_name_text(&book, "to", 2, FZ_WORKBOOK, room, 8, &length) == FZ_DONE && length == 2);
    CHECK(memcmp(room, "=2", 2) == 0);
    length = 9;
    CHECK(fz_name_text(&book, "to", 2, 0, room, 8, &length) == FZ_NO_SUCH_NAME);
    CHECK(fz_name_text(&book, "to", 2, 5, room, 8, &length) == FZ_NO_SHEET);
    CHECK(length == 9 && memcmp(room, "=2", 2) == 0);
    CHECK(fz_normal_text(&book, 0, "= sum( a1 )", 11, room, 7, &length) == FZ_NO_ROOM && length == 8);
    CHECK(memcmp(room, "=2", 2) == 0);
    CHECK(fz_normal_text(&book, 0, "= sum( a1 )", 11, room, 8, &length) == FZ_DONE && memcmp(room, "=SUM(A1)", 8) == 0);
    length = 9;
    CHECK(fz_normal_text(&book, 0, "sum", 3, room, 8, &length) == FZ_BAD_FORMULA);
    CHECK(fz_normal_text(&book, 5, "=1", 2, room, 8, &length) == FZ_NO_SHEET);
    CHECK(length == 9 && memcmp(room, "=SUM(A1)", 8) == 0);
    CHECK(fz_names_in(&book, 0, "=ab+rate*AB", 11, names, 1, words, 8, &sizes) == FZ_NO_ROOM);
    CHECK(sizes.rows == 2 && sizes.bytes == 6);
    CHECK(fz_names_in(&book, 0, "=ab+rate*AB", 11, names, 2, words, 5, &sizes) == FZ_NO_ROOM && words[0] == 'T');
    CHECK(fz_names_in(&book, 0, "=ab+rate*AB", 11, names, 2, words, 6, &sizes) == FZ_DONE);
    CHECK(memcmp(words, "ABRATE..", 8) == 0);
    CHECK(names[0].scope == FZ_NO_NUMBER && names[0].word_length == 2 && names[1].scope == FZ_NO_NUMBER);
    CHECK(names[1].word_start == 2 && names[1].word_length == 4);
    sizes.rows = 9;
    CHECK(fz_names_in(&book, 0, "=ab+", 4, names, 2, words, 8, &sizes) == FZ_BAD_FORMULA);
    CHECK(fz_names_in(&book, 5, "=ab", 3, names, 2, words, 8, &sizes) == FZ_NO_SHEET && sizes.rows == 9);
    CHECK(fz_names_in(&book, 0, "=1", 2, NULL, 0, NULL, 0, &sizes) == FZ_DONE && sizes.rows == 0 && sizes.bytes == 0);
    fz_close(&book);
}

/* The clipboard is emptied, and a formula that no read took along is in idle time, at what it costs. */
static void idle_time(void)
{
    fz_book book = opened();
    uint32_t none_left = 9;
    CHECK(set(&book, 9, 0, "=B9") == FZ_DONE && fz_copy(&book, 0, 9, 0, 9, 0) == FZ_DONE);
    CHECK(!fz_is_clipboard_empty(&book));
    CHECK(fz_clear_clipboard(&book) == FZ_DONE && fz_is_clipboard_empty(&book));
    CHECK(fz_paste(&book, 0, 0, 0) == FZ_NOTHING_TO_PASTE);
    CHECK(fz_clear_clipboard(&book) == FZ_DONE && fz_settle_idle(&book, 0, &none_left) == FZ_DONE && none_left == 1);
    CHECK(fz_insert_rows(&book, 0, 0, 1) == FZ_DONE && fz_insert_rows(&book, 0, 0, 2) == FZ_DONE);
    CHECK(fz_settle_idle(&book, 1, &none_left) == FZ_DONE && none_left == 0);
    CHECK(fz_settle_idle(&book, 2, &none_left) == FZ_DONE && none_left == 1);
    CHECK(fz_settle_idle(&book, 0, &none_left) == FZ_DONE && none_left == 1 && reads(&book, 12, 0, "=B12"));
    fz_close(&book);
}

static void rules_are_called(void)
{
    static const fz_pair pairs[] = {{0, 1500000}, {500000, 2750000}, {0, 100000}, {1000000000, 200000}};
    fz_rule rules[] = {{0, 4, 0, 2, false}, {4, 3, 2, 2, true}};
    fz_book book = FZ_CLOSED;
    uint32_t sheet;
    CHECK(fz_open(&book, 20, TODAY, rules, 2, pairs, 4, "POSTTAX", 7) == FZ_DONE);
    CHECK(fz_add_sheet(&book, "Plan", 4, &sheet) == FZ_DONE);
    CHECK(set(&book, 0, 0, "=Post(0.5)") == FZ_DONE && shows(&book, 0, 0, "2.75"));
    CHECK(set(&book, 0, 0, "=POST(-1)") == FZ_DONE && shows(&book, 0, 0, "#N/A"));
    CHECK(set(&book, 0, 0, "=tax(2000)") == FZ_DONE && shows(&book, 0, 0, "300"));
    fz_close(&book);
    rules[1].word_length = 4;
    CHECK(fz_open(&book, 20, TODAY, rules, 2, pairs, 4, "POSTTAX", 7) == FZ_BAD_TABLE && !fz_is_open(&book));
    rules[1] = rules[0];
    CHECK(fz_open(&book, 20, TODAY, rules, 2, pairs, 4, "POSTTAX", 7) == FZ_BAD_TABLE);
    rules[0] = (fz_rule){0, 3, 0, 2, false};
    CHECK(fz_open(&book, 20, TODAY, rules, 1, pairs, 4, "SUM", 3) == FZ_BAD_TABLE);
    CHECK(fz_open(&book, 20, TODAY, rules, 1, pairs, 4, "\xff\xfe\xfd", 3) == FZ_BAD_TABLE);
    rules[0] = (fz_rule){0, 3, SIZE_MAX, 2, false};
    CHECK(fz_open(&book, 20, TODAY, rules, 1, pairs, 4, "TAX", 3) == FZ_BAD_TABLE);
}

/* Bytes that are no UTF-8 change nothing, whatever the call. */
static void bytes_that_are_no_text(void)
{
    fz_book book = opened();
    uint32_t number = 9;
    fz_shown value = {7, 7, 7};
    size_t length = 7;
    fz_sizes sizes = {7, 7};
    CHECK(fz_set(&book, 0, 0, 0, "\xff", 1) == FZ_NOT_UTF8 && !shows(&book, 0, 0, "\xff"));
    CHECK(fz_set_text(&book, 0, 0, 0, "\xff", 1) == FZ_NOT_UTF8 && shows(&book, 0, 0, ""));
    CHECK(fz_add_sheet(&book, "\xc3", 1, &number) == FZ_NOT_UTF8 && number == 9);
    CHECK(fz_rename_sheet(&book, 0, "\xc3", 1) == FZ_NOT_UTF8);
    CHECK(fz_add_name(&book, "a\xff", 2, FZ_WORKBOOK, "=1", 2) == FZ_NOT_UTF8);
    CHECK(fz_add_name(&book, "ab", 2, FZ_WORKBOOK, "=\xff", 2) == FZ_NOT_UTF8);
    CHECK(fz_change_name(&book, "ab", 2, FZ_WORKBOOK, "=\xff", 2) == FZ_NOT_UTF8);
    CHECK(fz_remove_name(&book, "\xff", 1, FZ_WORKBOOK) == FZ_NOT_UTF8);
    CHECK(fz_name_value(&book, "\xff", 1, 0, NULL, 0, &value) == FZ_NOT_UTF8 && value.kind == 7);
    CHECK(fz_try(&book, 0, "=\xff", 2, NULL, 0, &value) == FZ_NOT_UTF8 && value.kind == 7);
    CHECK(fz_sheet_id(&book, "\xff", 1) == FZ_NO_NUMBER && fz_sheet_count(&book) == 1);
    CHECK(fz_name_text(&book, "\xff", 1, FZ_WORKBOOK, NULL, 0, &length) == FZ_NOT_UTF8 && length == 7);
    CHECK(fz_normal_text(&book, 0, "=\xff", 2, NULL, 0, &length) == FZ_NOT_UTF8 && length == 7);
    CHECK(fz_names_in(&book, 0, "=\xff", 2, NULL, 0, NULL, 0, &sizes) == FZ_NOT_UTF8 && sizes.rows == 7);
    fz_close(&book);
}

/* A book that holds no workbook answers so, and is closed as often as one likes. */
static void closed_books(void)
{
    fz_book book = FZ_CLOSED;
    fz_shown value = {7, 7, 7};
    size_t length = 7;
    uint32_t number = 7;
    fz_status refusal = 7;
    fz_wrong wrong = {7, 7, 7};
    fz_counts counts = {7, 7};
    fz_used used = {7, 7, 7, 7, 7};
    fz_sizes sizes = {7, 7};
    CHECK(sizeof book == 16 && !fz_is_open(&book));
    fz_close(&book);
    CHECK(set(&book, 0, 0, "1") == FZ_NOT_OPEN && fz_undo(&book) == FZ_NOT_OPEN && fz_suspend(&book) == FZ_NOT_OPEN);
    CHECK(fz_set_number(&book, 0, 0, 0, 1) == FZ_NOT_OPEN && fz_set_truth(&book, 0, 0, 0, true) == FZ_NOT_OPEN);
    CHECK(fz_set_text(&book, 0, 0, 0, "1", 1) == FZ_NOT_OPEN && fz_clear_history(&book) == FZ_NOT_OPEN);
    CHECK(fz_on_cycle(&book, 0, NULL, 0, &length) == FZ_NOT_OPEN && length == 7);
    CHECK(fz_write_all(&book, NULL, 0, NULL, 0) == FZ_NOT_OPEN);
    CHECK(fz_parse_error(&book, 0, "=", 1, &wrong) == FZ_NOT_OPEN && wrong.is_wrong == 7);
    CHECK(fz_cause(&book, &(fz_change){.kind = FZ_CHANGE_UNDO}, NULL, 0, NULL, 0, &refusal) == FZ_NOT_OPEN && refusal == 7);
    CHECK(fz_add_sheet(&book, "Plan", 4, &number) == FZ_NOT_OPEN && number == 7);
    CHECK(fz_value(&book, 0, 0, 0, NULL, 0, &value) == FZ_NOT_OPEN && value.kind == 7);
    CHECK(fz_formula(&book, 0, 0, 0, NULL, 0, &length) == FZ_NOT_OPEN && length == 7);
    CHECK(fz_precedents(&book, 0, 0, 0, NULL, 0, NULL, 0, &counts) == FZ_NOT_OPEN && counts.links == 7);
    CHECK(fz_sheet_name(&book, 0, NULL, 0, &length) == FZ_NOT_OPEN && length == 7);
    CHECK(fz_kind(&book, 0, 0, 0, &number) == FZ_NOT_OPEN && fz_settle_idle(&book, 9, &number) == FZ_NOT_OPEN);
    CHECK(number == 7);
    CHECK(fz_filled(&book, 0, 0, 0, 0, 0, NULL, 0, &length) == FZ_NOT_OPEN);
    CHECK(fz_filled_in(&book, 0, NULL, 0, &length) == FZ_NOT_OPEN);
    CHECK(fz_used_area(&book, 0, &used) == FZ_NOT_OPEN && used.is_used == 7 && fz_clear_clipboard(&book) == FZ_NOT_OPEN);
    CHECK(fz_values(&book, 0, 0, 0, 0, 0, NULL, 0, NULL, 0, &sizes) == FZ_NOT_OPEN);
    CHECK(fz_contents(&book, 0, 0, 0, 0, 0, NULL, 0, NULL, 0, &sizes) == FZ_NOT_OPEN);
    CHECK(fz_names(&book, NULL, 0, NULL, 0, &sizes) == FZ_NOT_OPEN);
    CHECK(fz_name_text(&book, "a", 1, 0, NULL, 0, &length) == FZ_NOT_OPEN);
    CHECK(fz_normal_text(&book, 0, "=1", 2, NULL, 0, &length) == FZ_NOT_OPEN && length == 7);
    CHECK(fz_names_in(&book, 0, "=1", 2, NULL, 0, NULL, 0, &sizes) == FZ_NOT_OPEN && sizes.rows == 7 && sizes.bytes == 7);
    CHECK(!fz_can_undo(&book) && !fz_can_redo(&book) && !fz_has_batch(&book) && !fz_is_suspended(&book));
    CHECK(fz_is_clipboard_empty(&book) && fz_sheet_count(&book) == 0 && fz_sheet_at(&book, 0) == FZ_NO_NUMBER);
    CHECK(fz_open(&book, 1001, TODAY, NULL, 0, NULL, 0, NULL, 0) == FZ_BAD_LIMIT && !fz_is_open(&book));
    CHECK(fz_open(&book, 1000, TODAY, NULL, 0, NULL, 0, NULL, 0) == FZ_DONE && fz_is_open(&book));
    CHECK(fz_open(&book, 20, TODAY, NULL, 0, NULL, 0, NULL, 0) == FZ_STILL_OPEN && fz_is_open(&book));
    fz_close(&book);
    fz_close(&book);
    CHECK(fz_begin(&book) == FZ_NOT_OPEN && fz_drop_sheet(&book, 0) == FZ_NOT_OPEN);
}

int main(void)
{
    cells_and_values();
    numbers_and_truths_are_given();
    texts_are_given();
    many_cells_are_written();
    causes_are_told();
    wrong_texts_are_told();
    short_rooms();
    formulas_follow();
    sheets_and_names();
    steps_and_batches();
    history_is_cleared();
    blocks_are_pasted();
    links_are_listed();
    cycles_are_listed();
    areas_are_told();
    cells_are_listed();
    names_are_listed();
    idle_time();
    rules_are_called();
    bytes_that_are_no_text();
    closed_books();
    printf(failures == 0 ? "all as it should be\n" : "%d otherwise\n", failures);
    return failures != 0;
}
