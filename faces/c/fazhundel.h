/* The calls of the workbook engine for C and C++.
 *
 *     fz_book book = FZ_CLOSED;
 *     uint32_t sheet;
 *     if (fz_open(&book, 20, 45292, NULL, 0, NULL, 0, NULL, 0) == FZ_DONE
 *         && fz_add_sheet(&book, "Invoice", 7, &sheet) == FZ_DONE) {
 *         fz_set(&book, sheet, 0, 0, "=2*3", 4);
 *     }
 *     fz_close(&book);
 *
 * Each call but the few that answer a truth value or a number ends with a status. In each case but FZ_DONE the workbook is as
 * it was, with its steps of undo and what waits to be pasted, and so are the caller's rooms and counts; FZ_NO_ROOM, which only
 * questions answer, tells the length that is needed. Which refusals a call has docs/SCRIPT.md says at the command of its name.
 *
 * Places. Rows and columns are counted from 0: A1 is row 0 and column 0. A sheet has 1,048,576 rows and 18,278 columns, and
 * a number that fz_add_sheet tells and that no other sheet of the workbook ever gets. A block is given by its first and
 * last row and column.
 *
 * Texts are UTF-8, by their place and their length in bytes; no zero byte ends them. Bytes that are no UTF-8 are refused
 * before anything else. A text of no bytes may be at any place, NULL among them.
 *
 * Rooms. A text that a call answers is written at the head of a room of the caller's, and its length is told. Where the
 * room is too short nothing is written, the status is FZ_NO_ROOM and the length that is needed is told all the same, so
 * a room of 0 bytes asks for it. A room of no bytes may be at any place, NULL among them. Behind the text the room is as it
 * was. So it is with a list of rows, and with one whose rows have texts: these stand one after the other in a room of their
 * own, and where one of the two rooms is too short neither is written.
 *
 * Pointers to a book, a change, a number, a count, a length, a value, a used area, a part of a text, counts or sizes are never NULL, and no two pointers
 * of one call lead to the same memory.
 *
 * Threads. A workbook is used by one thread: the one that opened it makes each call and closes it. Different threads may
 * each have workbooks of their own at the same time. No call may be made from a signal handler, or in the child of a fork
 * of a program with several threads.
 *
 * Memory comes from malloc, realloc and free. Where malloc has none, the call ends with FZ_NO_MEMORY.
 */
#ifndef FAZHUNDEL_H
#define FAZHUNDEL_H

#include <stdbool.h>
#include <stddef.h>
#include <stdint.h>

#ifdef __cplusplus
extern "C" {
#endif

/* How a call ended. */
typedef uint8_t fz_status;

enum {
    FZ_DONE = 0,
    /* The call was refused: the number of the refusal, and why. */
    FZ_NO_SHEET = 1,            /* there is no such sheet */
    FZ_SHEET_NAME_TAKEN = 2,    /* another sheet has the name, in some case of its ASCII letters */
    FZ_SHEET_NAME_INVALID = 3,  /* the name hasn't 1 to 100 bytes, or has a control character */
    FZ_OUTSIDE = 4,             /* the place, the block or the rows or columns aren't inside the sheet */
    FZ_SIZE_LIMIT = 5,          /* a filled cell would be pushed off the sheet */
    FZ_CELL_LIMIT = 6,          /* more than 1,000,000 cells would be filled */
    FZ_NAME_TAKEN = 7,          /* the scope has a name of this word */
    FZ_NAME_INVALID = 8,        /* the word can't be a name */
    FZ_NO_SUCH_NAME = 9,        /* there is no name of this word */
    FZ_RELATIVE_ADDRESS = 10,   /* a reference of a name's formula lacks a $, or, for the whole workbook, its sheet */
    FZ_NOTHING_TO_UNDO = 11,
    FZ_NOTHING_TO_REDO = 12,
    FZ_NOTHING_TO_PASTE = 13,
    FZ_SUSPENDED = 14,          /* evaluation is suspended, or a batch is open */
    FZ_BATCH_OPEN = 15,
    FZ_NO_BATCH = 16,
    FZ_BAD_SPAN = 17,           /* no rows or columns are named, or they would stay where they are */
    FZ_TEXT_LIMIT = 18,         /* the text has more than 8,192 bytes */
    FZ_SHEET_LIMIT = 19,        /* all 1,024 numbers of sheets were given out */
    FZ_BAD_FORMULA = 20,        /* the text doesn't begin with =, or is no formula */
    /* Any other end. */
    FZ_NO_MEMORY = 64,
    FZ_NO_ROOM = 65,            /* the call was done, but its answer has no place in the room */
    FZ_NOT_OPEN = 66,           /* the book holds no workbook */
    FZ_NOT_UTF8 = 67,           /* bytes that were to be a text aren't UTF-8 */
    FZ_BAD_LIMIT = 68,          /* more than 1,000 steps were to be undone */
    FZ_BAD_TABLE = 69,          /* the rules aren't those of custom functions */
    FZ_STILL_OPEN = 70,         /* the book holds a workbook already */
    FZ_BAD_NUMBER = 71,         /* a number is 10^12 or more in absolute value */
    FZ_BAD_CELLS = 72,          /* cells to write don't stand in order, each once, or a text isn't among the bytes, or no UTF-8 */
    FZ_BAD_CHANGE = 73          /* no change has this number */
};

/* A number that no sheet has: as a scope, the whole workbook. */
#define FZ_NO_NUMBER UINT32_MAX
#define FZ_WORKBOOK FZ_NO_NUMBER

/* Holds a workbook, or none. It begins as FZ_CLOSED. Only the calls below read or write what is in it; it may be moved to
 * another place, and is never copied: of two copies that are both used, one holds memory that the other freed. */
typedef struct fz_book {
    bool is_open;
    void *held;
} fz_book;

#define FZ_CLOSED {false, NULL}

/* Custom functions of one value, as rules. A rule has 1 to 64 pairs of numbers in millionths, whose first numbers rise.
 * Bands answer the second number of the last pair whose first one isn't above the value, and #N/A below the first pair.
 * Tiers, of which the first begins at 0, answer the sum over all tiers of the rate times the part of the value that lies in
 * the tier, and #NUM! of a negative value. */
typedef struct fz_rule {
    size_t word_start;   /* where the function's word begins among the bytes of all words */
    size_t word_length;
    size_t pairs_start;  /* where its pairs begin among the pairs of all rules, counted in pairs */
    size_t pairs_count;
    bool has_tiers;      /* tiers, else bands */
} fz_rule;

typedef struct fz_pair {
    int64_t from;
    int64_t gives;
} fz_pair;

/* Opens a workbook without sheets. At most undo_limit steps can be undone, which is at most 1,000. Formulas see the day of
 * this serial number, counted from 1899-12-30, as today: 45,292 is 2024-01-01. They can call the custom functions of the
 * rules, whose words are letters, digits, _ and . behind a letter or _, differ in any case of their letters, and are none
 * of the words of docs/FORMULAS.md. FZ_STILL_OPEN, FZ_BAD_LIMIT, FZ_BAD_TABLE. */
fz_status fz_open(fz_book *book, uint32_t undo_limit, int32_t today, const fz_rule *rules, size_t rule_count,
                  const fz_pair *pairs, size_t pair_count, const char *words, size_t words_length);

/* Closes the workbook and frees its memory. A book that holds none stays so. */
void fz_close(fz_book *book);

bool fz_is_open(const fz_book *book);

/* Changes. Each that is done is a step of undo, or a part of the open batch's. */

/* Gives a cell the content that the text says: nothing, a formula behind =, a number, TRUE or FALSE, or a text. */
fz_status fz_set(fz_book *book, uint32_t sheet, uint32_t row, uint32_t col, const char *text, size_t length);
/* Gives a cell a number of so many millionths, without a text. FZ_BAD_NUMBER. */
fz_status fz_set_number(fz_book *book, uint32_t sheet, uint32_t row, uint32_t col, int64_t millionths);
/* Gives a cell a truth value. */
fz_status fz_set_truth(fz_book *book, uint32_t sheet, uint32_t row, uint32_t col, bool truth);
/* Gives a cell this text as it is, which needs no apostrophe: 007 stays three characters, =A1 is no formula, and no bytes are
 * a text too. The apostrophe that fz_content answers in front of such a text counts among the 8,192 bytes. */
fz_status fz_set_text(fz_book *book, uint32_t sheet, uint32_t row, uint32_t col, const char *text, size_t length);

/* A cell to write. */
typedef struct fz_written {
    uint32_t sheet;
    uint32_t row;
    uint32_t col;
    size_t text_start;   /* where its text begins among the bytes of all texts */
    size_t text_length;
} fz_written;

/* Gives each of these cells the content that its text says, as one change: one step of undo. The cells stand in order of their
 * sheets, in a sheet of their rows, in a row of their columns, and each once; their texts may overlap. Where one text is
 * refused all cells stay as they were. FZ_BAD_CELLS, before any refusal. */
fz_status fz_write_all(fz_book *book, const fz_written *cells, size_t count, const char *texts, size_t texts_size);
/* Empties the cells of a block. */
fz_status fz_clear(fz_book *book, uint32_t sheet, uint32_t top, uint32_t left, uint32_t bottom, uint32_t right);
/* Puts so many rows or columns before one of the sheet. */
fz_status fz_insert_rows(fz_book *book, uint32_t sheet, uint32_t at, uint32_t count);
fz_status fz_insert_cols(fz_book *book, uint32_t sheet, uint32_t at, uint32_t count);
/* Deletes so many rows or columns of the sheet from one on. */
fz_status fz_delete_rows(fz_book *book, uint32_t sheet, uint32_t at, uint32_t count);
fz_status fz_delete_cols(fz_book *book, uint32_t sheet, uint32_t at, uint32_t count);
/* Moves so many rows or columns of the sheet from one on to before another one. */
fz_status fz_move_rows(fz_book *book, uint32_t sheet, uint32_t from, uint32_t count, uint32_t before);
fz_status fz_move_cols(fz_book *book, uint32_t sheet, uint32_t from, uint32_t count, uint32_t before);
/* Moves the cells of a block to the block of the same size that begins at a place. */
fz_status fz_move_block(fz_book *book, uint32_t sheet, uint32_t top, uint32_t left, uint32_t bottom, uint32_t right,
                        uint32_t to_sheet, uint32_t to_row, uint32_t to_col);
/* Adds a sheet at the end of the list, and tells its number. */
fz_status fz_add_sheet(fz_book *book, const char *name, size_t length, uint32_t *number);
/* Drops a sheet with its cells and the names of its scope. */
fz_status fz_drop_sheet(fz_book *book, uint32_t sheet);
fz_status fz_rename_sheet(fz_book *book, uint32_t sheet, const char *name, size_t length);
/* Empties the cells of a sheet. */
fz_status fz_clear_sheet(fz_book *book, uint32_t sheet);
/* Named expressions, in the scope of a sheet or of FZ_WORKBOOK. The text begins with =, each reference in it has its $, and for
 * FZ_WORKBOOK its sheet: =Invoice!$A$1. */
fz_status fz_add_name(fz_book *book, const char *name, size_t name_length, uint32_t scope, const char *text, size_t length);
fz_status fz_change_name(fz_book *book, const char *name, size_t name_length, uint32_t scope, const char *text, size_t length);
fz_status fz_remove_name(fz_book *book, const char *name, size_t name_length, uint32_t scope);
/* Pastes what was copied or cut, its first cell at a place. */
fz_status fz_paste(fz_book *book, uint32_t sheet, uint32_t row, uint32_t col);

/* What is no step: blocks that are copied or cut, steps taken back and done again, batches, suspended evaluation. */

fz_status fz_copy(fz_book *book, uint32_t sheet, uint32_t top, uint32_t left, uint32_t bottom, uint32_t right);
fz_status fz_cut(fz_book *book, uint32_t sheet, uint32_t top, uint32_t left, uint32_t bottom, uint32_t right);
/* Empties the clipboard: nothing waits to be pasted then. Nothing refuses it. */
fz_status fz_clear_clipboard(fz_book *book);
fz_status fz_undo(fz_book *book);
fz_status fz_redo(fz_book *book);
/* Forgets the steps that can be undone and done again; an open batch stays open. Nothing refuses it. */
fz_status fz_clear_history(fz_book *book);
/* The changes from begin to commit are one step; values aren't answered in between. */
fz_status fz_begin(fz_book *book);
fz_status fz_commit(fz_book *book);
/* Values aren't answered from suspend to resume. */
fz_status fz_suspend(fz_book *book);
fz_status fz_resume(fz_book *book);
/* Spends idle time on formulas that weren't read since structural operations went past them, so that no later call takes
 * all of them over these at once. Each costs as many units of the budget as there are such operations, and one for which
 * what is left of it doesn't suffice stays as it is. Tells 1 where no such formula is left, else 0. What every other call
 * answers is as before. */
fz_status fz_settle_idle(fz_book *book, uint64_t budget, uint32_t *none_left);

/* Questions. None of them changes the workbook. */

enum { FZ_EMPTY = 0, FZ_NUMBER = 1, FZ_TEXT = 2, FZ_TRUTH = 3, FZ_FAULT = 4 };

/* The numbers of faults. */
enum {
    FZ_DIV0 = 1,   /* #DIV/0! */
    FZ_NAME = 2,   /* #NAME? */
    FZ_VALUE = 3,  /* #VALUE! */
    FZ_NUM = 4,    /* #NUM! */
    FZ_NA = 5,     /* #N/A */
    FZ_CYCLE = 6,  /* #CYCLE! */
    FZ_REF = 7,    /* #REF! */
    FZ_ERROR = 8   /* #ERROR! */
};

/* A value. */
typedef struct fz_shown {
    uint32_t kind;   /* FZ_EMPTY to FZ_FAULT */
    int64_t number;  /* of a number its millionths, of a truth value 1 or 0, of a fault its number; else 0 */
    size_t length;   /* of a text its bytes, which are in the room; else 0 */
} fz_shown;

/* What a cell shows. */
fz_status fz_value(fz_book *book, uint32_t sheet, uint32_t row, uint32_t col, char *room, size_t size, fz_shown *value);
/* The same as a text: -3, 0.5, TRUE, #DIV/0!. */
fz_status fz_value_text(fz_book *book, uint32_t sheet, uint32_t row, uint32_t col, char *room, size_t size, size_t *length);
/* What a name shows that the word finds on the sheet. */
fz_status fz_name_value(fz_book *book, const char *name, size_t name_length, uint32_t sheet, char *room, size_t size,
                        fz_shown *value);
/* What the formula of the text would show in A1 of the sheet, without being in a cell. */
fz_status fz_try(fz_book *book, uint32_t sheet, const char *text, size_t text_length, char *room, size_t size, fz_shown *value);
/* The text of a cell's formula; no bytes where the cell has none. */
fz_status fz_formula(fz_book *book, uint32_t sheet, uint32_t row, uint32_t col, char *room, size_t size, size_t *length);
/* The text that gives the cell its content, when fz_set is given it. */
fz_status fz_content(fz_book *book, uint32_t sheet, uint32_t row, uint32_t col, char *room, size_t size, size_t *length);

/* The kinds of contents that are no kinds of values: a formula, and one that has no tree and is kept as its text. */
enum { FZ_FORMULA = 5, FZ_UNREADABLE = 6 };

/* What kind of content a cell has: FZ_EMPTY, FZ_NUMBER, FZ_TEXT, FZ_TRUTH, FZ_FORMULA or FZ_UNREADABLE. */
fz_status fz_kind(fz_book *book, uint32_t sheet, uint32_t row, uint32_t col, uint32_t *kind);

/* Areas. A cell is filled where it has a content, also a formula that shows nothing. */

/* A place of the sheet that was asked for. */
typedef struct fz_place {
    uint32_t row;
    uint32_t col;
} fz_place;

/* The filled places of a block, row by row, and how many there are. */
fz_status fz_filled(fz_book *book, uint32_t sheet, uint32_t top, uint32_t left, uint32_t bottom, uint32_t right,
                    fz_place *places, size_t place_room, size_t *count);
/* Those of a sheet. */
fz_status fz_filled_in(fz_book *book, uint32_t sheet, fz_place *places, size_t place_room, size_t *count);

/* How far a sheet is used: the least block over its filled cells. */
typedef struct fz_used {
    uint32_t is_used;  /* 1; or 0 where no cell is filled, and so the next four */
    uint32_t top;
    uint32_t left;
    uint32_t bottom;
    uint32_t right;
} fz_used;

fz_status fz_used_area(fz_book *book, uint32_t sheet, fz_used *used);

/* A filled cell of the sheet that was asked for. */
typedef struct fz_cell {
    uint32_t row;
    uint32_t col;
    fz_shown shown;     /* what it shows, as fz_value tells it, or its content, which is always a text */
    size_t text_start;  /* how many bytes the texts before its own have: where it begins in the room of texts */
} fz_cell;

/* How much room a list needs whose rows have texts, told as a length is. */
typedef struct fz_sizes {
    size_t rows;
    size_t bytes;  /* those of all texts */
} fz_sizes;

/* What the filled cells of a block show, row by row. Values aren't answered in a batch or suspended. */
fz_status fz_values(fz_book *book, uint32_t sheet, uint32_t top, uint32_t left, uint32_t bottom, uint32_t right,
                    fz_cell *cells, size_t cell_room, char *texts, size_t texts_size, fz_sizes *sizes);
/* The texts that give them their contents. */
fz_status fz_contents(fz_book *book, uint32_t sheet, uint32_t top, uint32_t left, uint32_t bottom, uint32_t right,
                      fz_cell *cells, size_t cell_room, char *texts, size_t texts_size, fz_sizes *sizes);

/* Names and formulas as such. */

/* A name, its word in capitals. */
typedef struct fz_name {
    uint32_t scope;      /* a sheet's number or FZ_WORKBOOK; of fz_names_in always FZ_NO_NUMBER */
    size_t word_start;   /* how many bytes the words before it have: where it begins in the room of words */
    size_t word_length;
} fz_name;

/* All names: those of the whole workbook, then those of each sheet by its number, within a scope by the bytes of words. */
fz_status fz_names(fz_book *book, fz_name *names, size_t name_room, char *words, size_t words_size, fz_sizes *sizes);
/* The text of the formula of a scope's own name, which fz_add_name and fz_change_name take. */
fz_status fz_name_text(fz_book *book, const char *name, size_t name_length, uint32_t scope, char *room, size_t size,
                       size_t *length);
/* The text that fz_formula answers of a cell of the sheet that is given the formula of the text, without being in a cell. */
fz_status fz_normal_text(fz_book *book, uint32_t sheet, const char *text, size_t text_length, char *room, size_t size,
                         size_t *length);

/* A part of a text. */
typedef struct fz_wrong {
    uint32_t is_wrong;  /* 1; or 0 where the text is a formula, and so the next two */
    size_t start;       /* the byte at which it begins */
    size_t length;      /* how many bytes it has */
} fz_wrong;

/* Where a text stops being a formula: its first token at which no formula goes on. At the end of the text the part has no bytes:
 * the text is but the front of formulas. A text that doesn't begin with = is wrong as a whole, and where no token begins, as at
 * a quote that isn't closed, the rest of the text is. FZ_NO_SHEET, FZ_TEXT_LIMIT. */
fz_status fz_parse_error(fz_book *book, uint32_t sheet, const char *text, size_t length, fz_wrong *wrong);
/* The words that the formula of the text uses as names, in its order and each once, also where there is no such name. */
fz_status fz_names_in(fz_book *book, uint32_t sheet, const char *text, size_t text_length, fz_name *names, size_t name_room,
                      char *words, size_t words_size, fz_sizes *sizes);

/* Links. */

enum { FZ_LINK_CELL = 0, FZ_LINK_BLOCK = 1, FZ_LINK_NAME = 2 };

/* A link of a formula: a cell, a block, or a name by its scope and its word. */
typedef struct fz_link {
    uint32_t kind;       /* FZ_LINK_CELL to FZ_LINK_NAME */
    uint32_t sheet;      /* of a name its scope, or FZ_WORKBOOK */
    uint32_t top;        /* of a cell its row; of a name 0, and so the next three */
    uint32_t left;
    uint32_t bottom;
    uint32_t right;
    size_t word_start;   /* where a name's word begins in the room of words; else 0 */
    size_t word_length;
} fz_link;

/* How much room an answer of links needs, told as a length is. */
typedef struct fz_counts {
    size_t links;
    size_t words;  /* the bytes of the words of names */
} fz_counts;

/* What a cell's formula needs, in its order and each once. Where one of the two rooms is too short neither is written. */
fz_status fz_precedents(fz_book *book, uint32_t sheet, uint32_t row, uint32_t col, fz_link *links, size_t link_room,
                        char *words, size_t words_size, fz_counts *counts);
/* The cells and then the names whose formulas need a cell. */
fz_status fz_dependents(fz_book *book, uint32_t sheet, uint32_t row, uint32_t col, fz_link *links, size_t link_room,
                        char *words, size_t words_size, fz_counts *counts);
/* The cells of a sheet that are on a cycle, row by row, and how many there are: those whose needs lead back to them. A cell
 * that only reads one of these isn't among them. They are told in a batch and suspended too. FZ_NO_SHEET. */
fz_status fz_on_cycle(fz_book *book, uint32_t sheet, fz_place *places, size_t place_room, size_t *count);

/* What a workbook is in. Of a book that holds none: false, an empty clipboard, no sheets. */

bool fz_can_undo(fz_book *book);
bool fz_can_redo(fz_book *book);
bool fz_has_batch(fz_book *book);
bool fz_is_suspended(fz_book *book);
bool fz_is_clipboard_empty(fz_book *book);

/* The changes that can be asked about, and what each needs of the numbers, of the name and of the text. */
enum {
    FZ_CHANGE_SET = 1,           /* sheet, row, col, text */
    FZ_CHANGE_CLEAR = 2,         /* sheet, row, col, last_row, last_col */
    FZ_CHANGE_INSERT_ROWS = 3,   /* sheet, row, count */
    FZ_CHANGE_DELETE_ROWS = 4,   /* sheet, row, count */
    FZ_CHANGE_MOVE_ROWS = 5,     /* sheet, row, count, to_row: before which they go */
    FZ_CHANGE_INSERT_COLS = 6,   /* sheet, col, count */
    FZ_CHANGE_DELETE_COLS = 7,   /* sheet, col, count */
    FZ_CHANGE_MOVE_COLS = 8,     /* sheet, col, count, to_col */
    FZ_CHANGE_MOVE_BLOCK = 9,    /* sheet, row, col, last_row, last_col, to_sheet, to_row, to_col */
    FZ_CHANGE_DROP_SHEET = 10,   /* sheet */
    FZ_CHANGE_ADD_SHEET = 11,    /* name */
    FZ_CHANGE_RENAME_SHEET = 12, /* sheet, name */
    FZ_CHANGE_CLEAR_SHEET = 13,  /* sheet */
    FZ_CHANGE_ADD_NAME = 14,     /* sheet: the scope, name, text */
    FZ_CHANGE_CHANGE_NAME = 15,  /* sheet: the scope, name, text */
    FZ_CHANGE_REMOVE_NAME = 16,  /* sheet: the scope, name */
    FZ_CHANGE_COPY = 17,         /* sheet, row, col, last_row, last_col */
    FZ_CHANGE_CUT = 18,          /* sheet, row, col, last_row, last_col */
    FZ_CHANGE_PASTE = 19,        /* sheet, row, col */
    FZ_CHANGE_BEGIN = 20,
    FZ_CHANGE_COMMIT = 21,
    FZ_CHANGE_UNDO = 22,
    FZ_CHANGE_REDO = 23
};

/* A change that is asked about. What it doesn't need says nothing. */
typedef struct fz_change {
    uint32_t kind;      /* FZ_CHANGE_SET to FZ_CHANGE_REDO */
    uint32_t sheet;
    uint32_t row;       /* of a block its first row */
    uint32_t col;
    uint32_t last_row;
    uint32_t last_col;
    uint32_t count;
    uint32_t to_sheet;
    uint32_t to_row;
    uint32_t to_col;
} fz_change;

/* Why the change would be refused now: the number of the refusal, or 0 where it would be accepted. Nothing changes.
 * FZ_BAD_CHANGE. */
fz_status fz_cause(fz_book *book, const fz_change *change, const char *name, size_t name_length, const char *text, size_t length,
                   fz_status *refusal);

/* The list of sheets: how many there are, and the number of the one at a place of it, counted from 0, or FZ_NO_NUMBER. */
size_t fz_sheet_count(fz_book *book);
uint32_t fz_sheet_at(fz_book *book, size_t index);
/* The number of the sheet of this name, in any case of its ASCII letters, or FZ_NO_NUMBER. */
uint32_t fz_sheet_id(fz_book *book, const char *name, size_t length);
/* The name of a sheet. */
fz_status fz_sheet_name(fz_book *book, uint32_t sheet, char *room, size_t size, size_t *length);

#ifdef __cplusplus
}
#endif

#endif
