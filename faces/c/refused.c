/* Refuses each allocation in turn: for each call of a script the first one, then the second one and so on, until the call is done.
 * Until then it ends with FZ_NO_MEMORY each time and the workbook is as it was; when it is done it answers as in a workbook that was
 * refused nothing. Each call that can want memory is in the script. Linked so that malloc and realloc come here
 * (-Wl,--wrap=malloc,--wrap=realloc). Prints what failed, and how many allocations were refused. */
#include "fazhundel.h"

#include <stdio.h>
#include <stdlib.h>
#include <string.h>

enum { TODAY = 45292, MOST_TRIES = 100000, ROOM = 4096, ROWS = 64 };

/* How many allocations go before the one that is refused; none is where it is negative. */
static long left = -1;
static long refused;

void *__real_malloc(size_t size);
void *__real_realloc(void *at, size_t size);
void *__wrap_malloc(size_t size);
void *__wrap_realloc(void *at, size_t size);

static bool is_refused(void)
{
    if (left < 0) {
        return false;
    }
    if (left-- > 0) {
        return false;
    }
    refused++;
    return true;
}

void *__wrap_malloc(size_t size)
{
    return is_refused() ? NULL : __real_malloc(size);
}

void *__wrap_realloc(void *at, size_t size)
{
    return is_refused() ? NULL : __real_realloc(at, size);
}

/* What a workbook answers, one answer behind the other. */
struct answers {
    char bytes[ROOM];
    size_t length;
};

static void add(struct answers *all, const void *bytes, size_t length)
{
    if (length <= sizeof all->bytes - all->length) {
        memcpy(all->bytes + all->length, bytes, length);
        all->length += length;
    }
}

/* All that the script's workbooks can be told apart by: contents, values, names, sheets, steps, batches and the clipboard. */
static struct answers answers_of(fz_book *book)
{
    static fz_cell cells[ROWS];
    static fz_name names[ROWS];
    static char texts[ROOM];
    struct answers all = {"", 0};
    fz_sizes sizes = {0, 0};
    const bool states[] = {fz_can_undo(book), fz_can_redo(book), fz_has_batch(book), fz_is_suspended(book), fz_is_clipboard_empty(book)};
    add(&all, states, sizeof states);
    for (size_t i = 0; i < fz_sheet_count(book); i++) {
        uint32_t sheet = fz_sheet_at(book, i);
        size_t length = 0;
        fz_sheet_name(book, sheet, texts, sizeof texts, &length);
        add(&all, texts, length);
        if (fz_contents(book, sheet, 0, 0, 99, 9, cells, ROWS, texts, sizeof texts, &sizes) == FZ_DONE) {
            for (size_t j = 0; j < sizes.rows; j++) {
                add(&all, &cells[j].row, sizeof cells[j].row);
                add(&all, &cells[j].col, sizeof cells[j].col);
            }
            add(&all, texts, sizes.bytes);
        }
    }
    if (fz_names(book, names, ROWS, texts, sizeof texts, &sizes) == FZ_DONE) {
        add(&all, texts, sizes.bytes);
    }
    return all;
}

static bool are_same(const struct answers *a, const struct answers *b)
{
    return a->length == b->length && memcmp(a->bytes, b->bytes, a->length) == 0;
}

/* A call of the script, which tells its status. */
typedef fz_status made(fz_book *book);

/* What a call told. */
static struct {
    char room[ROOM];
    fz_cell cells[ROWS];
    fz_place places[ROWS];
    fz_link links[ROWS];
    fz_name names[ROWS];
    fz_shown shown;
    fz_sizes sizes;
    fz_counts counts;
    fz_used used;
    fz_wrong wrong;
    size_t length;
    uint32_t number;
    fz_status refusal;
} told, plainly;

#define TEXT(text) (text), sizeof(text) - 1
#define CALL(name, what) static fz_status name(fz_book *book) { return what; }

CALL(adds_sheet, fz_add_sheet(book, TEXT("Plan"), &told.number))
CALL(adds_second, fz_add_sheet(book, TEXT("Other"), &told.number))
CALL(sets, fz_set(book, 0, 0, 0, TEXT("=SUM(B1:B9)*rate&\"!\"")))
CALL(sets_number, fz_set_number(book, 0, 0, 1, 2500000))
CALL(sets_truth, fz_set_truth(book, 0, 1, 1, true))
CALL(sets_text, fz_set_text(book, 0, 2, 1, TEXT("007")))
CALL(sets_reader, fz_set(book, 1, 0, 0, TEXT("=Plan!A1&Plan!B3")))
CALL(sets_cycle, fz_set(book, 1, 1, 0, TEXT("=A2+1")))
CALL(adds_name, fz_add_name(book, TEXT("rate"), FZ_WORKBOOK, TEXT("=2")))
CALL(changes_name, fz_change_name(book, TEXT("rate"), FZ_WORKBOOK, TEXT("=Plan!$B$1*3")))
CALL(adds_own_name, fz_add_name(book, TEXT("own"), 0, TEXT("=$B$1")))
CALL(removes_name, fz_remove_name(book, TEXT("own"), 0))
CALL(asks_value, fz_value(book, 0, 0, 0, told.room, ROOM, &told.shown))
CALL(asks_text, fz_value_text(book, 1, 0, 0, told.room, ROOM, &told.length))
CALL(asks_name_value, fz_name_value(book, TEXT("rate"), 0, told.room, ROOM, &told.shown))
CALL(asks_try, fz_try(book, 0, TEXT("=B1*2+LEN(B3)"), told.room, ROOM, &told.shown))
CALL(asks_formula, fz_formula(book, 1, 0, 0, told.room, ROOM, &told.length))
CALL(asks_content, fz_content(book, 0, 2, 1, told.room, ROOM, &told.length))
CALL(asks_kind, fz_kind(book, 0, 0, 0, &told.number))
CALL(asks_filled, fz_filled(book, 0, 0, 0, 9, 9, told.places, ROWS, &told.length))
CALL(asks_filled_in, fz_filled_in(book, 0, told.places, ROWS, &told.length))
CALL(asks_used, fz_used_area(book, 0, &told.used))
CALL(asks_values, fz_values(book, 0, 0, 0, 9, 9, told.cells, ROWS, told.room, ROOM, &told.sizes))
CALL(asks_contents, fz_contents(book, 0, 0, 0, 9, 9, told.cells, ROWS, told.room, ROOM, &told.sizes))
CALL(asks_names, fz_names(book, told.names, ROWS, told.room, ROOM, &told.sizes))
CALL(asks_name_text, fz_name_text(book, TEXT("rate"), FZ_WORKBOOK, told.room, ROOM, &told.length))
CALL(asks_normal, fz_normal_text(book, 0, TEXT("= sum( b1:b2 )+RATE"), told.room, ROOM, &told.length))
CALL(asks_names_in, fz_names_in(book, 0, TEXT("=a1+rate*two"), told.names, ROWS, told.room, ROOM, &told.sizes))
CALL(asks_wrong, fz_parse_error(book, 0, TEXT("=a1+rate*"), &told.wrong))
CALL(asks_precedents, fz_precedents(book, 0, 0, 0, told.links, ROWS, told.room, ROOM, &told.counts))
CALL(asks_dependents, fz_dependents(book, 0, 0, 1, told.links, ROWS, told.room, ROOM, &told.counts))
CALL(asks_cycles, fz_on_cycle(book, 1, told.places, ROWS, &told.length))
CALL(asks_cause, fz_cause(book, &(fz_change){.kind = FZ_CHANGE_ADD_NAME}, TEXT("new"), TEXT("=$A$1+Plan!$B$2"), &told.refusal))
CALL(inserts_rows, fz_insert_rows(book, 0, 1, 2))
CALL(deletes_rows, fz_delete_rows(book, 0, 1, 1))
CALL(moves_rows, fz_move_rows(book, 0, 0, 1, 3))
CALL(inserts_cols, fz_insert_cols(book, 0, 0, 1))
CALL(deletes_cols, fz_delete_cols(book, 0, 0, 1))
CALL(moves_cols, fz_move_cols(book, 0, 0, 1, 3))
CALL(moves_block, fz_move_block(book, 0, 0, 0, 1, 1, 1, 4, 4))
CALL(copies, fz_copy(book, 0, 0, 0, 3, 3))
CALL(cuts, fz_cut(book, 1, 4, 4, 5, 5))
CALL(pastes, fz_paste(book, 0, 20, 0))
CALL(clears, fz_clear(book, 0, 20, 0, 20, 3))
CALL(clears_sheet, fz_clear_sheet(book, 1))
CALL(renames, fz_rename_sheet(book, 1, TEXT("Second")))
CALL(drops, fz_drop_sheet(book, 1))
CALL(undoes, fz_undo(book))
CALL(redoes, fz_redo(book))
CALL(begins, fz_begin(book))
CALL(commits, fz_commit(book))
CALL(suspends, fz_suspend(book))
CALL(resumes, fz_resume(book))
CALL(settles, fz_settle_idle(book, 1000, &told.number))

static fz_status writes_all(fz_book *book)
{
    static const fz_written rows[] = {{0, 5, 0, 0, 7}, {0, 5, 1, 5, 2}, {0, 6, 0, 7, 4}, {0, 20, 0, 0, 0}};
    return fz_write_all(book, rows, sizeof rows / sizeof rows[0], TEXT("=rate*21text"));
}

static const struct {
    const char *name;
    made *call;
} script[] = {
    {"add_sheet", adds_sheet}, {"add_sheet", adds_second}, {"add_name", adds_name}, {"add_name", adds_own_name},
    {"set", sets}, {"set_number", sets_number}, {"set_truth", sets_truth}, {"set_text", sets_text}, {"set", sets_reader},
    {"set", sets_cycle}, {"write_all", writes_all}, {"change_name", changes_name}, {"remove_name", removes_name},
    {"value", asks_value}, {"value_text", asks_text}, {"name_value", asks_name_value}, {"try", asks_try},
    {"formula", asks_formula}, {"content", asks_content}, {"kind", asks_kind}, {"filled", asks_filled},
    {"filled_in", asks_filled_in}, {"used_area", asks_used}, {"values", asks_values}, {"contents", asks_contents},
    {"names", asks_names}, {"name_text", asks_name_text}, {"normal_text", asks_normal}, {"names_in", asks_names_in}, {"parse_error", asks_wrong},
    {"precedents", asks_precedents}, {"dependents", asks_dependents}, {"on_cycle", asks_cycles}, {"cause", asks_cause},
    {"insert_rows", inserts_rows}, {"value", asks_value}, {"delete_rows", deletes_rows}, {"move_rows", moves_rows},
    {"insert_cols", inserts_cols}, {"delete_cols", deletes_cols}, {"move_cols", moves_cols}, {"values", asks_values},
    {"move_block", moves_block}, {"formula", asks_formula}, {"settle_idle", settles}, {"copy", copies}, {"paste", pastes},
    {"cut", cuts}, {"paste", pastes}, {"begin", begins}, {"clear", clears}, {"write_all", writes_all}, {"commit", commits},
    {"undo", undoes}, {"redo", redoes}, {"undo", undoes}, {"rename_sheet", renames}, {"clear_sheet", clears_sheet},
    {"undo", undoes}, {"drop_sheet", drops}, {"undo", undoes}, {"redo", redoes}, {"undo", undoes}, {"value_text", asks_text},
    {"suspend", suspends}, {"resume", resumes}, {"values", asks_values},
};

/* Whether a call that took all the memory it wanted did and told the same in another workbook. */
static bool is_as_ever(fz_book *book, fz_book *other, const char *name, made *call)
{
    plainly = told;
    memset(&told, 0, sizeof told);
    bool is_done = call(other) == FZ_DONE;
    struct answers one = answers_of(book), two = answers_of(other);
    if (is_done && are_same(&one, &two) && memcmp(&told, &plainly, sizeof told) == 0) {
        return true;
    }
    printf("%s: another answer, or another workbook behind it\n", name);
    return false;
}

/* Makes a call with its first, its second allocation and so on refused, until it is done. Whether all was as it must be. */
static bool tried(fz_book *book, const char *name, made *call)
{
    for (long nth = 0; nth < MOST_TRIES; nth++) {
        struct answers before = answers_of(book);
        memset(&told, 0, sizeof told);
        left = nth;
        fz_status status = call(book);
        left = -1;
        if (status == FZ_DONE) {
            return true;
        }
        struct answers behind = answers_of(book);
        if (status != FZ_NO_MEMORY || !are_same(&before, &behind)) {
            printf("%s, allocation %ld: status %d%s\n", name, nth, status, are_same(&before, &behind) ? "" : ", and the workbook changed");
            return false;
        }
    }
    printf("%s isn't done\n", name);
    return false;
}

int main(void)
{
    fz_book book = FZ_CLOSED, other = FZ_CLOSED;
    int failures = fz_open(&other, 20, TODAY, NULL, 0, NULL, 0, NULL, 0) != FZ_DONE;
    for (long nth = 0; !fz_is_open(&book); nth++) {
        left = nth;
        fz_status status = fz_open(&book, 20, TODAY, NULL, 0, NULL, 0, NULL, 0);
        left = -1;
        if (status != FZ_DONE && status != FZ_NO_MEMORY) {
            printf("open: status %d\n", status);
            return 1;
        }
    }
    for (size_t i = 0; i < sizeof script / sizeof script[0]; i++) {
        failures += !tried(&book, script[i].name, script[i].call) || !is_as_ever(&book, &other, script[i].name, script[i].call);
    }
    fz_close(&book);
    fz_close(&other);
    printf("%ld allocations refused, over %zu calls\n", refused, sizeof script / sizeof script[0]);
    return failures != 0;
}
