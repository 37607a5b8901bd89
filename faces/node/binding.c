/* The calls of fazhundel.h for Node: index.js stands over them.
 *
 * The addon is a function. It is given the class of errors, whose constructor takes a status, and answers an object with the
 * calls. `open` answers a book, which each other call takes first; a call that isn't done throws. A book that is forgotten is
 * closed by its finalizer, in the thread that opened it: each thread of Node has an addon of its own.
 */
#include "call.h"

#include <stdlib.h>

/* The greatest number up to which a double tells each whole one: 2^53 - 1. */
static const double MOST_WHOLE = 9007199254740991;

/* Opening and closing. */

static void close_forgotten(napi_env env, void *book, void *hint)
{
    (void)env;
    (void)hint;
    fz_close(book);
    free(book);
}

/* An object that holds the book. */
static napi_value held(struct call *call, fz_book *book)
{
    napi_value object = NULL;
    if (napi_create_object(call->env, &object) == napi_ok
        && napi_type_tag_object(call->env, object, &book_tag) == napi_ok
        && napi_wrap(call->env, object, book, close_forgotten, NULL, NULL) == napi_ok) {
        return object;
    }
    close_forgotten(call->env, book, NULL);
    throw_status(call, FZ_NO_MEMORY);
    return NULL;
}

/* A table of rules, as index.js tells it. */
struct table {
    fz_rule *rules;
    size_t rule_count;
    fz_pair *pairs;
    size_t pair_count;
    struct text words;
};

/* The length of an array. */
static uint32_t length_of(struct call *call, napi_value array)
{
    uint32_t length = 0;
    if (call->is_good && napi_get_array_length(call->env, array, &length) != napi_ok) {
        type_error(call, "an array was expected");
    }
    return length;
}

static napi_value element(struct call *call, napi_value array, uint32_t index)
{
    napi_value found = NULL;
    if (call->is_good && napi_get_element(call->env, array, index, &found) != napi_ok) {
        type_error(call, "an array was expected");
    }
    return found;
}

/* Memory for so many rows; never none, so that NULL is want of it. */
static void *rows(struct call *call, size_t count, size_t size)
{
    void *found = call->is_good ? calloc(count + 1, size) : NULL;
    if (call->is_good && found == NULL) {
        throw_status(call, FZ_NO_MEMORY);
    }
    return found;
}

/* So many numbers of an array, from one of them on. */
static void read_row(struct call *call, napi_value array, uint32_t start, uint32_t *row, uint32_t count)
{
    for (uint32_t i = 0; call->is_good && i < count; i++) {
        if (napi_get_value_uint32(call->env, element(call, array, start + i), &row[i]) != napi_ok) {
            type_error(call, "a number was expected");
        }
    }
}

/* Rules as an array of five numbers for each, in the order of fz_rule. */
static void read_rules(struct call *call, struct table *table)
{
    napi_value array = next(call);
    uint32_t count = length_of(call, array);
    table->rules = rows(call, count / 5, sizeof *table->rules);
    for (uint32_t i = 0; call->is_good && i < count / 5; i++) {
        uint32_t row[5] = {0};
        read_row(call, array, i * 5, row, 5);
        table->rules[i] = (fz_rule){row[0], row[1], row[2], row[3], row[4] != 0};
    }
    table->rule_count = count / 5;
}

/* Pairs as an array of two BigInts for each. */
static void read_pairs(struct call *call, struct table *table)
{
    napi_value array = next(call);
    uint32_t count = length_of(call, array);
    table->pairs = rows(call, count / 2, sizeof *table->pairs);
    for (uint32_t i = 0; call->is_good && i < count / 2; i++) {
        table->pairs[i].from = millionths(call, element(call, array, i * 2));
        table->pairs[i].gives = millionths(call, element(call, array, i * 2 + 1));
    }
    table->pair_count = count / 2;
}

static napi_value open_book(napi_env env, napi_callback_info info)
{
    struct call call = begun(env, info);
    uint32_t undo_limit = number(&call);
    int32_t today = (int32_t)integer(&call, INT32_MIN, INT32_MAX, "a serial number of a day was expected");
    struct table table = {NULL, 0, NULL, 0, {NULL, 0}};
    napi_value answer = NULL;
    read_rules(&call, &table);
    read_pairs(&call, &table);
    table.words = text(&call);
    fz_book *book = rows(&call, 1, sizeof *book);
    if (call.is_good) {
        fz_status status = fz_open(book, undo_limit, today, table.rules, table.rule_count, table.pairs, table.pair_count,
                                   table.words.bytes, table.words.length);
        if (status == FZ_DONE) {
            answer = held(&call, book);
        } else {
            free(book);
            throw_status(&call, status);
        }
    }
    free(table.rules);
    free(table.pairs);
    free(table.words.bytes);
    return answer;
}

static napi_value close_book(napi_env env, napi_callback_info info)
{
    struct call call = of_book(env, info);
    if (call.is_good) {
        fz_close(call.book);
    }
    return NULL;
}

/* Calls that take numbers alone, and answer nothing. */
#define NUMBERS(name, count, ...)                                          \
    static napi_value name(napi_env env, napi_callback_info info)          \
    {                                                                      \
        struct call call = asked(env, info);                               \
        uint32_t n[MOST_ARGUMENTS];                                        \
        numbers(&call, n, count);                                          \
        return call.is_good ? ended(&call, fz_##name(__VA_ARGS__)) : NULL; \
    }

NUMBERS(clear, 5, call.book, n[0], n[1], n[2], n[3], n[4])
NUMBERS(insert_rows, 3, call.book, n[0], n[1], n[2])
NUMBERS(insert_cols, 3, call.book, n[0], n[1], n[2])
NUMBERS(delete_rows, 3, call.book, n[0], n[1], n[2])
NUMBERS(delete_cols, 3, call.book, n[0], n[1], n[2])
NUMBERS(move_rows, 4, call.book, n[0], n[1], n[2], n[3])
NUMBERS(move_cols, 4, call.book, n[0], n[1], n[2], n[3])
NUMBERS(move_block, 8, call.book, n[0], n[1], n[2], n[3], n[4], n[5], n[6], n[7])
NUMBERS(drop_sheet, 1, call.book, n[0])
NUMBERS(clear_sheet, 1, call.book, n[0])
NUMBERS(paste, 3, call.book, n[0], n[1], n[2])
NUMBERS(copy, 5, call.book, n[0], n[1], n[2], n[3], n[4])
NUMBERS(cut, 5, call.book, n[0], n[1], n[2], n[3], n[4])
NUMBERS(clear_clipboard, 0, call.book)
NUMBERS(undo, 0, call.book)
NUMBERS(redo, 0, call.book)
NUMBERS(clear_history, 0, call.book)
NUMBERS(begin, 0, call.book)
NUMBERS(commit, 0, call.book)
NUMBERS(suspend, 0, call.book)
NUMBERS(resume, 0, call.book)

static napi_value is_open(napi_env env, napi_callback_info info)
{
    struct call call = of_book(env, info);
    napi_value answer = NULL;
    if (call.is_good) {
        napi_get_boolean(env, fz_is_open(call.book), &answer);
    }
    return answer;
}

/* Calls that answer a truth value. */
#define TRUTH(name)                                                   \
    static napi_value name(napi_env env, napi_callback_info info)     \
    {                                                                 \
        struct call call = asked(env, info);                          \
        napi_value answer = NULL;                                     \
        if (call.is_good) {                                           \
            napi_get_boolean(env, fz_##name(call.book), &answer);     \
        }                                                             \
        return answer;                                                \
    }

TRUTH(can_undo)
TRUTH(can_redo)
TRUTH(has_batch)
TRUTH(is_suspended)
TRUTH(is_clipboard_empty)

/* Calls that take something else. */

static napi_value set_number(napi_env env, napi_callback_info info)
{
    struct call call = asked(env, info);
    uint32_t sheet = number(&call), row = number(&call), col = number(&call);
    int64_t given = millionths(&call, next(&call));
    return call.is_good ? ended(&call, fz_set_number(call.book, sheet, row, col, given)) : NULL;
}

static napi_value set_truth(napi_env env, napi_callback_info info)
{
    struct call call = asked(env, info);
    uint32_t sheet = number(&call), row = number(&call), col = number(&call);
    bool given = truth(&call);
    return call.is_good ? ended(&call, fz_set_truth(call.book, sheet, row, col, given)) : NULL;
}

/* A budget is one that a number of JavaScript tells exactly. */
static napi_value settle_idle(napi_env env, napi_callback_info info)
{
    struct call call = asked(env, info);
    uint64_t budget = (uint64_t)integer(&call, 0, MOST_WHOLE, "a whole number from 0 to 9007199254740991 was expected");
    uint32_t none_left = 0;
    napi_value answer = NULL;
    if (!call.is_good) {
        return NULL;
    }
    fz_status status = fz_settle_idle(call.book, budget, &none_left);
    if (status == FZ_DONE) {
        napi_get_boolean(env, none_left == 1, &answer);
    } else {
        throw_status(&call, status);
    }
    return answer;
}

/* Calls that take texts. */

/* Gives a cell what a text says, or the text. */
static napi_value give_text(napi_env env, napi_callback_info info,
                            fz_status (*give)(fz_book *, uint32_t, uint32_t, uint32_t, const char *, size_t))
{
    struct call call = asked(env, info);
    uint32_t sheet = number(&call), row = number(&call), col = number(&call);
    struct text content = text(&call);
    napi_value answer = call.is_good ? ended(&call, give(call.book, sheet, row, col, content.bytes, content.length)) : NULL;
    free(content.bytes);
    return answer;
}

static napi_value set(napi_env env, napi_callback_info info)
{
    return give_text(env, info, fz_set);
}

static napi_value set_text(napi_env env, napi_callback_info info)
{
    return give_text(env, info, fz_set_text);
}

/* Gives many cells what texts say: five numbers for each, in the order of fz_written, and all texts as one. */
static napi_value write_all(napi_env env, napi_callback_info info)
{
    struct call call = asked(env, info);
    napi_value array = next(&call), answer = NULL;
    uint32_t count = length_of(&call, array) / 5;
    fz_written *cells = rows(&call, count, sizeof *cells);
    for (uint32_t i = 0; call.is_good && i < count; i++) {
        uint32_t row[5] = {0};
        read_row(&call, array, i * 5, row, 5);
        cells[i] = (fz_written){row[0], row[1], row[2], row[3], row[4]};
    }
    struct text texts = text(&call);
    if (call.is_good) {
        answer = ended(&call, fz_write_all(call.book, cells, count, texts.bytes, texts.length));
    }
    free(cells);
    free(texts.bytes);
    return answer;
}

/* Why a change would be refused, as the number of the refusal or 0: ten numbers in the order of fz_change, a name and a text. */
static napi_value cause(napi_env env, napi_callback_info info)
{
    struct call call = asked(env, info);
    napi_value array = next(&call), answer = NULL;
    uint32_t row[10] = {0};
    read_row(&call, array, 0, row, 10);
    struct text name = text(&call), formula = text(&call);
    if (call.is_good) {
        const fz_change change = {row[0], row[1], row[2], row[3], row[4], row[5], row[6], row[7], row[8], row[9]};
        fz_status refusal = FZ_DONE;
        fz_status status = fz_cause(call.book, &change, name.bytes, name.length, formula.bytes, formula.length, &refusal);
        if (status == FZ_DONE) {
            napi_create_uint32(env, refusal, &answer);
        } else {
            throw_status(&call, status);
        }
    }
    free(name.bytes);
    free(formula.bytes);
    return answer;
}

static napi_value add_sheet(napi_env env, napi_callback_info info)
{
    struct call call = asked(env, info);
    struct text name = text(&call);
    uint32_t sheet = 0;
    napi_value answer = NULL;
    if (call.is_good) {
        fz_status status = fz_add_sheet(call.book, name.bytes, name.length, &sheet);
        if (status == FZ_DONE) {
            napi_create_uint32(env, sheet, &answer);
        } else {
            throw_status(&call, status);
        }
    }
    free(name.bytes);
    return answer;
}

static napi_value rename_sheet(napi_env env, napi_callback_info info)
{
    struct call call = asked(env, info);
    uint32_t sheet = number(&call);
    struct text name = text(&call);
    napi_value answer = call.is_good ? ended(&call, fz_rename_sheet(call.book, sheet, name.bytes, name.length)) : NULL;
    free(name.bytes);
    return answer;
}

/* Adds or changes a name. */
static napi_value give_name(napi_env env, napi_callback_info info,
                            fz_status (*give)(fz_book *, const char *, size_t, uint32_t, const char *, size_t))
{
    struct call call = asked(env, info);
    struct text name = text(&call);
    uint32_t in = scope(&call);
    struct text formula = text(&call);
    napi_value answer = NULL;
    if (call.is_good) {
        answer = ended(&call, give(call.book, name.bytes, name.length, in, formula.bytes, formula.length));
    }
    free(name.bytes);
    free(formula.bytes);
    return answer;
}

static napi_value add_name(napi_env env, napi_callback_info info)
{
    return give_name(env, info, fz_add_name);
}

static napi_value change_name(napi_env env, napi_callback_info info)
{
    return give_name(env, info, fz_change_name);
}

static napi_value remove_name(napi_env env, napi_callback_info info)
{
    struct call call = asked(env, info);
    struct text name = text(&call);
    uint32_t in = scope(&call);
    napi_value answer = call.is_good ? ended(&call, fz_remove_name(call.book, name.bytes, name.length, in)) : NULL;
    free(name.bytes);
    return answer;
}

/* The list of sheets. */

static napi_value sheet_count(napi_env env, napi_callback_info info)
{
    struct call call = asked(env, info);
    napi_value answer = NULL;
    if (call.is_good) {
        napi_create_double(env, (double)fz_sheet_count(call.book), &answer);
    }
    return answer;
}

static napi_value sheet_at(napi_env env, napi_callback_info info)
{
    struct call call = asked(env, info);
    uint32_t index = number(&call);
    return call.is_good ? sheet_number(env, fz_sheet_at(call.book, index)) : NULL;
}

static napi_value sheet_id(napi_env env, napi_callback_info info)
{
    struct call call = asked(env, info);
    struct text name = text(&call);
    napi_value answer = call.is_good ? sheet_number(env, fz_sheet_id(call.book, name.bytes, name.length)) : NULL;
    free(name.bytes);
    return answer;
}

/* The addon. */

static const struct {
    const char *name;
    napi_callback call;
} calls[] = {
    {"open", open_book}, {"close", close_book}, {"isOpen", is_open},
    {"set", set}, {"setNumber", set_number}, {"setTruth", set_truth}, {"setText", set_text},
    {"writeAll", write_all}, {"clear", clear},
    {"insertRows", insert_rows}, {"insertCols", insert_cols}, {"deleteRows", delete_rows}, {"deleteCols", delete_cols},
    {"moveRows", move_rows}, {"moveCols", move_cols}, {"moveBlock", move_block},
    {"addSheet", add_sheet}, {"dropSheet", drop_sheet}, {"renameSheet", rename_sheet}, {"clearSheet", clear_sheet},
    {"addName", add_name}, {"changeName", change_name}, {"removeName", remove_name}, {"names", names}, {"nameText", name_text},
    {"copy", copy}, {"cut", cut}, {"paste", paste},
    {"clearClipboard", clear_clipboard}, {"isClipboardEmpty", is_clipboard_empty},
    {"undo", undo}, {"redo", redo}, {"clearHistory", clear_history}, {"canUndo", can_undo}, {"canRedo", can_redo}, {"cause", cause},
    {"begin", begin}, {"commit", commit}, {"hasBatch", has_batch},
    {"suspend", suspend}, {"resume", resume}, {"isSuspended", is_suspended}, {"settleIdle", settle_idle},
    {"kind", kind}, {"filled", filled}, {"filledIn", filled_in}, {"usedArea", used_area},
    {"values", values}, {"contents", contents},
    {"value", value}, {"valueText", value_text}, {"nameValue", name_value}, {"tryFormula", try_formula},
    {"normalText", normal_text}, {"namesIn", names_in}, {"parseError", parse_error}, {"formula", formula}, {"content", content},
    {"precedents", precedents}, {"dependents", dependents}, {"onCycle", on_cycle},
    {"sheetCount", sheet_count}, {"sheetAt", sheet_at}, {"sheetId", sheet_id}, {"sheetName", sheet_name},
};

/* Keeps the class of errors until the thread of Node ends. */
static napi_ref *kept(napi_env env, napi_value class)
{
    napi_ref *errors = malloc(sizeof *errors);
    if (errors != NULL && napi_create_reference(env, class, 1, errors) == napi_ok
        && napi_add_env_cleanup_hook(env, free, errors) == napi_ok) {
        return errors;
    }
    free(errors);
    return NULL;
}

static napi_value given_errors(napi_env env, napi_callback_info info)
{
    struct call call = begun(env, info);
    napi_ref *errors = kept(env, next(&call));
    napi_value object = NULL, function = NULL;
    if (errors == NULL || napi_create_object(env, &object) != napi_ok) {
        type_error(&call, "a class of errors was expected");
        return NULL;
    }
    for (size_t i = 0; i < sizeof calls / sizeof calls[0]; i++) {
        napi_create_function(env, calls[i].name, NAPI_AUTO_LENGTH, calls[i].call, errors, &function);
        napi_set_named_property(env, object, calls[i].name, function);
    }
    return object;
}

NAPI_MODULE_INIT()
{
    napi_value addon = NULL;
    (void)exports;
    napi_create_function(env, "fazhundel", NAPI_AUTO_LENGTH, given_errors, NULL, &addon);
    return addon;
}
