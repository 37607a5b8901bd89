/* The questions of the addon: values, texts, areas, names and links. */
#include "call.h"

#include <stdlib.h>

/* How many bytes, and how many rows, a first try has room for. */
enum { ROOM = 256, ROWS = 16 };

/* Questions whose answers have no texts. */

/* The kind of a cell's content, as its number. */
napi_value kind(napi_env env, napi_callback_info info)
{
    struct call call = asked(env, info);
    uint32_t sheet = number(&call), row = number(&call), col = number(&call), kind = FZ_EMPTY;
    napi_value answer = NULL;
    if (!call.is_good) {
        return NULL;
    }
    fz_status status = fz_kind(call.book, sheet, row, col, &kind);
    if (status == FZ_DONE) {
        napi_create_uint32(env, kind, &answer);
    } else {
        throw_status(&call, status);
    }
    return answer;
}

/* Four numbers, or null where no cell is filled. */
napi_value used_area(napi_env env, napi_callback_info info)
{
    struct call call = asked(env, info);
    uint32_t sheet = number(&call);
    fz_used used = {0, 0, 0, 0, 0};
    if (!call.is_good) {
        return NULL;
    }
    fz_status status = fz_used_area(call.book, sheet, &used);
    if (status != FZ_DONE) {
        throw_status(&call, status);
        return NULL;
    }
    const uint32_t area[] = {used.top, used.left, used.bottom, used.right};
    return used.is_used == 1 ? numbers_of(env, area, 4) : empty(env);
}

/* The first byte of a part of a text and how many bytes it has, or null where the text is a formula. */
napi_value parse_error(napi_env env, napi_callback_info info)
{
    struct call call = asked(env, info);
    uint32_t sheet = number(&call);
    struct text formula = text(&call);
    fz_wrong wrong = {0, 0, 0};
    fz_status status = call.is_good ? fz_parse_error(call.book, sheet, formula.bytes, formula.length, &wrong) : FZ_DONE;
    free(formula.bytes);
    if (!call.is_good) {
        return NULL;
    }
    if (status != FZ_DONE) {
        throw_status(&call, status);
        return NULL;
    }
    const uint32_t part[] = {(uint32_t)wrong.start, (uint32_t)wrong.length};
    return wrong.is_wrong == 1 ? numbers_of(env, part, 2) : empty(env);
}

/* Questions whose answers have texts. Each is asked with a small room, and once more with one that is long enough where that was
 * too short. */

/* A question: what is asked, of what, and what it tells. Of a block the row and the column are its first ones. */
struct question {
    fz_status (*text_at)(fz_book *, uint32_t, uint32_t, uint32_t, char *, size_t, size_t *);
    uint32_t sheet, row, col, bottom, right;
    struct text text;
    fz_shown shown;
};

typedef fz_status ask(struct call *call, struct question *question, char *room, size_t size);

static napi_value answered(struct call *call, ask *ask, struct question *question)
{
    char small[ROOM], *room = small, *large = NULL;
    napi_value answer = NULL;
    if (!call->is_good) {
        return NULL;
    }
    fz_status status = ask(call, question, room, sizeof small);
    if (status == FZ_NO_ROOM) {
        room = large = malloc(question->shown.length);
        status = large == NULL ? FZ_NO_MEMORY : ask(call, question, room, question->shown.length);
    }
    if (status == FZ_DONE) {
        answer = value_of(call->env, &question->shown, room);
    } else {
        throw_status(call, status);
    }
    free(large);
    return answer;
}

static fz_status ask_value(struct call *call, struct question *q, char *room, size_t size)
{
    return fz_value(call->book, q->sheet, q->row, q->col, room, size, &q->shown);
}

static fz_status ask_name(struct call *call, struct question *q, char *room, size_t size)
{
    return fz_name_value(call->book, q->text.bytes, q->text.length, q->sheet, room, size, &q->shown);
}

static fz_status ask_formula(struct call *call, struct question *q, char *room, size_t size)
{
    return fz_try(call->book, q->sheet, q->text.bytes, q->text.length, room, size, &q->shown);
}

static fz_status ask_text(struct call *call, struct question *q, char *room, size_t size)
{
    q->shown.kind = FZ_TEXT;
    return q->text_at(call->book, q->sheet, q->row, q->col, room, size, &q->shown.length);
}

static fz_status ask_sheet(struct call *call, struct question *q, char *room, size_t size)
{
    q->shown.kind = FZ_TEXT;
    return fz_sheet_name(call->book, q->sheet, room, size, &q->shown.length);
}

static fz_status ask_name_text(struct call *call, struct question *q, char *room, size_t size)
{
    q->shown.kind = FZ_TEXT;
    return fz_name_text(call->book, q->text.bytes, q->text.length, q->sheet, room, size, &q->shown.length);
}

static fz_status ask_normal_text(struct call *call, struct question *q, char *room, size_t size)
{
    q->shown.kind = FZ_TEXT;
    return fz_normal_text(call->book, q->sheet, q->text.bytes, q->text.length, room, size, &q->shown.length);
}

static struct question at(struct call *call)
{
    struct question question = {0};
    question.sheet = number(call);
    question.row = number(call);
    question.col = number(call);
    return question;
}

napi_value value(napi_env env, napi_callback_info info)
{
    struct call call = asked(env, info);
    struct question question = at(&call);
    return answered(&call, ask_value, &question);
}

/* Texts of a cell. */
#define TEXT_AT(name)                                             \
    napi_value name(napi_env env, napi_callback_info info)        \
    {                                                             \
        struct call call = asked(env, info);                      \
        struct question question = at(&call);                     \
        question.text_at = fz_##name;                             \
        return answered(&call, ask_text, &question);              \
    }

TEXT_AT(value_text)
TEXT_AT(formula)
TEXT_AT(content)

napi_value sheet_name(napi_env env, napi_callback_info info)
{
    struct call call = asked(env, info);
    struct question question = {0};
    question.sheet = number(&call);
    return answered(&call, ask_sheet, &question);
}

napi_value name_value(napi_env env, napi_callback_info info)
{
    struct call call = asked(env, info);
    struct question question = {0};
    question.text = text(&call);
    question.sheet = number(&call);
    napi_value answer = answered(&call, ask_name, &question);
    free(question.text.bytes);
    return answer;
}

napi_value name_text(napi_env env, napi_callback_info info)
{
    struct call call = asked(env, info);
    struct question question = {0};
    question.text = text(&call);
    question.sheet = scope(&call);
    napi_value answer = answered(&call, ask_name_text, &question);
    free(question.text.bytes);
    return answer;
}

/* Questions about the formula of a text. */
static napi_value of_formula(napi_env env, napi_callback_info info, ask *ask)
{
    struct call call = asked(env, info);
    struct question question = {0};
    question.sheet = number(&call);
    question.text = text(&call);
    napi_value answer = answered(&call, ask, &question);
    free(question.text.bytes);
    return answer;
}

napi_value try_formula(napi_env env, napi_callback_info info)
{
    return of_formula(env, info, ask_formula);
}

napi_value normal_text(napi_env env, napi_callback_info info)
{
    return of_formula(env, info, ask_normal_text);
}

/* Questions whose answers are lists: of rows, whose texts stand in a room of their own. They are asked as often. */

/* The rooms of a list, and how much it needs of them. */
struct list {
    void *rows;
    size_t row_room;
    char *texts;
    size_t texts_size;
    fz_sizes sizes;
};

/* How a list is asked for, how many bytes a row has, and what it is in JavaScript. */
struct listing {
    fz_status (*ask)(struct call *call, const struct question *question, struct list *list);
    size_t row_size;
    napi_value (*row_of)(napi_env env, const void *row, const char *texts);
};

static napi_value rows_of(napi_env env, const struct listing *listing, const struct list *list)
{
    napi_value array = NULL;
    napi_create_array_with_length(env, list->sizes.rows, &array);
    for (size_t i = 0; i < list->sizes.rows; i++) {
        napi_handle_scope scope = NULL;
        napi_open_handle_scope(env, &scope);
        const char *row = (const char *)list->rows + i * listing->row_size;
        napi_set_element(env, array, (uint32_t)i, listing->row_of(env, row, list->texts));
        napi_close_handle_scope(env, scope);
    }
    return array;
}

static napi_value listed(struct call *call, const struct listing *listing, const struct question *question)
{
    union {
        fz_place places[ROWS];
        fz_cell cells[ROWS];
        fz_name names[ROWS];
        fz_link links[ROWS];
    } few;
    char small[ROOM];
    struct list list = {&few, ROWS, small, sizeof small, {0, 0}};
    void *many = NULL, *large = NULL;
    napi_value answer = NULL;
    if (!call->is_good) {
        return NULL;
    }
    fz_status status = listing->ask(call, question, &list);
    if (status == FZ_NO_ROOM) {
        many = calloc(list.sizes.rows + 1, listing->row_size);
        large = malloc(list.sizes.bytes + 1);
        list = (struct list){many, list.sizes.rows, large, list.sizes.bytes, {0, 0}};
        status = many == NULL || large == NULL ? FZ_NO_MEMORY : listing->ask(call, question, &list);
    }
    if (status == FZ_DONE) {
        answer = rows_of(call->env, listing, &list);
    } else {
        throw_status(call, status);
    }
    free(many);
    free(large);
    return answer;
}

/* Lists of places: each as its row and its column. */

static napi_value place_of(napi_env env, const void *row, const char *texts)
{
    const fz_place *place = row;
    (void)texts;
    return numbers_of(env, (const uint32_t[]){place->row, place->col}, 2);
}

static fz_status ask_filled(struct call *call, const struct question *q, struct list *list)
{
    return fz_filled(call->book, q->sheet, q->row, q->col, q->bottom, q->right, list->rows, list->row_room, &list->sizes.rows);
}

static fz_status ask_filled_in(struct call *call, const struct question *q, struct list *list)
{
    return fz_filled_in(call->book, q->sheet, list->rows, list->row_room, &list->sizes.rows);
}

static fz_status ask_on_cycle(struct call *call, const struct question *q, struct list *list)
{
    return fz_on_cycle(call->book, q->sheet, list->rows, list->row_room, &list->sizes.rows);
}

static const struct listing filled_places = {ask_filled, sizeof(fz_place), place_of};
static const struct listing places_filled_in = {ask_filled_in, sizeof(fz_place), place_of};
static const struct listing places_on_cycle = {ask_on_cycle, sizeof(fz_place), place_of};

/* A question about a block. */
static struct question over(struct call *call)
{
    struct question question = at(call);
    question.bottom = number(call);
    question.right = number(call);
    return question;
}

napi_value filled(napi_env env, napi_callback_info info)
{
    struct call call = asked(env, info);
    struct question question = over(&call);
    return listed(&call, &filled_places, &question);
}

napi_value filled_in(napi_env env, napi_callback_info info)
{
    struct call call = asked(env, info);
    struct question question = {.sheet = number(&call)};
    return listed(&call, &places_filled_in, &question);
}

napi_value on_cycle(napi_env env, napi_callback_info info)
{
    struct call call = asked(env, info);
    struct question question = {.sheet = number(&call)};
    return listed(&call, &places_on_cycle, &question);
}

/* Lists of cells: each as its row, its column and a value. */

static napi_value cell_of(napi_env env, const void *row, const char *texts)
{
    const fz_cell *cell = row;
    napi_value array = NULL, item = NULL;
    napi_create_array_with_length(env, 3, &array);
    napi_create_uint32(env, cell->row, &item);
    napi_set_element(env, array, 0, item);
    napi_create_uint32(env, cell->col, &item);
    napi_set_element(env, array, 1, item);
    napi_set_element(env, array, 2, value_of(env, &cell->shown, texts + cell->text_start));
    return array;
}

static fz_status ask_values(struct call *call, const struct question *q, struct list *list)
{
    return fz_values(call->book, q->sheet, q->row, q->col, q->bottom, q->right, list->rows, list->row_room,
                     list->texts, list->texts_size, &list->sizes);
}

static fz_status ask_contents(struct call *call, const struct question *q, struct list *list)
{
    return fz_contents(call->book, q->sheet, q->row, q->col, q->bottom, q->right, list->rows, list->row_room,
                       list->texts, list->texts_size, &list->sizes);
}

static const struct listing cells_with_values = {ask_values, sizeof(fz_cell), cell_of};
static const struct listing cells_with_contents = {ask_contents, sizeof(fz_cell), cell_of};

napi_value values(napi_env env, napi_callback_info info)
{
    struct call call = asked(env, info);
    struct question question = over(&call);
    return listed(&call, &cells_with_values, &question);
}

napi_value contents(napi_env env, napi_callback_info info)
{
    struct call call = asked(env, info);
    struct question question = over(&call);
    return listed(&call, &cells_with_contents, &question);
}

/* Lists of names: each as its scope and its word. */

static napi_value name_of(napi_env env, const void *row, const char *words)
{
    const fz_name *name = row;
    napi_value array = NULL, item = NULL;
    napi_create_array_with_length(env, 2, &array);
    napi_set_element(env, array, 0, sheet_number(env, name->scope));
    napi_create_string_utf8(env, words + name->word_start, name->word_length, &item);
    napi_set_element(env, array, 1, item);
    return array;
}

static fz_status ask_names(struct call *call, const struct question *q, struct list *list)
{
    (void)q;
    return fz_names(call->book, list->rows, list->row_room, list->texts, list->texts_size, &list->sizes);
}

static fz_status ask_names_in(struct call *call, const struct question *q, struct list *list)
{
    return fz_names_in(call->book, q->sheet, q->text.bytes, q->text.length, list->rows, list->row_room,
                       list->texts, list->texts_size, &list->sizes);
}

static const struct listing all_names = {ask_names, sizeof(fz_name), name_of};
static const struct listing used_names = {ask_names_in, sizeof(fz_name), name_of};

napi_value names(napi_env env, napi_callback_info info)
{
    struct call call = asked(env, info);
    struct question question = {0};
    return listed(&call, &all_names, &question);
}

napi_value names_in(napi_env env, napi_callback_info info)
{
    struct call call = asked(env, info);
    struct question question = {0};
    question.sheet = number(&call);
    question.text = text(&call);
    napi_value answer = listed(&call, &used_names, &question);
    free(question.text.bytes);
    return answer;
}

/* Lists of links: each as the numbers of fz_link in their order, and a name's word behind them. */

static napi_value link_of(napi_env env, const void *row, const char *words)
{
    const fz_link *link = row;
    const uint32_t numbers[] = {link->kind, link->sheet, link->top, link->left, link->bottom, link->right};
    napi_value array = numbers_of(env, numbers, 6), word = NULL;
    napi_create_string_utf8(env, words + link->word_start, link->word_length, &word);
    napi_set_element(env, array, 6, word);
    return array;
}

static fz_status links_asked(struct call *call, const struct question *q, struct list *list,
                             fz_status (*ask)(fz_book *, uint32_t, uint32_t, uint32_t, fz_link *, size_t, char *, size_t,
                                              fz_counts *))
{
    fz_counts counts = {0, 0};
    fz_status status = ask(call->book, q->sheet, q->row, q->col, list->rows, list->row_room, list->texts, list->texts_size,
                           &counts);
    list->sizes = (fz_sizes){counts.links, counts.words};
    return status;
}

static fz_status ask_precedents(struct call *call, const struct question *q, struct list *list)
{
    return links_asked(call, q, list, fz_precedents);
}

static fz_status ask_dependents(struct call *call, const struct question *q, struct list *list)
{
    return links_asked(call, q, list, fz_dependents);
}

static const struct listing needed_links = {ask_precedents, sizeof(fz_link), link_of};
static const struct listing needing_links = {ask_dependents, sizeof(fz_link), link_of};

napi_value precedents(napi_env env, napi_callback_info info)
{
    struct call call = asked(env, info);
    struct question question = at(&call);
    return listed(&call, &needed_links, &question);
}

napi_value dependents(napi_env env, napi_callback_info info)
{
    struct call call = asked(env, info);
    struct question question = at(&call);
    return listed(&call, &needing_links, &question);
}
