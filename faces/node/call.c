/* What call.h declares. */
#include "call.h"

#include <stdlib.h>

const napi_type_tag book_tag = {0x66617a68756e6465, 0x6c2d626f6f6b2d31};

/* Errors. */

/* Lets an error wait, unless one does. */
static void fail(struct call *call, napi_status (*throw_error)(napi_env, const char *, const char *), const char *message)
{
    if (call->is_good) {
        throw_error(call->env, NULL, message);
        call->is_good = false;
    }
}

void type_error(struct call *call, const char *message)
{
    fail(call, napi_throw_type_error, message);
}

void throw_status(struct call *call, fz_status status)
{
    napi_value class, number, error;
    if (napi_get_reference_value(call->env, *call->errors, &class) == napi_ok
        && napi_create_uint32(call->env, status, &number) == napi_ok
        && napi_new_instance(call->env, class, 1, &number, &error) == napi_ok) {
        napi_throw(call->env, error);
    }
    call->is_good = false;
}

napi_value ended(struct call *call, fz_status status)
{
    if (status != FZ_DONE) {
        throw_status(call, status);
    }
    return NULL;
}

/* Arguments. */

struct call begun(napi_env env, napi_callback_info info)
{
    struct call call = {.env = env, .count = MOST_ARGUMENTS, .is_good = true};
    void *errors = NULL;
    napi_get_cb_info(env, info, &call.count, call.arguments, NULL, &errors);
    call.count = call.count < MOST_ARGUMENTS ? call.count : MOST_ARGUMENTS;
    call.errors = errors;
    return call;
}

napi_value next(struct call *call)
{
    napi_value undefined = NULL;
    if (call->next < call->count) {
        return call->arguments[call->next++];
    }
    napi_get_undefined(call->env, &undefined);
    return undefined;
}

struct call of_book(napi_env env, napi_callback_info info)
{
    struct call call = begun(env, info);
    napi_value given = next(&call);
    bool is_book = false;
    void *book = NULL;
    if (napi_check_object_type_tag(env, given, &book_tag, &is_book) == napi_ok && is_book
        && napi_unwrap(env, given, &book) == napi_ok) {
        call.book = book;
    } else {
        type_error(&call, "a book was expected");
    }
    return call;
}

struct call asked(napi_env env, napi_callback_info info)
{
    struct call call = of_book(env, info);
    if (call.is_good && !fz_is_open(call.book)) {
        throw_status(&call, FZ_NOT_OPEN);
    }
    return call;
}

double integer(struct call *call, double least, double most, const char *message)
{
    napi_value given = next(call);
    double number = least;
    if (!call->is_good) {
        return least;
    }
    if (napi_get_value_double(call->env, given, &number) != napi_ok) {
        type_error(call, message);
        return least;
    }
    if (!(number >= least && number <= most) || number != (double)(int64_t)number) {
        fail(call, napi_throw_range_error, message);
        return least;
    }
    return number;
}

uint32_t number(struct call *call)
{
    return (uint32_t)integer(call, 0, FZ_NO_NUMBER, "a whole number from 0 to 4294967295 was expected");
}

void numbers(struct call *call, uint32_t *read, int count)
{
    for (int i = 0; i < count; i++) {
        read[i] = number(call);
    }
}

/* A sheet of the number that stands for the whole workbook there can't be, so another number that no sheet has takes its place. */
uint32_t scope(struct call *call)
{
    napi_valuetype type = napi_undefined;
    if (call->next < call->count && napi_typeof(call->env, call->arguments[call->next], &type) == napi_ok && type == napi_null) {
        call->next++;
        return FZ_WORKBOOK;
    }
    uint32_t sheet = number(call);
    return sheet == FZ_WORKBOOK ? FZ_WORKBOOK - 1 : sheet;
}

bool truth(struct call *call)
{
    napi_value given = next(call);
    bool truth = false;
    if (call->is_good && napi_get_value_bool(call->env, given, &truth) != napi_ok) {
        type_error(call, "a boolean was expected");
    }
    return truth;
}

int64_t millionths(struct call *call, napi_value given)
{
    int64_t number = 0;
    bool is_whole = false;
    if (call->is_good && (napi_get_value_bigint_int64(call->env, given, &number, &is_whole) != napi_ok || !is_whole)) {
        type_error(call, "a BigInt of 64 bits was expected");
    }
    return number;
}

static struct text text_of(struct call *call, napi_value given)
{
    struct text text = {NULL, 0};
    if (!call->is_good) {
        return text;
    }
    if (napi_get_value_string_utf8(call->env, given, NULL, 0, &text.length) != napi_ok) {
        type_error(call, "a string was expected");
        return text;
    }
    text.bytes = malloc(text.length + 1);
    if (text.bytes == NULL) {
        throw_status(call, FZ_NO_MEMORY);
    } else if (napi_get_value_string_utf8(call->env, given, text.bytes, text.length + 1, &text.length) != napi_ok) {
        type_error(call, "a string was expected");
    }
    return text;
}

struct text text(struct call *call)
{
    return text_of(call, next(call));
}

/* Answers. */

napi_value numbers_of(napi_env env, const uint32_t *numbers, uint32_t count)
{
    napi_value row = NULL, item = NULL;
    napi_create_array_with_length(env, count, &row);
    for (uint32_t i = 0; i < count; i++) {
        napi_create_uint32(env, numbers[i], &item);
        napi_set_element(env, row, i, item);
    }
    return row;
}

napi_value empty(napi_env env)
{
    napi_value answer = NULL;
    napi_get_null(env, &answer);
    return answer;
}

napi_value sheet_number(napi_env env, uint32_t sheet)
{
    napi_value answer = NULL;
    if (sheet == FZ_NO_NUMBER) {
        napi_get_null(env, &answer);
    } else {
        napi_create_uint32(env, sheet, &answer);
    }
    return answer;
}

napi_value value_of(napi_env env, const fz_shown *shown, const char *room)
{
    napi_value answer = NULL;
    switch (shown->kind) {
    case FZ_EMPTY:
        return empty(env);
    case FZ_NUMBER:
        napi_create_bigint_int64(env, shown->number, &answer);
        break;
    case FZ_TEXT:
        napi_create_string_utf8(env, room, shown->length, &answer);
        break;
    case FZ_TRUTH:
        napi_get_boolean(env, shown->number == 1, &answer);
        break;
    default:
        napi_create_double(env, (double)shown->number, &answer);
    }
    return answer;
}
