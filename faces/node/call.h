/* What the files of the addon share: calls from JavaScript, their arguments, their answers and their errors. */
#ifndef CALL_H
#define CALL_H

#define NAPI_VERSION 8
#include <node_api.h>

#include "fazhundel.h"

enum { MOST_ARGUMENTS = 9 };

/* The mark of an object that holds a book. */
extern const napi_type_tag book_tag;

/* A call from JavaScript: the class of errors, and the arguments, which are read one after the other. Where one isn't what it has
 * to be, an error waits to be thrown, and is_good says so. */
struct call {
    napi_env env;
    napi_ref *errors;
    fz_book *book;
    napi_value arguments[MOST_ARGUMENTS];
    size_t count;
    size_t next;
    bool is_good;
};

/* A text as the library takes it. */
struct text {
    char *bytes;
    size_t length;
};

/* A call; that of a book, which may be closed, its first argument; and that of an open book. */
struct call begun(napi_env env, napi_callback_info info);
struct call of_book(napi_env env, napi_callback_info info);
struct call asked(napi_env env, napi_callback_info info);

/* Errors. One that comes behind another isn't thrown. */
void type_error(struct call *call, const char *message);
/* Throws an error of the class for a status. */
void throw_status(struct call *call, fz_status status);
/* What a call answers that answers nothing: undefined, or what is thrown. */
napi_value ended(struct call *call, fz_status status);

/* Arguments, each the next one. */
napi_value next(struct call *call);
/* An integer from least to most. */
double integer(struct call *call, double least, double most, const char *message);
uint32_t number(struct call *call);
void numbers(struct call *call, uint32_t *read, int count);
/* A scope: a sheet's number, or null for the whole workbook. */
uint32_t scope(struct call *call);
bool truth(struct call *call);
/* A text in memory that is freed by the caller. */
struct text text(struct call *call);
/* What a BigInt of 64 bits tells. */
int64_t millionths(struct call *call, napi_value given);

/* Answers. */
napi_value empty(napi_env env);
/* The number of a sheet, or null. */
napi_value sheet_number(napi_env env, uint32_t sheet);
/* An array of numbers. */
napi_value numbers_of(napi_env env, const uint32_t *numbers, uint32_t count);
/* A value: null, a BigInt of millionths, a string, a boolean, or a fault as its number. */
napi_value value_of(napi_env env, const fz_shown *shown, const char *room);

/* The questions, which questions.c answers. */
napi_value kind(napi_env env, napi_callback_info info);
napi_value used_area(napi_env env, napi_callback_info info);
napi_value value(napi_env env, napi_callback_info info);
napi_value value_text(napi_env env, napi_callback_info info);
napi_value formula(napi_env env, napi_callback_info info);
napi_value content(napi_env env, napi_callback_info info);
napi_value sheet_name(napi_env env, napi_callback_info info);
napi_value name_value(napi_env env, napi_callback_info info);
napi_value name_text(napi_env env, napi_callback_info info);
napi_value try_formula(napi_env env, napi_callback_info info);
napi_value normal_text(napi_env env, napi_callback_info info);
napi_value parse_error(napi_env env, napi_callback_info info);
napi_value filled(napi_env env, napi_callback_info info);
napi_value filled_in(napi_env env, napi_callback_info info);
napi_value on_cycle(napi_env env, napi_callback_info info);
napi_value values(napi_env env, napi_callback_info info);
napi_value contents(napi_env env, napi_callback_info info);
napi_value names(napi_env env, napi_callback_info info);
napi_value names_in(napi_env env, napi_callback_info info);
napi_value precedents(napi_env env, napi_callback_info info);
napi_value dependents(napi_env env, napi_callback_info info);

#endif
