/* Refuses one allocation of a program, or all from one on: a library to load before the C library.
 *
 * REFUSE_FROM and REFUSE_TO are the numbers of the first and the last allocation that is refused, counted from 1. Where
 * COUNT_FILE is set, the number of all allocations is written there at the end. */
#define _GNU_SOURCE
#include <dlfcn.h>
#include <errno.h>
#include <stdio.h>
#include <stdlib.h>
#include <string.h>

static unsigned long seen, from, to;
static int ready;
static char early[65536];
static size_t early_used;

static void *(*real_malloc)(size_t);
static void *(*real_calloc)(size_t, size_t);
static void *(*real_realloc)(void *, size_t);
static void *(*real_aligned)(size_t, size_t);
static int (*real_memalign)(void **, size_t, size_t);
static void (*real_free)(void *);

static unsigned long number(const char *name) {
  const char *text = getenv(name);
  return text ? strtoul(text, NULL, 10) : 0;
}

static void begin(void) {
  if (ready) return;
  ready = -1;
  real_malloc = dlsym(RTLD_NEXT, "malloc");
  real_calloc = dlsym(RTLD_NEXT, "calloc");
  real_realloc = dlsym(RTLD_NEXT, "realloc");
  real_aligned = dlsym(RTLD_NEXT, "aligned_alloc");
  real_memalign = dlsym(RTLD_NEXT, "posix_memalign");
  real_free = dlsym(RTLD_NEXT, "free");
  from = number("REFUSE_FROM");
  to = number("REFUSE_TO");
  ready = 1;
}

/* What is asked for while the functions of the C library are looked up. */
static void *early_block(size_t size) {
  size_t start = (early_used + 15) & ~(size_t)15;
  if (start + size > sizeof early) return NULL;
  early_used = start + size;
  return early + start;
}

static int is_early(void *block) {
  return (char *)block >= early && (char *)block < early + sizeof early;
}

static int refused(void) {
  begin();
  seen++;
  if (from && seen >= from && seen <= to) {
    errno = ENOMEM;
    return 1;
  }
  return 0;
}

void *malloc(size_t size) {
  if (ready == -1) return early_block(size);
  return refused() ? NULL : real_malloc(size);
}

void *calloc(size_t count, size_t size) {
  if (ready == -1) return early_block(count * size);
  return refused() ? NULL : real_calloc(count, size);
}

void *realloc(void *block, size_t size) {
  if (refused()) return NULL;
  if (is_early(block)) return NULL;
  return real_realloc(block, size);
}

void *aligned_alloc(size_t alignment, size_t size) {
  return refused() ? NULL : real_aligned(alignment, size);
}

int posix_memalign(void **block, size_t alignment, size_t size) {
  return refused() ? ENOMEM : real_memalign(block, alignment, size);
}

void free(void *block) {
  begin();
  if (!is_early(block)) real_free(block);
}

__attribute__((destructor)) static void end(void) {
  const char *path = getenv("COUNT_FILE");
  if (!path) return;
  from = 0;
  unsigned long all = seen;
  FILE *file = fopen(path, "w");
  if (!file) return;
  fprintf(file, "%lu\n", all);
  fclose(file);
}
