/* Preloaded into the program. It counts the calls of malloc and realloc from 1, and refuses the one
   whose number is REFUSED. It passes all others on to the C library. At the end it writes how many
   there were to the file COUNTED. */
#define _GNU_SOURCE
#include <dlfcn.h>
#include <stdio.h>
#include <stdlib.h>

static unsigned long refused, seen;

__attribute__((constructor)) static void begin(void) {
  const char *number = getenv("REFUSED");
  refused = number ? strtoul(number, NULL, 10) : 0;
}

__attribute__((destructor)) static void end(void) {
  const unsigned long count = seen;
  const char *name = getenv("COUNTED");
  FILE *file = name ? fopen(name, "w") : NULL;
  if (file) {
    fprintf(file, "%lu\n", count);
    fclose(file);
  }
}

void *malloc(size_t size) {
  static void *(*next)(size_t);
  if (!next) next = (void *(*)(size_t))dlsym(RTLD_NEXT, "malloc");
  return ++seen == refused ? NULL : next(size);
}

void *realloc(void *block, size_t size) {
  static void *(*next)(void *, size_t);
  if (!next) next = (void *(*)(void *, size_t))dlsym(RTLD_NEXT, "realloc");
  return ++seen == refused ? NULL : next(block, size);
}
