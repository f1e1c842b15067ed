/* Preloaded into the program. It changes the calls of read and write as the environment asks.

   - READ_SIZE n: A read of the standard input gives at most n bytes.
   - CUT n: No read of it goes past the byte n, so the stream comes in two pieces.
   - READ_FAILS n: The nth read of it fails, with the error READ_ERROR.
   - WRITE_SIZE n: A write of the standard output takes at most n bytes. With 0 it takes none.
   - WRITE_FAILS n: From the nth on, the writes of it fail, with no room left.
   - ERROR_FAILS n: The same for the standard error.
   - COUNTED file: At the end this file gets the counts of reads, writes, and writes of the standard
     error. */
#define _GNU_SOURCE
#include <dlfcn.h>
#include <errno.h>
#include <stdio.h>
#include <stdlib.h>
#include <unistd.h>

static long read_size, cut, read_fails, read_error, write_size, write_fails, error_fails;
static long reads, writes, errors, place;

static long number(const char *name, long otherwise) {
  const char *text = getenv(name);
  return text ? strtol(text, NULL, 10) : otherwise;
}

__attribute__((constructor)) static void begin(void) {
  read_size = number("READ_SIZE", -1);
  cut = number("CUT", -1);
  read_fails = number("READ_FAILS", -1);
  read_error = number("READ_ERROR", EIO);
  write_size = number("WRITE_SIZE", -1);
  write_fails = number("WRITE_FAILS", -1);
  error_fails = number("ERROR_FAILS", -1);
}

__attribute__((destructor)) static void end(void) {
  const char *name = getenv("COUNTED");
  FILE *file = name ? fopen(name, "w") : NULL;
  if (file) {
    fprintf(file, "%ld %ld %ld\n", reads, writes, errors);
    fclose(file);
  }
}

ssize_t read(int from, void *into, size_t size) {
  static ssize_t (*next)(int, void *, size_t);
  if (!next) next = (ssize_t(*)(int, void *, size_t))dlsym(RTLD_NEXT, "read");
  if (from != STDIN_FILENO) return next(from, into, size);
  if (++reads == read_fails) {
    errno = (int)read_error;
    return -1;
  }
  if (read_size >= 0 && size > (size_t)read_size) size = (size_t)read_size;
  if (place < cut && size > (size_t)(cut - place)) size = (size_t)(cut - place);
  const ssize_t got = next(from, into, size);
  if (got > 0) place += got;
  return got;
}

static int fails(long count, long from) { return from >= 0 && count >= from; }

ssize_t write(int to, const void *bytes, size_t size) {
  static ssize_t (*next)(int, const void *, size_t);
  if (!next) next = (ssize_t(*)(int, const void *, size_t))dlsym(RTLD_NEXT, "write");
  if ((to == STDOUT_FILENO && fails(++writes, write_fails)) || (to == STDERR_FILENO && fails(++errors, error_fails))) {
    errno = ENOSPC;
    return -1;
  }
  if (to == STDOUT_FILENO && write_size >= 0 && size > (size_t)write_size) size = (size_t)write_size;
  return size == 0 ? 0 : next(to, bytes, size);
}
