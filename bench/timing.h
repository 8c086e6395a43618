/* What bar.c, pair.c and song.c share: a clock, the median of the rounds, and the ordinary symbols as a song line. */
#include <stdio.h>
#include <stdlib.h>
#include <time.h>

#define ROUNDS 101

static double now(void) {
  struct timespec t;
  clock_gettime(CLOCK_MONOTONIC, &t);
  return t.tv_sec * 1e9 + t.tv_nsec;
}

static int smaller(const void *a, const void *b) {
  double x = *(const double *)a, y = *(const double *)b;
  return (x > y) - (x < y);
}

static double median(double *rounds) {
  qsort(rounds, ROUNDS, sizeof *rounds, smaller);
  return rounds[ROUNDS / 2];
}

/* The symbols of a file, one a line, with a `|` for each newline, in at most size bytes; 0 where there are none. */
static inline size_t read_symbols(const char *path, char *symbols, size_t size) {
  FILE *file = path ? fopen(path, "r") : NULL;
  size_t n = file ? fread(symbols, 1, size, file) : 0;
  for (size_t i = 0; i < n; i++)
    if (symbols[i] == '\n') symbols[i] = '|';
  return n;
}
