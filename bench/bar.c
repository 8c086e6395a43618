/* The last bar of a body and an ending of 4,096 bytes each by its number, against a caller in C that looks at each byte once, in turns.
 * The file of ordinary symbols is the first argument. Prints for each pair of lines ns per byte of the two and their ratio; each is the
 * median of the rounds. With a second argument it makes one call on the first pair and prints where the lines stand, for a trace of the
 * loads. */
#include <stdio.h>
#include <string.h>

#include "nophtris.h"
#include "timing.h"

#define CALLS 500 /* of one side in a round */

static uint8_t lines[2][NOPHTRIS_LINE];
static uint8_t line;
static size_t last, from, len;

/* The last bar by the library. */
static void by_number(void) {
  if (nophtris_bar(lines[0], sizeof lines[0], lines[1], sizeof lines[1], last, &line, &from, &len) != NOPHTRIS_ACCEPTED) exit(1);
}

/* The end of the bar at a place of a line. */
static size_t end_of(const uint8_t *bytes, size_t at) {
  while (at < NOPHTRIS_LINE && bytes[at] != '|') at++;
  return at;
}

/* The same by a walk over the bytes, bar by bar. */
static void by_walk(void) {
  size_t left = last;
  for (int i = 0; i < 2; i++)
    for (size_t at = 0, to; at <= NOPHTRIS_LINE; at = to + 1) {
      to = end_of(lines[i], at);
      if (left-- > 0) continue;
      line = (uint8_t)i;
      from = at;
      len = to - at;
      return;
    }
}

static double timed(void find(void)) {
  double start = now();
  for (int i = 0; i < CALLS; i++) find();
  return (now() - start) / CALLS / sizeof lines;
}

/* A piece again and again in both lines. */
static void fill(const char *piece) {
  last = 1;
  for (size_t i = 0; i < sizeof lines; i++) {
    uint8_t byte = piece[i % sizeof lines[0] % strlen(piece)];
    lines[i / sizeof lines[0]][i % sizeof lines[0]] = byte;
    last += byte == '|';
  }
}

static void row(const char *name, const char *piece) {
  double number[ROUNDS], walk[ROUNDS], ratio[ROUNDS];
  fill(piece);
  by_walk();
  size_t place = from, size = len;
  by_number();
  if (line != NOPHTRIS_ENDING || from != place || len != size) exit(1);
  for (size_t r = 0; r < ROUNDS; r++) {
    walk[r] = timed(by_walk);
    number[r] = timed(by_number);
    ratio[r] = number[r] / walk[r];
  }
  printf("%-18s %9.3f %9.3f %9.3f\n", name, median(walk), median(number), median(ratio));
}

int main(int argc, char **argv) {
  static char symbols[NOPHTRIS_LINE + 1];
  if (read_symbols(argc > 1 ? argv[1] : NULL, symbols, NOPHTRIS_LINE) == 0) return 1;
  if (argc > 2) {
    fill(symbols);
    fprintf(stderr, "lines %zx %zx\n", (size_t)lines, (size_t)(lines + 2));
    by_number();
    return 0;
  }
  printf("%-18s %9s %9s %9s\n", "ns per byte", "a walk", "by number", "ratio");
  row("ordinary symbols", symbols);
  row("only |", "|");
  row("one bar", "C");
  return 0;
}
