/* Song lines of 4,096 bytes by steps, against two callers that have no step, in turns: one writes down in one pass where each bar lies, and
 * reads these bars then; the other reads each bar as soon as it has found its end. The file of ordinary symbols is the first argument.
 * Prints for each line ns per bar of the three, and the ratio of the steps to each of the two; each is the median of the rounds. */
#include <stdio.h>
#include <stdlib.h>
#include <string.h>

#include "nophtris.h"
#include "timing.h"

#define SHORTEST 1e6 /* ns of one side in a round */

static uint8_t line[NOPHTRIS_LINE];
static size_t from[NOPHTRIS_LINE + 1], len[NOPHTRIS_LINE + 1];
static uint16_t errors[NOPHTRIS_ERRORS], count;
static nophtris_chord chord;

/* The line by steps; the count of its bars. */
static size_t by_steps(void) {
  size_t position = 0, bar_from, bar_len, bars = 0;
  while (nophtris_step(line, sizeof line, &position, errors, NOPHTRIS_ERRORS, &count, &chord, &bar_from, &bar_len) != NOPHTRIS_END) bars++;
  return bars;
}

/* One pass over the line, and each of its bars read; their count. */
static size_t by_bars(void) {
  size_t bars = 0, to;
  for (size_t at = 0; at <= sizeof line; at = to + 1) {
    for (to = at; to < sizeof line && line[to] != '|';) to++;
    from[bars] = at;
    len[bars++] = to - at;
  }
  for (size_t k = 0; k < bars; k++) nophtris_read(line + from[k], len[k], errors, NOPHTRIS_ERRORS, &count, &chord);
  return bars;
}

/* Each bar read as soon as its end is found, and its place not kept; their count. */
static size_t by_turns(void) {
  size_t bars = 0, to;
  for (size_t at = 0; at <= sizeof line; at = to + 1) {
    for (to = at; to < sizeof line && line[to] != '|';) to++;
    nophtris_read(line + at, to - at, errors, NOPHTRIS_ERRORS, &count, &chord);
    bars++;
  }
  return bars;
}

/* ns per bar of so many walks over the line. */
static double timed(size_t walk(void), size_t times) {
  size_t bars = 0;
  double start = now();
  for (size_t i = 0; i < times; i++) bars += walk();
  return (now() - start) / bars;
}

/* A piece again and again, up to 4,096 bytes. */
static void row(const char *name, const char *piece) {
  double steps[ROUNDS], bars[ROUNDS], turns[ROUNDS], to_bars[ROUNDS], to_turns[ROUNDS];
  for (size_t i = 0; i < sizeof line; i++) line[i] = piece[i % strlen(piece)];
  size_t n = by_bars();
  if (by_steps() != n) exit(1);
  size_t times = SHORTEST / (timed(by_bars, 1) * n) + 1;
  for (size_t r = 0; r < ROUNDS; r++) {
    bars[r] = timed(by_bars, times);
    steps[r] = timed(by_steps, times);
    turns[r] = timed(by_turns, times);
    to_bars[r] = steps[r] / bars[r];
    to_turns[r] = steps[r] / turns[r];
  }
  printf("%-18s %9.1f %9.1f %9.1f %9.3f %9.3f\n", name, median(bars), median(turns), median(steps), median(to_bars), median(to_turns));
}

int main(int argc, char **argv) {
  static char symbols[NOPHTRIS_LINE + 1];
  if (read_symbols(argc > 1 ? argv[1] : NULL, symbols, NOPHTRIS_LINE) == 0) return 1;
  row("ordinary symbols", symbols);
  row("only |", "|");
  row("one bar", "C");
  return 0;
}
