/* Reading by two builds of the library, in turns. The file of ordinary symbols is the first argument. Prints for each row ns per text of
 * the old one and of the new one, and the ratio of the new to the old; each is the median of the rounds. */
#include <stdio.h>
#include <stdlib.h>
#include <string.h>

#include "nophtris.h"
#include "timing.h"

#define SHORTEST 1e6 /* ns of one side in a round */
#define MOST 256     /* texts of a row */

typedef uint8_t reader(const uint8_t *, size_t, uint16_t *, size_t, uint16_t *, nophtris_chord *);
reader old_read, new_read;

static char texts[MOST][257];
static size_t lens[MOST], many;
static uint16_t errors[NOPHTRIS_ERRORS], count;
static nophtris_chord chord;

/* ns per text of so many passes over the texts. */
static double timed(reader *read, size_t times) {
  double start = now();
  for (size_t i = 0; i < times; i++)
    for (size_t k = 0; k < many; k++) read((const uint8_t *)texts[k], lens[k], errors, NOPHTRIS_ERRORS, &count, &chord);
  return (now() - start) / (times * many);
}

static void row(const char *name) {
  double old[ROUNDS], new[ROUNDS], ratio[ROUNDS];
  size_t times = SHORTEST / (timed(old_read, 1) * many) + 1;
  for (size_t r = 0; r < ROUNDS; r++) {
    old[r] = timed(old_read, times);
    new[r] = timed(new_read, times);
    ratio[r] = new[r] / old[r];
  }
  printf("%-26s %9.1f %9.1f %9.3f\n", name, median(old), median(new), median(ratio));
}

/* One text: a piece again and again behind C, up to 256 bytes. */
static void full(const char *name, const char *piece) {
  size_t size = strlen(piece), n = 1;
  texts[0][0] = 'C';
  for (; n + size <= 256; n += size) memcpy(texts[0] + n, piece, size);
  lens[0] = n;
  many = 1;
  row(name);
}

int main(int argc, char **argv) {
  FILE *file = argc > 1 ? fopen(argv[1], "r") : NULL;
  if (file == NULL) return 1;
  while (many < MOST && fgets(texts[many], sizeof *texts, file)) {
    lens[many] = strcspn(texts[many], "\n");
    many++;
  }
  row("ordinary symbols");
  full("one letter run", "madim");
  full("letters of no word", "z");
  full("one digit run", "1");
  full("opening brackets", "(");
  full("brackets opened, closed", "()");
  full("commas", ",");
  full("sevenths and dims", "dim7");
  full("Maj7", "Maj7");
  full("numbers and signs", ",#9b13");
  full("signs of three bytes", "\u266f");
  full("spaces", " ");
  return 0;
}
