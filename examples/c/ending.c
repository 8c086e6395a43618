/* Takes a body and an ending as its two arguments and prints each of their bars by its number: the line that has it, its bytes, and its
 * house spelling, that it is no chord, or the number of the refusal. */
#include <stdio.h>
#include <string.h>

#include "nophtris.h"

static void read_bar(const uint8_t *text, size_t len) {
  uint16_t errors[NOPHTRIS_ERRORS], count = 0, length = 0;
  uint8_t buffer[NOPHTRIS_BUFFER];
  nophtris_chord chord;
  uint8_t number = nophtris_read(text, len, errors, NOPHTRIS_ERRORS, &count, &chord);
  if (number != NOPHTRIS_ACCEPTED)
    printf("refused with %d\n", number);
  else if (chord.root_letter == NOPHTRIS_NONE)
    printf("no chord\n");
  else if (nophtris_write(&chord, buffer, sizeof buffer, &length) == NOPHTRIS_ACCEPTED)
    printf("%.*s\n", (int)length, (const char *)buffer);
}

int main(int argc, char **argv) {
  if (argc != 3) return 2;
  const uint8_t *lines[] = {(const uint8_t *)argv[1], (const uint8_t *)argv[2]};
  for (size_t number = 0;; number++) {
    uint8_t line;
    size_t from, len;
    uint8_t answer = nophtris_bar(lines[0], strlen(argv[1]), lines[1], strlen(argv[2]), number, &line, &from, &len);
    if (answer == NOPHTRIS_NO_BAR) return 0;
    if (answer == NOPHTRIS_LONG_LINE) {
      printf("more than %d bytes\n", NOPHTRIS_LINE);
      return 1;
    }
    printf("%zu %s: %.*s: ", number, line == NOPHTRIS_BODY ? "body" : "ending", (int)len, (const char *)lines[line] + from);
    read_bar(lines[line] + from, len);
  }
}
