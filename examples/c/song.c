/* Reads each argument as a song line, bar by bar, and prints of each bar its house spelling, no chord, or the number of its refusal. */
#include <stdio.h>
#include <string.h>

#include "nophtris.h"

static void bar(const char *text, size_t len, uint8_t number, const nophtris_chord *chord) {
  uint8_t buffer[NOPHTRIS_BUFFER];
  uint16_t length = 0;
  if (number == NOPHTRIS_ACCEPTED && chord->root_letter == NOPHTRIS_NONE)
    printf("  no chord\n");
  else if (number == NOPHTRIS_ACCEPTED && nophtris_write(chord, buffer, sizeof buffer, &length) == NOPHTRIS_ACCEPTED)
    printf("  %.*s: %.*s\n", (int)len, text, (int)length, (const char *)buffer);
  else
    printf("  %.*s: refused with %d\n", (int)len, text, number);
}

static int song(const char *line) {
  uint16_t errors[NOPHTRIS_ERRORS], count = 0;
  size_t position = 0, from = 0, len = 0;
  nophtris_chord chord;
  printf("%s\n", line);
  for (;;) {
    uint8_t number =
        nophtris_step((const uint8_t *)line, strlen(line), &position, errors, NOPHTRIS_ERRORS, &count, &chord, &from, &len);
    if (number == NOPHTRIS_END) return 0;
    if (number == NOPHTRIS_LONG_LINE) {
      printf("  more than %d bytes\n", NOPHTRIS_LINE);
      return 1;
    }
    bar(line + from, len, number, &chord);
  }
}

int main(int argc, char **argv) {
  int refused = 0;
  for (int i = 1; i < argc; i++) refused |= song(argv[i]);
  return refused;
}
