/* Reads each argument as a card and prints its house spelling, or the number of the refusal and its errors. */
#include <stdio.h>
#include <string.h>

#include "nophtris.h"

_Static_assert(sizeof(nophtris_chord) == 51, "the struct has no padding");

static int card(const char *text) {
  uint16_t errors[NOPHTRIS_ERRORS], count = 0, length = 0;
  uint8_t buffer[NOPHTRIS_BUFFER];
  nophtris_chord chord;
  uint8_t number = nophtris_read((const uint8_t *)text, strlen(text), errors, NOPHTRIS_ERRORS, &count, &chord);
  if (number != 0) {
    printf("%s: refused with %d\n", text, number);
    for (int i = 0; i < count; i++)
      printf("  kind %d: %d %d %d\n", errors[4 * i], errors[4 * i + 1], errors[4 * i + 2], errors[4 * i + 3]);
    return 1;
  }
  number = nophtris_write(&chord, buffer, sizeof buffer, &length);
  if (number != 0) {
    printf("%s: not written, %d\n", text, number);
    return 1;
  }
  printf("%s: %.*s\n", text, (int)length, (const char *)buffer);
  return 0;
}

int main(int argc, char **argv) {
  int refused = 0;
  for (int i = 1; i < argc; i++) refused |= card(argv[i]);
  return refused;
}
