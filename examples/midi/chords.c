/* chords FILE CHORD ..: writes a Standard MIDI File in which each chord sounds for a bar, for a sound module or a sequencer to play. A
 * blank text, as '' or ' ', is a bar without a chord. A chord that is refused is named on standard error, and the old one goes on sounding.
 *
 * `play` is what to look at: two calls lead from the chord that sounds to the next. All else makes a file of the messages. An instrument
 * would send them to its MIDI output, as they are; it begins with 16 zeros too, and keeps those bytes from call to call. */
#include <stdio.h>
#include <string.h>

#include "nophtris.h"

#define BASE 60    /* the base key, here middle C: roots lie in the octave from there on, slash basses in the one below */
#define ORGAN 16   /* the drawbar organ, which General MIDI counts as 17, from 1 on */
#define QUARTER 96 /* ticks of time in a quarter note, */
#define BAR 384    /* and in a bar of four */
#define HEADER 22  /* the bytes in front of the track's events; the last four of them are the track's length */

/* The file's one track: where it is written, the bytes that it has so far, and the ticks since its last event. */
typedef struct {
  FILE *file;
  uint32_t length;
  uint32_t ticks;
} track;

/* Writes an event behind the time since the one before it, which has seven bits in each byte, the highest first. */
static void event(track *t, const uint8_t *bytes, size_t count) {
  for (int shift = 21; shift > 0; shift -= 7)
    if (t->ticks >> shift != 0) {
      fputc((int)(0x80 | (t->ticks >> shift & 0x7F)), t->file);
      t->length++;
    }
  fputc((int)(t->ticks & 0x7F), t->file);
  fwrite(bytes, 1, count, t->file);
  t->length += 1 + (uint32_t)count;
  t->ticks = 0;
}

/* Goes from the chord that sounds to the next one. `sounding` has a bit for each key: bit k % 8 of byte k / 8 is key k. */
static void play(track *t, uint8_t sounding[NOPHTRIS_KEYS], const char *text) {
  uint16_t errors[NOPHTRIS_ERRORS], count = 0;
  uint8_t out[NOPHTRIS_OUTPUT]; /* never too short */
  size_t length = 0;
  nophtris_chord chord;
  uint8_t number = nophtris_read((const uint8_t *)text, strlen(text), errors, NOPHTRIS_ERRORS, &count, &chord);
  if (number == NOPHTRIS_ACCEPTED) number = nophtris_midi(sounding, BASE, &chord, out, sizeof out, &length);
  if (number != NOPHTRIS_ACCEPTED) fprintf(stderr, "%s: refused with %d; the old chord goes on\n", text, number);
  /* Three bytes each: first the keys that are no longer wanted go off, then the new ones come on. None if it was refused. */
  for (size_t at = 0; at < length; at += 3) event(t, out + at, 3);
}

/* The file's header, format 0 with one track; the track's beginning, whose length is filled in at its end; tempo and sound. */
static void begin(track *t) {
  static const uint8_t header[HEADER] = {'M', 'T', 'h', 'd', 0, 0, 0, 6, 0, 0, 0, 1, 0, QUARTER, 'M', 'T', 'r', 'k', 0, 0, 0, 0};
  static const uint8_t tempo[] = {0xFF, 0x51, 3, 0x07, 0xA1, 0x20}; /* a quarter note has 500,000 microseconds */
  static const uint8_t program[] = {0xC0, ORGAN};                   /* on channel 1, as the messages are */
  fwrite(header, 1, sizeof header, t->file);
  event(t, tempo, sizeof tempo);
  event(t, program, sizeof program);
}

/* The end of the track, and its length. Gives 0 if all could be written. */
static int end(track *t) {
  static const uint8_t last[] = {0xFF, 0x2F, 0};
  event(t, last, sizeof last);
  fseek(t->file, HEADER - 4, SEEK_SET);
  for (int shift = 24; shift >= 0; shift -= 8) fputc((int)(t->length >> shift & 0xFF), t->file);
  int failed = ferror(t->file);
  return fclose(t->file) != 0 || failed;
}

int main(int argc, char **argv) {
  uint8_t sounding[NOPHTRIS_KEYS] = {0}; /* silence */
  track t = {argc < 2 ? NULL : fopen(argv[1], "wb"), 0, 0};
  if (t.file == NULL) {
    fputs("usage: chords FILE CHORD ..; FILE has to be writable\n", stderr);
    return 2;
  }
  begin(&t);
  for (int i = 2; i < argc; i++) {
    play(&t, sounding, argv[i]);
    t.ticks += BAR;
  }
  play(&t, sounding, ""); /* no chord: all keys go off */
  return end(&t);
}
