/* How deep the functions go: each text is read, as a text and as a song line, a bar of it is found by its number, each record is written,
 * and MIDI messages lead to its keys, on a stack of its own that was painted before. Prints the bytes used. */
#include <pthread.h>
#include <stdint.h>
#include <stdio.h>
#include <stdlib.h>
#include <string.h>

#include "nophtris.h"

#define STACK (1u << 20)
#define PAINT 0xC3

typedef struct {
  const char *text;
  size_t len;
  int call; /* 0 nothing, 1 read, 2 write, 3 step, 4 bar, 5 MIDI */
  uint8_t number;
} task;

static size_t position, bar_from, bar_len, sent;
static uint8_t bar_line, sounding[NOPHTRIS_KEYS], out[NOPHTRIS_OUTPUT];
static uint16_t errors[NOPHTRIS_ERRORS], count, length;
static nophtris_chord chord;
static uint8_t buffer[NOPHTRIS_BUFFER];

static void *run(void *p) {
  task *t = p;
  if (t->call == 1) t->number = nophtris_read((const uint8_t *)t->text, t->len, errors, NOPHTRIS_ERRORS, &count, &chord);
  if (t->call == 2) t->number = nophtris_write(&chord, buffer, sizeof buffer, &length);
  position = 0;
  if (t->call == 3)
    t->number = nophtris_step((const uint8_t *)t->text, t->len, &position, errors, NOPHTRIS_ERRORS, &count, &chord, &bar_from, &bar_len);
  const uint8_t *line = (const uint8_t *)t->text;
  if (t->call == 4) t->number = nophtris_bar(line, t->len, line, t->len, 2 * t->len, &bar_line, &bar_from, &bar_len);
  if (t->call == 5) t->number = nophtris_midi(sounding, 60, &chord, out, sizeof out, &sent);
  return NULL;
}

/* The bytes of the stack that were touched. */
static size_t depth(task *t) {
  static uint8_t stack[STACK] __attribute__((aligned(4096)));
  memset(stack, PAINT, sizeof stack);
  pthread_attr_t attr;
  pthread_t thread;
  if (pthread_attr_init(&attr) || pthread_attr_setstack(&attr, stack, sizeof stack) || pthread_create(&thread, &attr, run, t) || pthread_join(thread, NULL)) exit(1);
  size_t i = 0;
  while (i < sizeof stack && stack[i] == PAINT) i++;
  return sizeof stack - i;
}

static size_t base;

static void row(const char *name, const char *text, int call) {
  task t = {text, strlen(text), call, 0};
  size_t d = depth(&t);
  printf("%-36s answer %d  %7zu bytes\n", name, t.number, d - base);
}

static char *repeated(const char *head, const char *piece, size_t n) {
  char *s = calloc(1, 512);
  strcpy(s, head);
  while (strlen(s) + strlen(piece) <= n) strcat(s, piece);
  return s;
}

int main(void) {
  task none = {"", 0, 0, 0};
  base = depth(&none);
  row("reading C", "C", 1);
  row("writing it", "", 2);
  row("MIDI from silence to it", "", 5);
  row("reading F#13(#11)/G", "F#13(#11)/G", 1);
  row("writing it", "", 2);
  row("MIDI from C to it", "", 5);
  row("reading C((( .., 255 brackets", repeated("C", "(", 256), 1);
  row("reading C(999 .., one bracket", repeated("C(", "9", 256), 1);
  row("reading C()() ..", repeated("C", "()", 256), 1);
  row("reading 256 commas", repeated("C", ",", 256), 1);
  row("a step that reads C", "C|", 3);
  row("a step that reads C((( ..", repeated("C", "(", 256), 3);
  row("a bar by its number, of 255 times |", repeated("", "|", 255), 4);
  row("a number that no bar of C has", "C", 4);
  return 0;
}
