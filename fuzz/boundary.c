/* Calls the functions of the library with random bytes, changed cards, song lines, bar numbers and changed records, with every list,
 * buffer and line length around each limit, and checks what the papers say of the lent memory: every lent piece stands between guard
 * bytes, and what a call may not write is as it was. Blank texts of 0 to 300 spaces and the record of no chord, with any one byte
 * changed, come first. MIDI out goes from call to call, and is held to a plain computation from the header's words.
 * usage: boundary CALLS SEED. Prints how often each number came up; ends with status 1 at the first fault. */
#include <stdint.h>
#include <stdio.h>
#include <stdlib.h>
#include <string.h>

#include "nophtris.h"

#define GUARD 64
#define MARK 0xA5
#define LARGEST 8192 /* bytes of a lent piece */

static uint64_t state;

static uint64_t next(void) { /* splitmix64 */
  uint64_t z = (state += 0x9E3779B97F4A7C15u);
  z = (z ^ (z >> 30)) * 0xBF58476D1CE4E5B9u;
  z = (z ^ (z >> 27)) * 0x94D049BB133111EBu;
  return z ^ (z >> 31);
}

static unsigned below(unsigned n) { return (unsigned)(next() % n); }

static unsigned long call_number;

static void fault(const char *what) {
  fprintf(stderr, "call %lu: %s\n", call_number, what);
  exit(1);
}

/* A lent piece between two guards, as it was before a call and as it is. */
typedef struct {
  uint8_t before[GUARD + LARGEST + GUARD], now[GUARD + LARGEST + GUARD];
  size_t size; /* bytes between the guards */
} piece;

static void lend(piece *p, size_t size) {
  if (size > LARGEST) fault("a piece is too small");
  p->size = size;
  memset(p->now, MARK, GUARD);
  for (size_t i = 0; i < size; i += 8) {
    uint64_t r = next();
    memcpy(p->now + GUARD + i, &r, 8);
  }
  memset(p->now + GUARD + size, MARK, GUARD);
  memcpy(p->before, p->now, size + 2 * GUARD);
}

static void lend_bytes(piece *p, const void *bytes, size_t size) {
  lend(p, size);
  memcpy(p->now + GUARD, bytes, size);
  memcpy(p->before + GUARD, bytes, size);
}

/* Nothing outside the first n bytes has changed. */
static void kept(const piece *p, size_t n, const char *what) {
  if (n > p->size || memcmp(p->now, p->before, GUARD) != 0 || memcmp(p->now + GUARD + n, p->before + GUARD + n, p->size - n + GUARD) != 0) fault(what);
}

static const char *const words[] = {"C", "F#", "Bb", "m", "maj", "Maj7", "dim", "dim7", "aug", "sus", "sus2", "sus4", "susb2", "add", "omit", "no", "alt", "bass", "(", ")", ",", "/", "#", "b", "2", "3", "4", "5", "6", "7", "9", "11", "13", "1", "8", "0", " ", "+", "-", "^", "\xC2\xB0", "\xC3\xB8", "\xE2\x96\xB3", "\xE2\x99\xAF", "\xE2\x99\xAD", "\xC2\xB2", "\xC2\xB9", "\xE2\x81\xB7", "\xC2\xBD", "\xFF", "\xED\xA0\x80", "\xF0\x9F\x8E\xB9", "E/9", "6/9", ",7", ",b5", "add9", "(b9,#11)"};

static size_t near(size_t limit) { /* around a limit, or anything below and somewhat above it */
  switch (below(4)) {
  case 0: return limit - 3 + below(6);
  case 1: return below((unsigned)limit + 40);
  case 2: return limit;
  default: return limit + below(40);
  }
}

static size_t text(uint8_t *t) {
  size_t n = 0, want = below(8) ? below(40) : near(256);
  if (below(128) == 0) { /* spaces only */
    memset(t, ' ', want);
    return want;
  }
  if (below(16) == 0) { /* random bytes */
    for (; n < want; n++) t[n] = (uint8_t)next();
    return n;
  }
  if (below(8)) t[n++] = "CDEFGAB"[below(7)];
  while (n < want) {
    const char *w = words[below(sizeof words / sizeof *words)];
    size_t l = strlen(w);
    memcpy(t + n, w, l);
    n += l;
  }
  if (below(4) == 0 && n) t[below((unsigned)n)] = (uint8_t)next();
  return n;
}

static int is_blank(const uint8_t *t, size_t n) { /* at most 256 bytes, empty or spaces only */
  for (size_t i = 0; i < n; i++)
    if (t[i] != ' ') return 0;
  return n <= 256;
}

/* Do 51 bytes hold no chord: no root, no bass, no intervals? What lies behind the count does not matter. */
static int is_silent(const uint8_t *c) {
  for (size_t i = 4; i < 28; i++)
    if (c[i] != 0) return 0;
  return c[0] == 255 && c[1] == 0 && c[2] == 255 && c[3] == 0;
}

/* An error is of a kind that occurs; its position is inside the text, and on the sign where it is built from a slash or a bracket. */
static void check_error(const uint16_t *error, const uint8_t *text, size_t n) {
  uint16_t kind = error[0], position = error[1];
  if (kind < 1 || kind > 17 || kind == 13) fault("a kind that does not occur");
  if (kind == 3 || kind == 4 || kind == 9 || kind == 10) return; /* these carry no position */
  if (position >= n) fault("a position outside the text");
  if (kind >= 14 && text[position] != "/)(("[kind - 14]) fault("a position that is not on the sign");
}

static unsigned long reads[8], writes[8], silent_reads, silent_writes;
static nophtris_chord last; /* the last record that was read */

static void read_text(const uint8_t *bytes, size_t n, size_t room) {
  static piece list, one, record, given;
  lend_bytes(&given, bytes, n);
  lend(&list, 2 * room);
  lend(&one, 2);
  lend(&record, sizeof(nophtris_chord));
  uint8_t r = nophtris_read(given.now + GUARD, n, (uint16_t *)(void *)(list.now + GUARD), room, (uint16_t *)(void *)(one.now + GUARD), (nophtris_chord *)(void *)(record.now + GUARD));
  kept(&given, 0, "the text was changed");
  if (r > 5) fault("a number that reading has not");
  reads[r]++;
  if ((r == 1) != (room < 1028)) fault("1 is not the answer to a short list");
  if (r != 1 && (r == 2) != (n > 256)) fault("2 is not the answer to a long text");
  int silent = r == 0 && is_silent(record.now + GUARD);
  silent_reads += (unsigned)silent;
  if (r != 1 && silent != is_blank(bytes, n)) fault("no chord is not the answer to a blank text");
  if (r == 0 && !silent && record.now[GUARD] > 6) fault("a chord without a root was read");
  uint16_t count;
  memcpy(&count, one.now + GUARD, 2);
  kept(&one, r == 4 || r == 5 ? 2 : 0, "the count was written");
  kept(&record, r == 0 ? sizeof(nophtris_chord) : 0, "the record was written");
  if (r != 4 && r != 5) {
    kept(&list, 0, "the list was written");
  } else {
    if (count == 0 || count > 257) fault("a count of errors that cannot be");
    kept(&list, 8 * (size_t)count, "the list was written behind the errors");
    for (unsigned i = 0; i < count; i++) {
      uint16_t error[4];
      memcpy(error, list.now + GUARD + 8 * i, sizeof error);
      check_error(error, bytes, n);
    }
  }
  if (r == 0) memcpy(&last, record.now + GUARD, sizeof last);
}

static void read_once(void) {
  static uint8_t bytes[512];
  size_t n = text(bytes);
  read_text(bytes, n, below(8) ? 1028 + below(4) : near(1028));
}

/* A record is written, or refused; its spelling is read as its four, and as the same bytes where these were read (`whole`). */
static void write_record(const uint8_t *bytes, size_t room, int whole) {
  static piece record, buffer, one;
  lend_bytes(&record, bytes, sizeof(nophtris_chord));
  lend(&buffer, room);
  lend(&one, 2);
  uint8_t r = nophtris_write((const nophtris_chord *)(void *)(record.now + GUARD), buffer.now + GUARD, room, (uint16_t *)(void *)(one.now + GUARD));
  kept(&record, 0, "the record was changed");
  if (r != 0 && r != 6 && r != 7) fault("a number that writing has not");
  writes[r]++;
  if ((r == 6) != (room < 112)) fault("6 is not the answer to a short buffer");
  if (whole && r == 7) fault("a record that was read is refused");
  if (bytes[0] == 255 && r != 6 && r != (is_silent(bytes) ? 0 : 7)) fault("a record without a root is written or refused wrongly");
  uint16_t length = 0;
  if (r == 0) memcpy(&length, one.now + GUARD, 2);
  kept(&one, r == 0 ? 2 : 0, "the length was written");
  if (length > 112 || (r == 0 && (length == 0) != (bytes[0] == 255))) fault("a length that cannot be");
  kept(&buffer, length, "the buffer was written behind the spelling");
  if (r != 0) return;
  silent_writes += bytes[0] == 255;
  uint16_t errors[NOPHTRIS_ERRORS], count;
  nophtris_chord again;
  if (nophtris_read(buffer.now + GUARD, length, errors, NOPHTRIS_ERRORS, &count, &again) != 0) fault("the spelling is refused");
  if (whole && memcmp(&again, bytes, sizeof again) != 0) fault("the spelling reads as another record");
}

static const uint8_t silence[51] = {255, 0, 255};

/* The last record that was read, as it is; or that one, the one of no chord or random bytes, changed. Gives whether it was read. */
static int some_record(uint8_t *bytes) {
  int whole = below(2);
  if (whole || below(8)) memcpy(bytes, &last, sizeof last);
  else if (below(2)) memcpy(bytes, silence, sizeof silence);
  else
    for (unsigned i = 0; i < 51; i++) bytes[i] = (uint8_t)next();
  if (!whole)
    for (unsigned k = below(4); k < 4; k++) bytes[below(51)] = below(2) ? (uint8_t)below(24) : (uint8_t)next();
  return whole;
}

static void write_once(void) {
  uint8_t bytes[51];
  size_t room = below(8) ? 112 + below(4) : near(112);
  int whole = some_record(bytes);
  write_record(bytes, room, whole);
}

/* Texts of 0 to 300 spaces; the record of no chord with buffers around the limit, and with each byte changed to each value. */
static void silences(void) {
  uint8_t bytes[300];
  memset(bytes, ' ', sizeof bytes);
  for (size_t n = 0; n <= sizeof bytes; n++)
    for (size_t room = 1027; room < 1030; room++) read_text(bytes, n, room);
  for (size_t room = 109; room < 116; room++) write_record(silence, room, 1);
  for (unsigned i = 0; i < sizeof silence; i++)
    for (unsigned v = 0; v < 256; v++) {
      memcpy(bytes, silence, sizeof silence);
      bytes[i] = (uint8_t)v;
      write_record(bytes, 112, 0);
    }
}

/* A song line: texts with `|` between them, up to a length that is often near the limit, or bytes of which many are `|`. */
static size_t line_of(uint8_t *t) {
  static uint8_t bytes[512];
  size_t n = 0, want = below(8) ? below(200) : near(4096);
  if (below(8) == 0) {
    for (; n < want; n++) t[n] = below(3) ? '|' : (uint8_t)next();
    return n;
  }
  while (n < want) {
    size_t l = text(bytes);
    if (l > want - n) l = want - n;
    memcpy(t + n, bytes, l);
    n += l;
    if (n < want && below(8)) t[n++] = '|';
  }
  return n;
}

static unsigned long steps[256];

/* A step answers as the paper says, and with a bar all is as reading the bar's own bytes with the same list leaves it. */
static void step_once(void) {
  static piece given, list, again, numbers[4], record, other;
  static uint8_t bytes[LARGEST];
  size_t n = line_of(bytes), room = below(8) ? 1028 + below(4) : near(1028);
  size_t p = below(4) ? below((unsigned)n + 3) : below(2) ? n + below(2) : (size_t)next();
  lend_bytes(&given, bytes, n);
  lend(&list, 2 * room);
  again = list;
  lend_bytes(&numbers[0], &p, sizeof p);
  for (int i = 1; i < 4; i++) lend(&numbers[i], i == 3 ? 2 : sizeof(size_t));
  lend(&record, sizeof(nophtris_chord));
  other = record;
  uint8_t r = nophtris_step(given.now + GUARD, n, (size_t *)(void *)(numbers[0].now + GUARD), (uint16_t *)(void *)(list.now + GUARD), room, (uint16_t *)(void *)(numbers[3].now + GUARD), (nophtris_chord *)(void *)(record.now + GUARD), (size_t *)(void *)(numbers[1].now + GUARD), (size_t *)(void *)(numbers[2].now + GUARD));
  steps[r]++;
  kept(&given, 0, "the line was changed");
  int none = n > 4096 || p > n;
  if (r != (n > 4096 ? 8 : p > n ? 255 : r) || (!none && r > 5)) fault("a step's number");
  for (int i = 0; i < 3; i++) kept(&numbers[i], none ? 0 : sizeof(size_t), "a number of a step was written");
  if (none) {
    kept(&list, 0, "a step without a bar wrote the list");
    kept(&numbers[3], 0, "a step without a bar wrote the count");
    kept(&record, 0, "a step without a bar wrote the record");
    return;
  }
  size_t to = p, at[3];
  while (to < n && bytes[to] != '|') to++;
  for (int i = 0; i < 3; i++) memcpy(&at[i], numbers[i].now + GUARD, sizeof at[i]);
  if (at[0] != to + 1 || at[1] != p || at[2] != to - p) fault("a bar's place");
  uint16_t count, same;
  memcpy(&count, numbers[3].before + GUARD, 2);
  memcpy(&same, numbers[3].now + GUARD, 2);
  if (nophtris_read(bytes + p, to - p, (uint16_t *)(void *)(again.now + GUARD), room, &count, (nophtris_chord *)(void *)(other.now + GUARD)) != r) fault("a bar's number");
  if (count != same || memcmp(again.now, list.now, 2 * room + 2 * GUARD) != 0) fault("a bar's errors");
  if (memcmp(other.now, record.now, sizeof(nophtris_chord) + 2 * GUARD) != 0) fault("a bar's record");
}

static unsigned long bars[256];

/* Two lines are lent, now and then the same one twice; the number is often near the bar counts. The answer is what a walk over the lines
 * says. */
static void bar_once(void) {
  static piece given[2], numbers[3];
  static uint8_t bytes[2][LARGEST];
  size_t n[2], count[2], number;
  for (int i = 0; i < 2; i++) {
    n[i] = below(16) ? line_of(bytes[i]) : 0;
    lend_bytes(&given[i], bytes[i], n[i]);
  }
  int same = below(16) == 0, other = !same;
  for (int i = 0; i < 2; i++) {
    count[i] = 1;
    for (size_t k = 0; k < n[i & other]; k++) count[i] += bytes[i & other][k] == '|';
  }
  switch (below(4)) {
  case 0: number = count[0] - 1 + below(3); break;
  case 1: number = count[0] + count[1] - 2 + below(4); break;
  case 2: number = (size_t)next(); break;
  default: number = below((unsigned)(count[0] + count[1]));
  }
  for (int i = 0; i < 3; i++) lend(&numbers[i], i ? sizeof(size_t) : 1);
  size_t *place = (size_t *)(void *)(numbers[1].now + GUARD), *size = (size_t *)(void *)(numbers[2].now + GUARD);
  const uint8_t *body = given[0].now + GUARD, *ending = given[other].now + GUARD;
  uint8_t r = nophtris_bar(body, n[0], ending, n[other], number, numbers[0].now + GUARD, place, size);
  bars[r]++;
  for (int i = 0; i < 2; i++) kept(&given[i], 0, "a line was changed");
  uint8_t want = n[0] > 4096 || n[other] > 4096 ? 8 : number >= count[0] + count[1] ? 9 : 0;
  if (r != want) fault("a bar number's answer");
  for (int i = 0; i < 3; i++) kept(&numbers[i], r ? 0 : i ? sizeof(size_t) : 1, "a number of a bar was written");
  if (r != 0) return;
  int second = number >= count[0], which = second & other;
  size_t from = 0, to, at[2], left = second ? number - count[0] : number;
  for (; left > 0; from++) left -= bytes[which][from] == '|';
  for (to = from; to < n[which] && bytes[which][to] != '|';) to++;
  for (int i = 0; i < 2; i++) memcpy(&at[i], numbers[i + 1].now + GUARD, sizeof at[i]);
  if (numbers[0].now[GUARD] != second || at[0] != from || at[1] != to - from) fault("a numbered bar's place");
}

/* MIDI out. The keys that the call before left, and whether they are a chord's or silence; for each key its ons less its offs, where these
 * are counted since a silence; and the most bytes from a chord to a chord. */
static uint8_t sounds[NOPHTRIS_KEYS];
static int of_chord = 1, counted = 1, sums[128];
static unsigned long midis[256];
static size_t most;
static uint8_t widest[51]; /* the record of a text with 12 keys, the most that a chord wants */

/* What the header's words say of a call: the keys that the chord wants, and the messages. */
static uint8_t wanted[128], messages[NOPHTRIS_OUTPUT];

static int is_on(const uint8_t *keys, unsigned k) { return keys[k / 8] >> k % 8 & 1; }

static int has_text(const uint8_t *bytes) {
  uint8_t buffer[NOPHTRIS_BUFFER];
  uint16_t length;
  return nophtris_write((const nophtris_chord *)(const void *)bytes, buffer, sizeof buffer, &length) != 7;
}

static int pitch_class(uint8_t letter, uint8_t alteration) { /* 255 is a flat */
  static const int naturals[] = {0, 2, 4, 5, 7, 9, 11};
  return (naturals[letter] + (alteration == 255 ? 11 : alteration)) % 12;
}

/* The keys of a record that some text has; 0 where one falls outside 0 to 127. */
static int find_keys(const uint8_t *c, int base) {
  static const int semitones[] = {0, 1, 2, 3, 4, 5, 6, 6, 7, 8, 8, 9, 9, 10, 11, 12, 13, 14, 15, 17, 18, 20, 21};
  int keys[24], n = 0;
  for (int i = 0; i < c[27]; i++) keys[n++] = base + pitch_class(c[0], c[1]) + semitones[c[28 + i]];
  if (c[2] != 255) keys[n++] = base - 12 + pitch_class(c[2], c[3]);
  memset(wanted, 0, sizeof wanted);
  for (int i = 0; i < n; i++) {
    if (keys[i] < 0 || keys[i] > 127) return 0;
    wanted[keys[i]] = 1;
  }
  return 1;
}

/* The messages from the keys that sound to those wanted, and how many bytes they are: first off, then on, in ascending order. */
static size_t find_messages(void) {
  size_t n = 0;
  for (int on = 0; on < 2; on++)
    for (unsigned k = 0; k < 128; k++)
      if (wanted[k] == on && is_on(sounds, k) != on) {
        messages[n++] = on ? 0x90 : 0x80;
        messages[n++] = (uint8_t)k;
        messages[n++] = on ? 64 : 0;
      }
  return n;
}

/* The messages were sent, and these keys sound now: those wanted, and those that all messages since a silence leave on. */
static void check_sent(const uint8_t *out, size_t n, const uint8_t *keys) {
  if (memcmp(out, messages, n) != 0) fault("the messages");
  for (size_t i = 0; i < n; i += 3) sums[out[i + 1]] += out[i] == 0x90 ? 1 : -1;
  for (unsigned k = 0; k < 128; k++) {
    if (is_on(keys, k) != wanted[k]) fault("the keys that sound");
    if (counted && is_on(keys, k) != sums[k]) fault("the messages since a silence do not add up to the keys that sound");
  }
  memcpy(sounds, keys, sizeof sounds);
  of_chord = 1;
}

/* A call gives this number, and with 0 sends so many bytes. */
static void midi_record(const uint8_t *bytes, uint8_t base, size_t room, uint8_t number, size_t n) {
  static piece record, keys, out, one;
  lend_bytes(&record, bytes, sizeof(nophtris_chord));
  lend_bytes(&keys, sounds, sizeof sounds);
  lend(&out, room);
  lend(&one, sizeof n);
  const nophtris_chord *chord = (const nophtris_chord *)(void *)(record.now + GUARD);
  uint8_t r = nophtris_midi(keys.now + GUARD, base, chord, out.now + GUARD, room, (size_t *)(void *)(one.now + GUARD));
  midis[r]++;
  if (r == 10 && base >= 12 && base <= 95) fault("10 over a base from 12 to 95");
  if (r == 11 && room >= 384) fault("11 with 384 bytes");
  if (r != number) fault("a MIDI number");
  kept(&record, 0, "the record was changed");
  kept(&keys, r ? 0 : sizeof sounds, "the keys that sound were written");
  kept(&out, r ? 0 : n, "the output was written outside the messages");
  kept(&one, r ? 0 : sizeof n, "the length of the messages was written");
  if (r != 0) return;
  if (memcmp(one.now + GUARD, &n, sizeof n) != 0) fault("the length of the messages");
  check_sent(out.now + GUARD, n, keys.now + GUARD);
}

/* Most often the keys stay as the call before left them; else silence, or random bytes. */
static void some_keys(void) {
  unsigned kind = below(16);
  if (kind > 1) return;
  for (unsigned i = 0; i < sizeof sounds; i++) sounds[i] = kind ? (uint8_t)next() : 0;
  of_chord = counted = kind == 0;
  memset(sums, 0, sizeof sums);
}

static uint8_t some_base(void) {
  static const uint8_t edges[] = {0, 11, 12, 95, 96, 127, 128, 255};
  unsigned kind = below(8);
  return kind > 1 ? (uint8_t)below(128) : kind ? edges[below(sizeof edges)] : (uint8_t)next();
}

static size_t some_room(size_t need) {
  switch (below(8)) {
  case 0: return 0;
  case 1: return need - (need > 0);
  case 2: return 72;
  case 3: return below(501);
  case 4: return 384;
  default: return need;
  }
}

/* The next record, often over the same base key; the number and the messages are found from the header's words. */
static void midi_once(void) {
  static uint8_t base = 60;
  uint8_t bytes[51];
  unsigned kind = below(16);
  if (kind > 1) some_record(bytes);
  else memcpy(bytes, kind ? widest : silence, sizeof bytes);
  if (below(2)) base = some_base();
  some_keys();
  uint8_t number = !has_text(bytes) ? 7 : !find_keys(bytes, base) ? 10 : 0;
  size_t need = number ? 0 : find_messages(), room = some_room(need);
  if (of_chord && need > most) most = need;
  if (most > 72) fault("more than 72 bytes from a chord to a chord");
  midi_record(bytes, base, room, room < need ? 11 : number, need);
}

static void read_card(const char *card) {
  uint16_t errors[NOPHTRIS_ERRORS], count;
  if (nophtris_read((const uint8_t *)card, strlen(card), errors, NOPHTRIS_ERRORS, &count, &last) != 0) fault("a card is refused");
}

int main(int argc, char **argv) {
  unsigned long calls = argc > 1 ? strtoul(argv[1], NULL, 10) : 1000000;
  state = argc > 2 ? strtoull(argv[2], NULL, 10) : 1;
  silences();
  read_card("Cdim7,add2,add4,addb6,addMaj7,add#9,add11,addb13/B");
  memcpy(widest, &last, sizeof last);
  read_card("C");
  for (call_number = 0; call_number < calls; call_number++)
    switch (call_number % 6) {
    case 2: write_once(); break;
    case 3: step_once(); break;
    case 4: bar_once(); break;
    case 5: midi_once(); break;
    default: read_once();
    }
  printf("%lu calls, seed %s, no fault\nreading:", calls, argc > 2 ? argv[2] : "1");
  for (int i = 0; i < 6; i++) printf(" %d: %lu", i, reads[i]);
  printf(" (no chord: %lu)\nwriting: 0: %lu (no chord: %lu) 6: %lu 7: %lu\n", silent_reads, writes[0], silent_writes, writes[6], writes[7]);
  printf("steps:");
  for (int i = 0; i < 256; i++)
    if (steps[i]) printf(" %d: %lu", i, steps[i]);
  printf("\nbars by number:");
  for (int i = 0; i < 256; i++)
    if (bars[i]) printf(" %d: %lu", i, bars[i]);
  printf("\nMIDI:");
  for (int i = 0; i < 256; i++)
    if (midis[i]) printf(" %d: %lu", i, midis[i]);
  printf(" (from a chord to a chord at most %zu bytes)\n", most);
  return 0;
}
