/* Nophtris: reads a chord symbol, or a song line bar by bar, finds a bar of a song with a second ending by its number, and writes a
 * chord's house spelling and the MIDI messages that lead to a chord's keys.
 *
 * All functions are proved: they end, read and write nothing but the memory that they are lent, and give the answer that documents 01 and 02 have for any
 * bytes.
 * The proof is of the source; it does not speak of the compiler, of the time a call takes or of its stack.
 *
 * What the caller owes is what C asks of any pointer.
 *   - `text` points to text_len readable bytes, `line` of nophtris_step to line_len, `body` to body_len, `ending` to ending_len, `errors`
 *     to errors_len writable numbers, `buffer` to buffer_len writable bytes, `out` to out_len. Where the length is 0 the pointer is not
 *     followed. `sounding` points to 16 writable bytes.
 *   - `count`, `chord`, `length`, `position`, `bar_from`, `bar_len`, and `line`, `from` and `len` of nophtris_bar point to one object each
 *     and are never NULL, even where the answer leaves them as they were.
 *   - `errors`, `count` and `length` of nophtris_write are aligned as uint16_t is, `position`, `bar_from`, `bar_len`, `from`, `len` and
 *     `length` of nophtris_midi as size_t; texts, lines, buffers, struct and `sounding` may stand anywhere.
 *   - What a call writes overlaps nothing else that it is lent. `body` and `ending` are only read, and may be the same line or overlap.
 *
 * No heap, no state between calls, no global memory: calls from several threads need no lock, on memory that they do not share.
 *
 * Stack (measured 2026-11-27, x86-64): less than 4 KiB, and some 270 bytes more for each bracket of a text that is opened inside another:
 * 71 KiB for 255 of them, the most that 256 bytes can open. `bench/stack` measures it.
 *
 * Link with libnophtris.a on x86-64 Linux (System V calling convention). Of the C library it needs memcpy and memset only.
 */
#ifndef NOPHTRIS_H
#define NOPHTRIS_H

#include <stddef.h>
#include <stdint.h>

#ifdef __cplusplus
extern "C" {
#endif

/* The first number grows when a function or the struct changes its form, the second with a new function and with any other change of an answer. */
#define NOPHTRIS_VERSION_MAJOR 1
#define NOPHTRIS_VERSION_MINOR 6

/* The answers. */
#define NOPHTRIS_ACCEPTED 0     /* read: the struct is filled; written: the spelling stands in the buffer; a bar: its place is written;
                                 * MIDI: the messages stand in the output */
#define NOPHTRIS_SHORT_LIST 1   /* the error list holds fewer than 1,028 numbers */
#define NOPHTRIS_LONG_TEXT 2    /* the text has more than 256 bytes */
#define NOPHTRIS_NOT_UTF8 3     /* the text is not UTF-8 by RFC 3629 */
#define NOPHTRIS_PARSE 4        /* parsing found errors */
#define NOPHTRIS_VALIDATION 5   /* validation found errors */
#define NOPHTRIS_SHORT_BUFFER 6 /* the buffer holds fewer than 112 bytes */
#define NOPHTRIS_NO_TEXT 7      /* no accepted text has this root, bass, normalized set and display list */
#define NOPHTRIS_LONG_LINE 8    /* the song line has more than 4,096 bytes */
#define NOPHTRIS_NO_BAR 9       /* the bar number is not below the bar counts of body and ending together */
#define NOPHTRIS_KEY_OUTSIDE 10 /* a key that the chord wants falls outside 0 to 127 */
#define NOPHTRIS_SHORT_OUTPUT 11 /* the output holds fewer bytes than the messages */
#define NOPHTRIS_END 255        /* the song line has no more bars; end has no number in the paper */

#define NOPHTRIS_ERRORS 1028    /* the numbers that an error list has to hold: four for each of at most 257 errors */
#define NOPHTRIS_BUFFER 112     /* the bytes that a buffer has to hold; no spelling is longer */
#define NOPHTRIS_LINE 4096      /* the most bytes of a song line */
#define NOPHTRIS_OUTPUT 384     /* bytes of an output that is never too short: a message of three bytes for each of 128 keys */
#define NOPHTRIS_KEYS 16        /* the bytes that hold the keys that sound */
#define NOPHTRIS_BODY 0         /* the line that has a numbered bar: the body, */
#define NOPHTRIS_ENDING 1       /* or the ending */
#define NOPHTRIS_NONE 255       /* no root, no bass */
#define NOPHTRIS_INTERVALS 23

/* An error is four numbers: its kind, its values, and zeros. A position is a byte offset in the text, from 0: the first byte of the sign,
 * the word, the number or the character that the error is about, so that an editor can underline what stands there. One position may lie
 * elsewhere, that of a sharp or flat before a wrong number (kind 6): it is one more than the sign's first byte, which is inside the sign
 * where that has three bytes (U+266F, U+266D). Up to version 1.4 the position of a sign (# / ( ) and the like) was the byte after it. */
#define NOPHTRIS_ILLEGAL_TOKEN 1                      /* position */
#define NOPHTRIS_UNEXPECTED_NOTE 2                    /* position */
#define NOPHTRIS_DUPLICATE_MODIFIER 3                 /* what is repeated: power 0, alt 1, bass 2, minor 3, dim7 4, dim 5, half dim 6, sus 7, maj 8, Maj7 9, aug 12 */
#define NOPHTRIS_INCONSISTENT_EXTENSION 4             /* interval */
#define NOPHTRIS_DUPLICATE_EXTENSION 5                /* position */
#define NOPHTRIS_INVALID_EXTENSION 6                  /* position; of a sharp or flat before a wrong number one more than its first byte */
#define NOPHTRIS_WRONG_EXPRESSION_TARGET 7            /* position */
#define NOPHTRIS_UNEXPECTED_MODIFIER 8                /* position */
#define NOPHTRIS_MISSING_ROOT_NOTE 9                  /* nothing */
#define NOPHTRIS_THREE_CONSECUTIVE_SEMITONES 10       /* three intervals */
#define NOPHTRIS_MISSING_ADD_TARGET 11                /* position and length of the word */
#define NOPHTRIS_ILLEGAL_OR_MISSING_OMIT_TARGET 12    /* position and length of the word */
#define NOPHTRIS_ILLEGAL_ADD_TARGET 13                /* never occurs */
#define NOPHTRIS_ILLEGAL_SLASH_NOTATION 14            /* position of the slash */
#define NOPHTRIS_UNEXPECTED_CLOSING_PARENTHESIS 15    /* position of the sign */
#define NOPHTRIS_MISSING_CLOSING_PARENTHESIS 16       /* position of the opening sign */
#define NOPHTRIS_NESTED_PARENTHESIS 17                /* position of the outer opening sign */
#define NOPHTRIS_INVALID_POWER_EXPRESSION 18          /* never occurs */

/* The intervals by number: 0 is 1, 1 b2, 2 2, 3 b3, 4 3, 5 4, 6 #4, 7 b5, 8 5, 9 #5, 10 b6, 11 6, 12 bb7, 13 7, 14 Maj7, 15 8, 16 b9, 17 9, 18 #9,
 * 19 11, 20 #11, 21 b13, 22 13. */
#define NOPHTRIS_INTERVAL_NAMES \
  { "1", "b2", "2", "b3", "3", "4", "#4", "b5", "5", "#5", "b6", "6", "bb7", "7", "Maj7", "8", "b9", "9", "#9", "11", "#11", "b13", "13" }

/* A chord record: 51 bytes without padding. Any bytes may be handed over: values outside their ranges get NOPHTRIS_NO_TEXT.
 * The record of no chord, which stops the reeds, has neither root nor bass, no member and the count 0; of those without a root it is the
 * only one that some text has. */
typedef struct {
  uint8_t root_letter;     /* C 0 .. B 6, 255 none */
  int8_t root_alteration;  /* flat -1, 0, sharp 1; 0 where there is no root */
  uint8_t bass_letter;     /* C 0 .. B 6, 255 none */
  int8_t bass_alteration;  /* flat -1, 0, sharp 1; 0 where there is no bass */
  uint8_t normalized[23];  /* by interval number: 1 member, 0 not */
  uint8_t display_count;   /* at most 23 */
  uint8_t display[23];     /* interval numbers, in the order shown; those behind the count are not looked at when writing, and 0 after reading */
} nophtris_chord;

#if defined(__cplusplus) && __cplusplus >= 201103L
static_assert(sizeof(nophtris_chord) == 51, "a chord record is 51 bytes without padding");
#elif defined(__STDC_VERSION__) && __STDC_VERSION__ >= 201112L
_Static_assert(sizeof(nophtris_chord) == 51, "a chord record is 51 bytes without padding");
#else
typedef char nophtris_chord_is_51_bytes[sizeof(nophtris_chord) == 51 ? 1 : -1];
#endif

/* Reads a text of any bytes and any length. Since version 1.2 the raised numerals U+00B9, U+00B2, U+00B3, U+2070 and U+2074 to U+2079
 * count as their digits; since version 1.3 a text that is empty or spaces only is accepted as no chord (it got 4 before); since version 1.5
 * positions are on the sign (above).
 * The questions are asked in this order:
 *   1  NOPHTRIS_SHORT_LIST   the error list holds fewer than 1,028 numbers;
 *   2  NOPHTRIS_LONG_TEXT    the text has more than 256 bytes (a raised numeral has two or three);
 *   3  NOPHTRIS_NOT_UTF8     it is not UTF-8;
 *   0  NOPHTRIS_ACCEPTED     it is empty or spaces only: the struct is the record of no chord, with NOPHTRIS_NONE for its root;
 *   4  NOPHTRIS_PARSE        parsing found errors; 5  NOPHTRIS_VALIDATION  validation did: `count` of them, 1 to 257, four numbers for each from the
 *                            beginning of the list on;
 *   0  NOPHTRIS_ACCEPTED     none of these: the struct is filled, and has a root.
 * All else is left as it was: the list with 0 to 3 and behind the errors, `count` with 0 to 3, the struct with 1 to 5. */
uint8_t nophtris_read(const uint8_t *text, size_t text_len, uint16_t *errors, size_t errors_len, uint16_t *count, nophtris_chord *chord);

/* One step of a song line of any bytes, whose bars are split at each `|`: reads the bar that begins at `*position` and runs to the next `|` or the line's
 * end, as nophtris_read reads a text (positions in its errors count from the bar's first byte). Begin at position 0 and call until the answer is
 * NOPHTRIS_END or NOPHTRIS_LONG_LINE: a line of n bars takes n + 1 calls, and an empty line has one empty bar.
 * A blank bar is no chord. Any position may be handed in.
 *   8    NOPHTRIS_LONG_LINE  the line has more than 4,096 bytes: at each call, so that a loop has to stop here too;
 *   255  NOPHTRIS_END        the position lies above the line's length: at each call from there on;
 *   0 to 5                   the answer to the bar, with list, count and struct as nophtris_read leaves them. `*bar_from` and `*bar_len` say where the bar lies
 *                            in the line, and `*position` is one past it. A refused bar does not end the line; 1 is of the bar too.
 * With 8 and 255 all is left as it was. */
uint8_t nophtris_step(const uint8_t *line, size_t line_len, size_t *position, uint16_t *errors, size_t errors_len, uint16_t *count,
                      nophtris_chord *chord, size_t *bar_from, size_t *bar_len);

/* Where the bar of any number lies in a song with a second ending: two lines of any bytes, whose bars number from 0 through the body and
 * then on through the ending. Both follow the rule of nophtris_step: a line has one bar more than it has `|`, so that an empty one has one
 * empty bar. The questions are asked in this order:
 *   8  NOPHTRIS_LONG_LINE    the body, or the ending, has more than 4,096 bytes;
 *   9  NOPHTRIS_NO_BAR       the number is not below the two bar counts together;
 *   0  NOPHTRIS_ACCEPTED     neither: `*line` is NOPHTRIS_BODY or NOPHTRIS_ENDING, and the bar is the `*len` bytes from `*from` on in that
 *                            line, without its `|`. It has not been read: hand these bytes to nophtris_read.
 * With 8 and 9 all is left as it was. Since version 1.4. */
uint8_t nophtris_bar(const uint8_t *body, size_t body_len, const uint8_t *ending, size_t ending_len, size_t number, uint8_t *line,
                     size_t *from, size_t *len);

/* Writes the house spelling of a record of any bytes. The questions are asked in this order:
 *   6  NOPHTRIS_SHORT_BUFFER the buffer holds fewer than 112 bytes;
 *   7  NOPHTRIS_NO_TEXT      a value lies outside its range, or no accepted text has this root, bass, normalized set and display list;
 *   0  NOPHTRIS_ACCEPTED     neither: the first `length` bytes of the buffer are the spelling (1 to 112, no terminating zero).
 *                            That of no chord is empty: its length is 0, and nothing is written to the buffer, which has to hold
 *                            112 bytes all the same.
 * All else is left as it was: the buffer behind the spelling, and with 6 and 7 the whole buffer and `length`. */
uint8_t nophtris_write(const nophtris_chord *chord, uint8_t *buffer, size_t buffer_len, uint16_t *length);

/* Goes from the keys that sound to those of the next chord, in messages of MIDI 1.0 (on its first channel). The caller keeps the keys that
 * sound between the calls: key k is bit k % 8 of sounding[k / 8]. Begin with 16 zeros, which is silence; any 16 bytes may be handed in. A
 * chord's keys are `base` plus the root's pitch class plus the semitones of each interval of its display list, and for a slash bass
 * `base` - 12 plus its pitch class: 60 for `base` puts the roots between middle C and the B above it. No chord wants no keys.
 * A key on is the bytes 0x90, key, 64, a key off 0x80, key, 0. Keys no longer wanted go off in ascending order, then new keys come on in
 * ascending order, each key once; a key that sounds on has no message. The questions are asked in this order:
 *   7   NOPHTRIS_NO_TEXT      a value of the record lies outside its range, or no accepted text has it;
 *   10  NOPHTRIS_KEY_OUTSIDE  a key falls outside 0 to 127; with `base` from 12 to 95 none does;
 *   11  NOPHTRIS_SHORT_OUTPUT the output holds fewer bytes than the messages. As many bytes are enough, and no messages need none. 384 are
 *                             enough from any keys to any chord, and 72 from one chord to another (12 keys is the most a chord wants;
 *                             counted over all records, where 384 is proved);
 *   0   NOPHTRIS_ACCEPTED     none of these: the first `length` bytes of the output are the messages, and `sounding` holds the keys that
 *                             the chord wants.
 * All else is left as it was: the output behind the messages, and with 7, 10 and 11 the whole output, `length` and `sounding`, so that the
 * old chord goes on. Since version 1.6. */
uint8_t nophtris_midi(uint8_t sounding[NOPHTRIS_KEYS], uint8_t base, const nophtris_chord *chord, uint8_t *out, size_t out_len,
                      size_t *length);

#ifdef __cplusplus
}
#endif

#endif
