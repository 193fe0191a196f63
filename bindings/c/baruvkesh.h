/* The panel's calls for C and C++. The code behind them is proved, for x86-64 Linux: `tools/archive` has it built as
 * target/staticlib/libbaruvkesh.a, and a program links that archive and the C library. */
#ifndef BARUVKESH_H
#define BARUVKESH_H

#include <stddef.h>
#include <stdint.h>

#ifdef __cplusplus
extern "C" {
#endif

/* The most terms of a sheet, and the most entries. */
#define BARUVKESH_MAX_TERMS 128
#define BARUVKESH_MAX_ENTRIES 128

/* The length of the longest sheet, 1542. */
#define BARUVKESH_LONGEST_SHEET (6 + 6 * BARUVKESH_MAX_TERMS + 6 * BARUVKESH_MAX_ENTRIES)

/* The length of an answer room that is enough for every sheet, 1032. */
#define BARUVKESH_ROOM_NEEDED (8 + 8 * BARUVKESH_MAX_TERMS)

/* Judges the sheet, and answers number * 65536 + place. A sheet is the bytes of document 01: T terms (unknowns, numbers, shifts,
 * applications of unknown functions) and L entries (=, !=, <=, <) over rational levels. It holds exactly when values exist that meet every
 * term and entry, and clashes exactly when none exist:
 *
 *   number  given exactly when                                               place
 *   0       the sheet holds                                                  length of the answer record
 *   1       the sheet clashes                                                length of the answer record
 *   10      fewer than 6 bytes lent, or bytes 0-1 don't state that length    0
 *   11      version isn't 1                                                  0
 *   12      T is 0 or over 128, L over 128, byte 5 not 0, or the length
 *           isn't 6 + 6T + 6L                                                0
 *   13      a term has kind over 4, a non-zero unused field, or an
 *           argument not below its own number                                lowest such term
 *   14      an entry has kind over 3, a non-zero second byte, or a or b
 *           not below T                                                      lowest such entry
 *   15      room_len under 1032                                              0
 *
 * 10 to 15 are checked in that order, and the first that applies is given. With them the whole room keeps what it held. With 0 and 1
 * the room starts with the answer record, and the bytes past its length keep what they held:
 *
 *   bytes   holds                                                            clashes
 *   0-1     8 + 8T                                                           8 + k
 *   2       1                                                                1
 *   3       0                                                                1
 *   4-5     D, 1 to 65535                                                    k, at least 1
 *   6-7     0                                                                0
 *   8 on    T signed values n, two's complement, 8 bytes each, within        k entry numbers, rising,
 *           plus or minus 2^40                                               a byte each
 *
 * The value of a term is n / D, and these values meet every term and entry. The k entries clash by themselves, and of all such lists they
 * are the first: lists are compared by the highest-numbered entry that is in one and not in the other, and the list without it comes first.
 *
 * Numbers of several bytes are big-endian. The sheet is never written. Any bytes and any two lengths are allowed; with a length of 0
 * the pointer isn't followed and may be NULL. The sheet and the room may not overlap. The call keeps nothing between calls and asks for
 * no memory but the stack's, under 100 KB, so threads may call it at the same time, each with a room of its own. */
uint32_t baruvkesh_judge(const uint8_t *sheet, size_t sheet_len, uint8_t *room, size_t room_len);

/* The two halves of what baruvkesh_judge answers. */
static inline unsigned baruvkesh_number(uint32_t answer) { return answer >> 16; }
static inline size_t baruvkesh_place(uint32_t answer) { return answer & 0xFFFF; }

/* The length of a room that is enough for the sheet of every text: that of the longest sheet. */
#define BARUVKESH_SHEET_ROOM BARUVKESH_LONGEST_SHEET

/* Reads a sheet that is typed as text, and answers number * 2^32 + place. A text is the bytes of document 02, request 1: lines of a term,
 * one of = != <= < and a term, each ended by a newline. Terms are x0 to x99, whole numbers, f0 to f255 with one or two terms in round
 * brackets, and any of these but a number with + or - and digits behind it; numbers and shifts are -32768 to 32767:
 *
 *   number  given exactly when                                               place
 *   0       the text has none of the faults below                            length of its sheet
 *   20      no text of this form begins so, or the text ends too early       that byte, or text_len
 *   21      an opening bracket goes deeper than 16                           that byte
 *   22      a number is out of range                                         the first digit that takes it there
 *   23      a 129th term, or a 129th line                                    the term's last byte, or the line's first
 *   24      room_len under 1542                                              0
 *
 * 24 is checked first; of the others the one at the earliest byte is given, the lowest number first at one byte. With 20 to 24 the whole
 * room keeps what it held. With 0 the room starts with the text's sheet, as baruvkesh_judge takes it, and the bytes past its length keep
 * what they held. Terms are numbered in the order in which they are completed, and entry numbers are line numbers from 0.
 *
 * A text of 2^32 bytes or more isn't read: it gets UINT64_MAX, which is no other answer, and the whole room keeps what it held.
 *
 * The text is never written. Lengths, pointers, memory and threads are as with baruvkesh_judge. */
uint64_t baruvkesh_transcribe(const uint8_t *text, size_t text_len, uint8_t *room, size_t room_len);

/* The two halves of what baruvkesh_transcribe answers. */
static inline unsigned baruvkesh_typed_number(uint64_t answer) { return (unsigned)(answer >> 32); }
static inline size_t baruvkesh_typed_place(uint64_t answer) { return (size_t)(answer & 0xFFFFFFFF); }

/* The length of a room that is enough for every reason, 68379. */
#define BARUVKESH_REASON_ROOM \
    (10 + BARUVKESH_MAX_ENTRIES + (BARUVKESH_MAX_TERMS + 1) * (13 + 4 * (BARUVKESH_MAX_TERMS + 1)))

/* Writes a reason for a clash, and answers number * 2^32 + place:
 *
 *   number  given exactly when                                               place
 *   1       the sheet clashes, and the room is long enough                   length of the reason record
 *   10-14   as with baruvkesh_judge                                          as there
 *   26      the sheet holds                                                  0
 *   25      the sheet clashes, and room_len is under 68379                   0
 *
 * 10 to 14 are checked first, then 26, then 25. With them the whole room keeps what it held. With 1 the room starts with the reason
 * record, and the bytes past its length keep what they held. The points are the terms by their numbers, and T for the zero level:
 *
 *   bytes   what
 *   0-3     length of the whole record
 *   4       1
 *   5       number of groups lost to ties, which is the number of tie steps
 *   6-7     k, the length of the clash list
 *   8-9     number of steps
 *   then k  the clash list, as in the answer record
 *   then    the steps: kind, a, b (1 byte each), c (8 bytes, signed, two's complement), numbers of bounds of the first and of the second
 *           walk (1 byte each), and the bounds of the first walk and then of the second: kind and number (1 byte each)
 *
 *   step kind
 *   0       a tie, a = b + c: the first walk goes from a to b and comes to c, the second from b to a and comes to -c
 *   1       a tie of two applications, a = b: their arguments are tied with gap 0; c is 0, no bounds
 *   2       the walk from a back to a is below zero, or zero with a strict entry; b and c are 0, no second walk
 *   3       a is a != entry on terms tied at exactly its c; b and c are 0, no bounds
 *
 *   bound kind
 *   0, 1    the entry of that number, and the same backwards
 *   2, 3    the number or shift term, and the same backwards
 *   4, 5    the earlier tie, by its number among all steps, and the same backwards
 *
 * The steps obey document 01's rules for reasons, use entries of the list only, and the entries behind the last step, gathered through
 * every earlier tie it rests on, are exactly the list; no step is there that the last one doesn't rest on.
 *
 * Lengths, pointers and threads are as with baruvkesh_judge; the call asks for no memory but the stack's, under 256 KB. */
uint64_t baruvkesh_reason(const uint8_t *sheet, size_t sheet_len, uint8_t *room, size_t room_len);

/* The two halves of what baruvkesh_reason answers. */
static inline unsigned baruvkesh_reason_number(uint64_t answer) { return (unsigned)(answer >> 32); }
static inline size_t baruvkesh_reason_place(uint64_t answer) { return (size_t)(answer & 0xFFFFFFFF); }

/* Checks a reason from anybody, and answers number * 2^32 + place. The list is entry numbers, a byte each; the steps are bytes as they
 * stand behind the list in a reason record, one step behind the other:
 *
 *   number  given exactly when                                               place
 *   10-14   as with baruvkesh_judge                                          as there
 *   27      the entry numbers don't rise, or one isn't below L               0
 *   0       each step obeys document 01's rules for reasons and uses
 *           entries of the list only, and the last one closes, with
 *           exactly the list's entries behind it                             0
 *   1       none of these                                                    number of the first wrong step
 *
 * 10 to 14 are checked first, then 27. A step whose bytes end before it does is wrong, and so is a closing step with a step behind it,
 * whole or not; where no step closes, the one after the last is the wrong one. An empty list isn't 27, and never gets 0.
 *
 * 0 means that the entries of the list clash: no values meet every term and these entries. It doesn't vouch that the list is the first in
 * order. Every reason that baruvkesh_reason writes, lent with its sheet and its list, gets 0.
 *
 * Nothing lent is written, so the three may overlap. Any bytes and any three lengths are allowed. Pointers and threads are as with
 * baruvkesh_judge; the call asks for no memory but the stack's, under 512 KB. */
uint64_t baruvkesh_survey(const uint8_t *sheet, size_t sheet_len, const uint8_t *list, size_t list_len, const uint8_t *steps,
                          size_t steps_len);

/* The two halves of what baruvkesh_survey answers. */
static inline unsigned baruvkesh_survey_number(uint64_t answer) { return (unsigned)(answer >> 32); }
static inline size_t baruvkesh_survey_place(uint64_t answer) { return (size_t)(answer & 0xFFFFFFFF); }

#ifdef __cplusplus
}
#endif

#endif
