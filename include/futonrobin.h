/*
 * The calls that target/staticlib/libapi.a exports, for C99 and C++. docs/ABI.md has the layouts of the buffers, and which
 * refusals each call can give. host/c/example.c shows a host.
 *
 * A slice is lent as a pointer and then a length in bytes; every number is a uint32_t. The proofs assume this of a caller:
 *
 *   - A pointer is not null and is valid for its length. Length 0 is fine, with a pointer that is not null.
 *   - The two slices of one call do not overlap, since one of them is written.
 *   - During the call nothing else writes a lent slice, and nothing else reads one that the call writes.
 *
 * Lengths, contents and numbers may be any: what does not fit is refused, and a refused call changes no lent byte.
 * There is nothing to set up and no state beside the buffers, which are the host's.
 */
#ifndef FUTONROBIN_H
#define FUTONROBIN_H

#include <stddef.h>
#include <stdint.h>

#ifdef __cplusplus
extern "C" {
#endif

/* ---- Lengths */

/* Buffers of exactly these lengths. */
#define FUTONROBIN_SCREEN_LEN 4046u
#define FUTONROBIN_MIRROR_LEN 4057u
#define FUTONROBIN_KEYS_LEN 160u

/* The shortest outputs that are taken; longer ones are too. The output of keys_strip is exactly the width asked. */
#define FUTONROBIN_LINE_MIN 255u
#define FUTONROBIN_SNAPSHOT_MIN 2024u
#define FUTONROBIN_REPORT_MIN 4047u

/* The most that screen_print_waiting takes: bytes, and rows of its limit. */
#define FUTONROBIN_WAITING_MAX 65535u
#define FUTONROBIN_WAITING_ROWS_MAX 1000u

/* The longest logical line, and the largest limit of screen_type_limited; the smallest is 1. */
#define FUTONROBIN_LIMIT_MAX 255u

/*
 * Where the mirror's screen record begins: it is mir + FUTONROBIN_MIRROR_RECORD, of length FUTONROBIN_SCREEN_LEN. Reading and
 * text calls take it as any record, and no other call should be made on it: a changing call would be accepted, and the
 * mirror would then show what no screen had.
 */
#define FUTONROBIN_MIRROR_RECORD 11u

/*
 * Byte FUTONROBIN_BITS_AT of a screen record has two bits, which no call answers. It may be 0 to 3, so the bit is to be tested and not
 * the byte: rec[FUTONROBIN_BITS_AT] & FUTONROBIN_INSERT_BIT.
 *
 * FUTONROBIN_CR_BIT is set by a print whose last byte taken is 13, left by a print that takes no byte, and cleared by every other print and every
 * other changing call that is accepted. Only screen_print_waiting takes less than it is given.
 */
#define FUTONROBIN_BITS_AT 6u
#define FUTONROBIN_INSERT_BIT 1u /* typing inserts */
#define FUTONROBIN_CR_BIT 2u     /* a print ended with 13: a 10 that is printed next belongs to it */

/* ---- Answers */

/* Refusal k answers FUTONROBIN_REFUSED + k. An accepted call answers less than FUTONROBIN_REFUSED + 1. */
#define FUTONROBIN_REFUSED 4294967040u

/* The refusals, in the order in which they are looked for. */
enum {
    FUTONROBIN_WRONG_LENGTH = 1,
    FUTONROBIN_BROKEN_LAYOUT = 2,   /* of a screen, mirror or key table */
    FUTONROBIN_OUT_OF_RANGE = 3,    /* a number */
    FUTONROBIN_LONG_INPUT = 7,      /* a waiting print is given more than FUTONROBIN_WAITING_MAX bytes */
    FUTONROBIN_SPLIT_LINE_END = 13, /* a checked print begins with 10 while FUTONROBIN_CR_BIT is set */
    FUTONROBIN_SPENT_SERIAL = 4,    /* a changing call found serial 4,294,967,295 */
    FUTONROBIN_BROKEN_REPORT = 5,   /* its length included */
    FUTONROBIN_WIDTH_WITHOUT_ROWS = 6
};

/* The number of the refusal that a call answered; 0 if it was accepted. */
static inline int futonrobin_refusal(uint32_t answer)
{
    return answer > FUTONROBIN_REFUSED ? (int)(answer - FUTONROBIN_REFUSED) : 0;
}

/*
 * ---- New screen: answers 0. Width 40 gives 40, all else 80. The buffer's old bytes are not read.
 *
 * The sitting is the host's number for this screen, any of 32 bits; 0 is as good as another. After a restart the serial begins at 0
 * again, so a new screen whose reports go to the same mirror gets a larger number than every one before it, and no number is
 * used twice. A host without a mirror, or with a new mirror for every screen, can always pass 0.
 */

uint32_t screen_new(uint8_t *rec, size_t rec_len, uint32_t width, uint32_t sitting);

/*
 * ---- Changing calls: each adds 1 to the serial, keeps the sitting and answers 0, but screen_take_logical_line the length of
 * its text, and screen_print_waiting how far it came.
 */

/*
 * Prints at the cursor: 13, 10, and 13 followed by 10 are newlines, 27 and 32 to 255 are written, others are ignored. A 13 and its 10 are one
 * newline in one call, and two in two calls.
 */
uint32_t screen_print_bytes(uint8_t *rec, size_t rec_len, const uint8_t *bytes, size_t bytes_len);

/*
 * Prints as screen_print_bytes does, but refuses bytes that begin with 10 while FUTONROBIN_CR_BIT is set. So a text that comes in pieces, with no
 * other changing call between them, looks as if it were printed at once, if none is refused. In the place of a 10 that is refused a byte is
 * printed that is ignored, as 0, and then the rest of the piece.
 */
uint32_t screen_print_checked(uint8_t *rec, size_t rec_len, const uint8_t *bytes, size_t bytes_len);

/*
 * Prints as screen_print_bytes does, but stops before the byte that would scroll one row more than rows, which is 0 to FUTONROBIN_WAITING_ROWS_MAX.
 * Answers how many bytes were taken + 65,536 * how many rows were scrolled. The bytes that are left over are for the next call; after them the screen
 * looks as if all were printed at once. A call that takes nothing is accepted too.
 *
 * More than FUTONROBIN_WAITING_MAX bytes are refused. Who cuts a longer text does not cut between a 13 and its 10: this call does not look at
 * FUTONROBIN_CR_BIT.
 */
uint32_t screen_print_waiting(uint8_t *rec, size_t rec_len, const uint8_t *bytes, size_t bytes_len, uint32_t rows);

/* The bytes taken and the rows scrolled, of an answer of screen_print_waiting that is no refusal. */
static inline uint32_t futonrobin_taken(uint32_t answer)
{
    return answer % 65536u;
}

static inline uint32_t futonrobin_scrolled(uint32_t answer)
{
    return answer / 65536u;
}

/* A character 0 to 255; those below 32 but 27 type nothing. */
uint32_t screen_type_char(uint8_t *rec, size_t rec_len, uint32_t ch);

/*
 * Types as screen_type_char does, into a field: a limit of 1 to FUTONROBIN_LIMIT_MAX characters. Where the cursor's logical line holds that many or more,
 * it takes none in addition, and cells, flags and cursor stay; what stands in it is still typed over, in a longer line too. The line reaches at least to
 * the cursor, with spaces before it, and what is printed in it counts. With FUTONROBIN_LIMIT_MAX it is screen_type_char. A host that keeps a field types
 * a tab's spaces by this call and leaves screen_ctrl_enter out (docs/ABI.md, "Short answer fields").
 *
 * A character that is typed moves the cursor. So where screen_cursor answers after an accepted call what it answered before, and the character is 27
 * or 32 to 255, the field was full.
 */
uint32_t screen_type_limited(uint8_t *rec, size_t rec_len, uint32_t ch, uint32_t limit);

uint32_t screen_backspace(uint8_t *rec, size_t rec_len);
uint32_t screen_delete_char(uint8_t *rec, size_t rec_len);
uint32_t screen_erase_to_end(uint8_t *rec, size_t rec_len);
uint32_t screen_escape_line(uint8_t *rec, size_t rec_len);
uint32_t screen_tab(uint8_t *rec, size_t rec_len);
uint32_t screen_ctrl_enter(uint8_t *rec, size_t rec_len);

/* Enter: writes the reading of the cursor's logical line to the front of out, and the cursor goes below the line. */
uint32_t screen_take_logical_line(uint8_t *rec, size_t rec_len, uint8_t *out, size_t out_len);

uint32_t screen_break_line(uint8_t *rec, size_t rec_len);

uint32_t screen_move_left(uint8_t *rec, size_t rec_len);
uint32_t screen_move_right(uint8_t *rec, size_t rec_len);
uint32_t screen_move_up(uint8_t *rec, size_t rec_len);
uint32_t screen_move_down(uint8_t *rec, size_t rec_len);
uint32_t screen_home(uint8_t *rec, size_t rec_len);
uint32_t screen_word_left(uint8_t *rec, size_t rec_len);
uint32_t screen_word_right(uint8_t *rec, size_t rec_len);
uint32_t screen_end_of_line(uint8_t *rec, size_t rec_len);

/* Blanks the editable rows and homes. */
uint32_t screen_clear(uint8_t *rec, size_t rec_len);

/* Width 40 or 80: blanks all 25 rows, homes, ends insert. */
uint32_t screen_set_width(uint8_t *rec, size_t rec_len, uint32_t width);

/* Any row and column: they are clamped to the editable rows and the width. */
uint32_t screen_set_cursor(uint8_t *rec, size_t rec_len, uint32_t row, uint32_t col);

/* A switch is 0 or 1. With keys on the last row is not editable. */
uint32_t screen_set_insert(uint8_t *rec, size_t rec_len, uint32_t on);
uint32_t screen_set_attr(uint8_t *rec, size_t rec_len, uint32_t attr);
uint32_t screen_set_keys_on(uint8_t *rec, size_t rec_len, uint32_t on);

/* ---- Reading calls: each answers its value. */

uint32_t screen_width(const uint8_t *rec, size_t rec_len);

/* column + 256 * row */
uint32_t screen_cursor(const uint8_t *rec, size_t rec_len);

/* The current attribute: foreground in the low nibble, background in the high one. */
uint32_t screen_attr(const uint8_t *rec, size_t rec_len);

/* 24 with keys on, else 25 */
uint32_t screen_editable_rows(const uint8_t *rec, size_t rec_len);

/* character + 256 * attribute, of a row 0 to 24 and a column below the width */
uint32_t screen_cell(const uint8_t *rec, size_t rec_len, uint32_t row, uint32_t col);

/* 1 if the row, 0 to 24, is flagged: the logical line goes on in the next row. Else 0. */
uint32_t screen_continues(const uint8_t *rec, size_t rec_len, uint32_t row);

/* ---- Text calls: each writes to the front of out and answers the length; later bytes stay. No byte 0 is added. */

/* The reading of the cursor's logical line, at most 255 bytes. */
uint32_t screen_logical_text(const uint8_t *rec, size_t rec_len, uint8_t *out, size_t out_len);

/* The editable rows, trimmed on the right and joined by byte 10, without empty ones at the end. */
uint32_t screen_snapshot(const uint8_t *rec, size_t rec_len, uint8_t *out, size_t out_len);

/* ---- Report calls: each writes a report to the front of out and answers its length. The record stays as it is. */

/* The rows that the last accepted changing call touched. To be made after each such call, before the next. */
uint32_t report_step(const uint8_t *rec, size_t rec_len, uint8_t *out, size_t out_len);

/* All 25 rows: for a mirror that missed a step, or shows an earlier sitting. */
uint32_t report_full(const uint8_t *rec, size_t rec_len, uint8_t *out, size_t out_len);

/* ---- Mirror */

/*
 * Answers 0. Width and sitting are those given to screen_new for the first screen that the mirror is to follow; after a restart
 * it stays in use. The buffer's old bytes are not read.
 */
uint32_t mirror_new(uint8_t *mir, size_t mir_len, uint32_t width, uint32_t sitting);

/*
 * A report arrives, of exactly the length that the report call answered. Answers 1 if the mirror is then level (it shows the newest
 * state that it has heard of), else 0. A full report is shown if it is later than what is shown: of a larger sitting, or of the
 * same and a larger serial. A step is shown if it is the next one of the sitting that is shown. Others are accepted and not shown.
 */
uint32_t mirror_arrive(uint8_t *mir, size_t mir_len, const uint8_t *report, size_t report_len);

/* ---- Key strip: the key at the offset, 0 to 9, comes first. Writes width bytes, 40 or 80, and answers the width. */

uint32_t keys_strip(const uint8_t *tab, size_t tab_len, uint32_t offset, uint32_t width, uint8_t *out, size_t out_len);

#ifdef __cplusplus
}
#endif

#endif
