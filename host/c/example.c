/*
 * A C host in short: a heading is printed in pieces and a line typed and changed on a screen of 40 columns, and a mirror follows by reports,
 * one of which comes late. Then the terminal restarts, and the mirror follows that too; there a list is printed that is longer than the screen, and a
 * short answer typed.
 *
 *   cc -std=c99 -Wall -Wextra -pedantic -Werror -Iinclude host/c/example.c target/staticlib/libapi.a -o example
 *
 * tools/c-example does this, and compares what the program prints with host/c/stdout.
 */
#include "futonrobin.h"

#include <inttypes.h>
#include <stdio.h>
#include <stdlib.h>
#include <string.h>

static uint8_t screen[FUTONROBIN_SCREEN_LEN];
static uint8_t mirror[FUTONROBIN_MIRROR_LEN];
static uint8_t report[FUTONROBIN_REPORT_MIN];

/* The report that the line holds back. */
static uint8_t late[FUTONROBIN_REPORT_MIN];
static uint32_t late_length;

enum line { ARRIVES, COMES_LATE };

/* Hands an accepted answer on. What this host asks is in order, so a refusal is a fault of its own. */
static uint32_t accepted(const char *what, uint32_t answer)
{
    int refusal = futonrobin_refusal(answer);
    if (refusal != 0) {
        fprintf(stderr, "%s: refusal %d\n", what, refusal);
        exit(EXIT_FAILURE);
    }
    return answer;
}

static void arrive(const char *what, const uint8_t *bytes, uint32_t length)
{
    uint32_t level = accepted("mirror_arrive", mirror_arrive(mirror, sizeof mirror, bytes, length));
    printf("%-12s %4" PRIu32 " bytes, the mirror is %s\n", what, length, level == 1 ? "level" : "not level");
}

/* After a changing call: its step report is made before the next call, for it has the rows of the last call only. */
static uint32_t changed(const char *what, uint32_t answer, enum line line)
{
    accepted(what, answer);
    uint32_t length = accepted("report_step", report_step(screen, sizeof screen, report, sizeof report));
    if (line == ARRIVES) {
        arrive(what, report, length);
    } else {
        memcpy(late, report, length);
        late_length = length;
        printf("%-12s %4" PRIu32 " bytes, held back\n", what, length);
    }
    return answer;
}

static void full_report(void)
{
    arrive("full report", report, accepted("report_full", report_full(screen, sizeof screen, report, sizeof report)));
}

/* Takes the screen's record and the mirror's alike. */
static void show(const char *whose, const uint8_t *rec)
{
    uint8_t text[FUTONROBIN_SNAPSHOT_MIN];
    uint32_t length = accepted("screen_snapshot", screen_snapshot(rec, FUTONROBIN_SCREEN_LEN, text, sizeof text));
    const char *insert = (rec[FUTONROBIN_BITS_AT] & FUTONROBIN_INSERT_BIT) != 0 ? ", with insert on" : "";
    const char *cr = (rec[FUTONROBIN_BITS_AT] & FUTONROBIN_CR_BIT) != 0 ? ", after 13" : "";
    printf("-- the %s shows%s%s\n%.*s\n--\n", whose, insert, cr, (int)length, (const char *)text);
}

/* A piece of a text that may be cut anywhere, between a 13 and its 10 too. */
static void print_piece(const char *piece)
{
    static const uint8_t ignored[] = {0};
    const uint8_t *bytes = (const uint8_t *)piece;
    size_t length = strlen(piece);

    uint32_t answer = screen_print_checked(screen, sizeof screen, bytes, length);
    if (futonrobin_refusal(answer) == FUTONROBIN_SPLIT_LINE_END) {
        printf("split: answer %" PRIu32 ", refusal %d\n", answer, futonrobin_refusal(answer));
        /* The 10 belongs to the 13 that the piece before ended with: in its place a byte is printed that is ignored, and then the rest. */
        changed("ignored", screen_print_checked(screen, sizeof screen, ignored, sizeof ignored), ARRIVES);
        answer = screen_print_checked(screen, sizeof screen, bytes + 1, length - 1);
    }
    changed("print", answer, ARRIVES);
}

static void first_sitting(void)
{
    uint8_t line[FUTONROBIN_LINE_MIN];

    /* The mirror is new with the width and the sitting of the screen. */
    accepted("screen_new", screen_new(screen, sizeof screen, 40, 1));
    accepted("mirror_new", mirror_new(mirror, sizeof mirror, 40, 1));

    print_piece("Ward 3, Monday\r");
    show("screen", screen);
    print_piece("\n");
    for (const char *c = "BED7"; *c != '\0'; c++) {
        changed("type", screen_type_char(screen, sizeof screen, (uint8_t)*c), ARRIVES);
    }
    changed("left", screen_move_left(screen, sizeof screen), ARRIVES);
    changed("insert on", screen_set_insert(screen, sizeof screen, 1), ARRIVES);
    changed("type a space", screen_type_char(screen, sizeof screen, ' '), COMES_LATE);
    /* This step is early for the mirror: it shows what it had, and says that there is something newer. */
    changed("end of line", screen_end_of_line(screen, sizeof screen), ARRIVES);
    show("mirror", mirror + FUTONROBIN_MIRROR_RECORD);
    full_report();

    uint32_t length = changed("enter", screen_take_logical_line(screen, sizeof screen, line, sizeof line), ARRIVES);
    printf("the line is \"%.*s\"\n", (int)length, (const char *)line);
    /* The answer to it comes in pieces too. Insert is on, whatever the bit beside it says. */
    print_piece("Ok\r");
    show("screen", screen);
    print_piece("\n");
    show("mirror", mirror + FUTONROBIN_MIRROR_RECORD);
}

/* The terminal restarts: a new screen, in a sitting of a larger number. Its serials begin at 0 again. The mirror is the same. */
static void second_sitting(void)
{
    accepted("screen_new", screen_new(screen, sizeof screen, 40, 2));
    /* A step of a sitting that is not shown tells the mirror that there is something newer; a full report shows it. */
    changed("type", screen_type_char(screen, sizeof screen, 'W'), ARRIVES);
    full_report();
    /* From then on steps are enough, and what comes late of the sitting before is old. */
    changed("type", screen_type_char(screen, sizeof screen, '4'), ARRIVES);
    arrive("late report", late, late_length);
    show("mirror", mirror + FUTONROBIN_MIRROR_RECORD);
}

/* So many bytes of a text as one call takes, without parting a 13 from its 10. */
static size_t piece_of(const char *text, size_t length)
{
    if (length <= FUTONROBIN_WAITING_MAX) {
        return length;
    }
    size_t cut = FUTONROBIN_WAITING_MAX;
    return text[cut - 1] == '\r' && text[cut] == '\n' ? cut - 1 : cut;
}

/* A list that is longer than the screen: each call scrolls all but one row at most, and then a reader would press a key. */
static void long_list(void)
{
    char list[60 * sizeof "Bed 60: free\r\n"];
    size_t length = 0;
    for (int bed = 1; bed <= 60; bed++) {
        length += (size_t)sprintf(list + length, "Bed %d: free\r\n", bed);
    }

    changed("clear", screen_clear(screen, sizeof screen), ARRIVES);
    uint32_t rows = accepted("screen_editable_rows", screen_editable_rows(screen, sizeof screen)) - 1;
    for (size_t at = 0; at < length;) {
        size_t piece = piece_of(list + at, length - at);
        uint32_t answer = screen_print_waiting(screen, sizeof screen, (const uint8_t *)list + at, piece, rows);
        changed("print", answer, ARRIVES);
        const char *then = futonrobin_taken(answer) < piece ? "a key is awaited" : "all is taken";
        printf("%" PRIu32 " bytes taken, %" PRIu32 " rows scrolled, %s\n", futonrobin_taken(answer), futonrobin_scrolled(answer), then);
        at += futonrobin_taken(answer);
    }
}

/* A field of 5 characters: it takes no more, and what stands in it is typed over. */
static void short_answer(void)
{
    changed("clear", screen_clear(screen, sizeof screen), ARRIVES);
    for (const char *c = "WARD78"; *c != '\0'; c++) {
        uint32_t before = accepted("screen_cursor", screen_cursor(screen, sizeof screen));
        changed("type", screen_type_limited(screen, sizeof screen, (uint8_t)*c, 5), ARRIVES);
        /* Whatever is typed moves the cursor. */
        if (accepted("screen_cursor", screen_cursor(screen, sizeof screen)) == before) {
            printf("the field is full, and takes no %c\n", *c);
        }
    }
    changed("left", screen_move_left(screen, sizeof screen), ARRIVES);
    changed("type", screen_type_limited(screen, sizeof screen, '8', 5), ARRIVES);
    show("mirror", mirror + FUTONROBIN_MIRROR_RECORD);
}

int main(void)
{
    first_sitting();
    printf("restart\n");
    second_sitting();
    long_list();
    short_answer();

    /* Refused, and the screen is as it was: there is nothing to report. */
    uint32_t answer = screen_type_char(screen, sizeof screen, 256);
    printf("type 256: answer %" PRIu32 ", refusal %d\n", answer, futonrobin_refusal(answer));
    return futonrobin_refusal(answer) == FUTONROBIN_OUT_OF_RANGE ? EXIT_SUCCESS : EXIT_FAILURE;
}
