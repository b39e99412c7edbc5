/*
 * Eight desks in a practical: eight candidates hand in sheets over 01's square, each with marks of their own, and turns serve the desks one
 * line after the other until no line is left. It shows whose buffers a turn wants (revosti_next_desk), what a turn tells, that a desk
 * whose sheet has ended may hand in again while the others are served, and that each verdict is that of the sheet marked alone.
 *
 *   cc -Iinclude examples/desks.c target/staticlib/librevosti.a -o desks && ./desks
 *
 * It prints every turn and each desk's verdicts, and ends with status 1 if an answer is not the one expected.
 */
#include <stdio.h>
#include <string.h>

#include "revosti.h"

enum { N = 4, EDGES = N * (N - 1) / 2, SET = (EDGES + 3) / 4, RECORD = 16, MOST_RECORDS = 3 };

/* A sheet, and what marking it comes to: refusal, record and lines. */
struct sheet {
    size_t count;
    uint16_t records[MOST_RECORDS][8];
    unsigned refusal, record, lines;
};

/* What each candidate hands in. Lines strike 1-3 by a split at 2 and 2-4 by a split at 1, where no pair stands. */
static const struct sheet sheets[REVOSTI_DESKS] = {
    {2, {{REVOSTI_LINE, 1, 3, 0, 0, 2, 0, 2}, {REVOSTI_LINE, 2, 4, 0, 0, 1, 0, 0}}, REVOSTI_ACCEPTED, 0, 2},
    {1, {{REVOSTI_LINE, 1, 2, 0, 0, 3, 0, 0}}, REVOSTI_PAIR, 1, 0},
    {1, {{REVOSTI_LINE, 1, 3, 0, 0, 2, 0, 1}}, REVOSTI_INDEX_NOT_ABOVE, 1, 1},
    {2, {{REVOSTI_LINE, 4, 2, 0, 0, 1, 0, 2}, {REVOSTI_LINE, 2, 4, 0, 0, 1, 0, 0}}, REVOSTI_EDGE_STRUCK, 2, 1},
    {2, {{REVOSTI_LINE, 2, 4, 0, 0, 1, 0, 2}, {REVOSTI_LINE, 1, 3, 0, 0, 2, 0, 3}}, REVOSTI_INDEX_ABOVE, 2, 2},
    {1, {{REVOSTI_SPLIT, 1, 3, 0, 0, 2, 0, 0}}, REVOSTI_KIND, 1, 0},
    {3, {{REVOSTI_LINE, 1, 3, 0, 0, 2, 0, 3}, {0, 0, 0, 0, 0, 0, 0, 0}, {REVOSTI_LINE, 2, 5, 0, 0, 1, 0, 0}}, REVOSTI_POINT, 3, 1},
    {1, {{REVOSTI_LINE, 2, 4, 0, 0, 1, 0, 0}}, REVOSTI_ACCEPTED, 0, 1},
};

/* The table that all share, the desks' state, and of each desk the marks, those at handing in, the sheet and its bytes. */
static uint8_t table[4 * EDGES], desks[REVOSTI_DESKS_BYTES];
static struct {
    uint8_t marks[SET], before[SET], bytes[RECORD * MOST_RECORDS];
    const struct sheet *sheet;
} folders[REVOSTI_DESKS];

static int faults;

static void expect(const char *what, uint64_t got, uint64_t want)
{
    if (got == want) return;
    printf("  %s: %llu, expected %llu\n", what, (unsigned long long)got, (unsigned long long)want);
    faults++;
}

/* Hands in a sheet at a desk, from 1, with the marks that lie there. */
static void hand_in(unsigned desk, const struct sheet *sheet)
{
    uint8_t *at = folders[desk - 1].bytes;
    for (size_t i = 0; i < 8 * sheet->count; i++) {
        at[2 * i] = (uint8_t)(sheet->records[i / 8][i % 8] & 0xff);
        at[2 * i + 1] = (uint8_t)(sheet->records[i / 8][i % 8] >> 8);
    }
    folders[desk - 1].sheet = sheet;
    memcpy(folders[desk - 1].before, folders[desk - 1].marks, SET);
    printf("desk %u hands in a sheet of %u records\n", desk, (unsigned)sheet->count);
    expect("handing in", revosti_hand_in(desks, sizeof desks, desk, N, table, sizeof table, folders[desk - 1].marks, SET, at,
                                         RECORD * sheet->count), REVOSTI_ACCEPTED);
}

/* A sheet has ended: its verdict and marks are those of the sheet marked alone, on the marks at handing in. */
static void ended(unsigned desk, uint64_t answer)
{
    const struct sheet *sheet = folders[desk - 1].sheet;
    uint8_t alone[SET];
    memcpy(alone, folders[desk - 1].before, SET);
    uint64_t verdict = revosti_mark_sheet(N, table, sizeof table, alone, SET, folders[desk - 1].bytes, RECORD * sheet->count);
    printf("desk %u: verdict %u record %u lines %u\n", desk, revosti_refusal(answer), revosti_record(answer), revosti_lines(answer));
    expect("refusal", revosti_refusal(answer), sheet->refusal);
    expect("record", revosti_record(answer), sheet->record);
    expect("lines", revosti_lines(answer), sheet->lines);
    expect("the verdict, marked alone", answer & 0xffffffffff, verdict);
    expect("marks differ from those marked alone", (uint64_t)(memcmp(alone, folders[desk - 1].marks, SET) != 0), 0);
}

/* One turn, with the buffers of the desk that it serves. Answers that desk, 0 where no desk has a line left. */
static unsigned turn(void)
{
    unsigned desk = revosti_next(revosti_next_desk(desks, sizeof desks));
    if (desk == 0) return 0;
    uint64_t answer = revosti_turn(desks, sizeof desks, N, table, sizeof table, folders[desk - 1].marks, SET, folders[desk - 1].bytes,
                                   RECORD * folders[desk - 1].sheet->count);
    expect("the desk served", revosti_desk(answer), desk);
    if (revosti_line_left(answer)) printf("desk %u: a line is left, lines %u\n", desk, revosti_lines(answer));
    else ended(desk, answer);
    return desk;
}

int main(void)
{
    static const uint8_t coordinates[8 * N] = {0, 0, 0, 0, 0, 0, 0, 0, 10, 0, 0, 0, 0, 0, 0, 0, 10, 0, 0, 0, 10, 0, 0, 0, 0, 0, 0, 0, 10};
    expect("measuring", revosti_measure(N, REVOSTI_EUC_2D, coordinates, sizeof coordinates, table, sizeof table), REVOSTI_ACCEPTED);
    expect("opening", revosti_open_desks(desks, sizeof desks), REVOSTI_ACCEPTED);
    expect("a turn with nothing left", revosti_turn(desks, sizeof desks, N, table, sizeof table, folders[0].marks, SET, NULL, 0), 0);
    for (unsigned desk = 1; desk <= REVOSTI_DESKS; desk++) {
        expect("fresh marks", revosti_fresh_marks(N, folders[desk - 1].marks, SET), REVOSTI_ACCEPTED);
        hand_in(desk, &sheets[desk - 1]);
    }
    expect("handing in over a line", revosti_hand_in(desks, sizeof desks, 1, N, table, sizeof table, folders[0].marks, SET, NULL, 0),
           REVOSTI_DESK_BUSY);
    expect("handing in at desk 9", revosti_hand_in(desks, sizeof desks, 9, N, table, sizeof table, folders[0].marks, SET, NULL, 0),
           REVOSTI_NO_DESK);

    /* The first eight turns serve every desk once. Desk 2 has stopped by then and hands in again, on its own marks. */
    for (unsigned desk = 1; desk <= REVOSTI_DESKS; desk++) expect("the round", turn(), desk);
    hand_in(2, &sheets[0]);
    unsigned turns = REVOSTI_DESKS;
    while (turn() != 0) turns++;
    printf("%u turns\n", turns);
    expect("turns", turns, 14);
    return faults != 0;
}
