/*
 * How a tour solver uses Revosti: a board is measured, and read from TSPLIB texts, a strike sheet written from lists of standing pairs,
 * asked, withdrawn, asked again and confirmed, and a search looks at open edges only. Then it asks how much the rules save, its marks go to
 * a byte set and back, the slip of a sheet that stops is shown and released, the sheet is marked for a board whose lengths are known
 * within limits only, the wall list is printed and read again, and a line is told in words.
 *
 *   cc -Iinclude examples/solver.c target/staticlib/librevosti.a -o solver && ./solver
 *
 * It prints what it finds and ends with status 1 if an answer is not the one expected.
 */
#include <stdio.h>
#include <string.h>

#include "revosti.h"

enum { N = 4, EDGES = N * (N - 1) / 2, SET = (EDGES + 3) / 4, RECORD = 16 };

/* What is lent to Revosti: all numbers are little-endian bytes, marks are a packed set. The list has room for every pair of points. */
static uint8_t coordinates[8 * N], table[4 * EDGES], marks[SET], sheet[RECORD * EDGES], tour[2 * N], list[4 * EDGES];

static int faults;

/* Prints an answer beside what it should be. */
static void expect(const char *what, uint64_t got, uint64_t want)
{
    printf("%s: %llu\n", what, (unsigned long long)got);
    if (got != want) {
        printf("  expected %llu\n", (unsigned long long)want);
        faults++;
    }
}

/* Prints a saving, which has a sign, beside what it should be. A refused call has none. */
static void expect_saving(const char *what, int64_t answer, int64_t want)
{
    printf("%s saves %lld\n", what, (long long)revosti_saving(answer));
    if (revosti_refusal(answer) != REVOSTI_ACCEPTED || revosti_saving(answer) != want) {
        printf("  expected %lld, answer %lld\n", (long long)want, (long long)answer);
        faults++;
    }
}

static void put16(uint8_t *at, unsigned number)
{
    at[0] = (uint8_t)(number & 0xff);
    at[1] = (uint8_t)(number >> 8);
}

static void put32(uint8_t *at, uint32_t number)
{
    put16(at, number & 0xffff);
    put16(at + 2, number >> 16);
}

static unsigned get16(const uint8_t *at) { return at[0] | (unsigned)at[1] << 8; }
static uint32_t get32(const uint8_t *at) { return get16(at) | (uint32_t)get16(at + 2) << 16; }

static unsigned mark_of(unsigned a, unsigned b) { return revosti_mark_of(N, marks, a, b); }
static int is_open(unsigned a, unsigned b) { return mark_of(a, b) == REVOSTI_OPEN; }
static uint32_t length(unsigned a, unsigned b) { return get32(table + 4 * revosti_place(N, a, b)); }

/* The operations, on the buffers of this program. */
static uint64_t measure(uint32_t rule) { return revosti_measure(N, rule, coordinates, sizeof coordinates, table, sizeof table); }

/* The length of 4-2, measured by a rule. */
static uint32_t diagonal(uint32_t rule) { return measure(rule) == REVOSTI_ACCEPTED ? length(4, 2) : UINT32_MAX; }

static uint64_t fresh_marks(void) { return revosti_fresh_marks(N, marks, sizeof marks); }
static uint64_t mark_sheet(size_t size) { return revosti_mark_sheet(N, table, sizeof table, marks, sizeof marks, sheet, size); }
static uint64_t ask_sheet(size_t size) { return revosti_ask_sheet(N, table, sizeof table, marks, sizeof marks, sheet, size); }
static uint64_t confirm(void) { return revosti_confirm(N, marks, sizeof marks); }
static uint64_t withdraw(void) { return revosti_withdraw(N, marks, sizeof marks); }

static uint64_t list_pairs(unsigned a, unsigned b, unsigned c, size_t size)
{
    return revosti_list_pairs(N, table, sizeof table, marks, sizeof marks, (uint16_t)a, (uint16_t)b, (uint16_t)c, list, size);
}

static uint64_t check_tour(const unsigned *points)
{
    for (size_t i = 0; i < N; i++) put16(tour + 2 * i, points[i]);
    return revosti_check_tour(N, table, sizeof table, marks, sizeof marks, tour, sizeof tour);
}

/* A split point at which no pair stands under a-b, or 0: a line that splits there needs no case. */
static unsigned empty_split(unsigned a, unsigned b)
{
    for (unsigned c = 1; c <= N; c++) {
        if (list_pairs(a, b, c, sizeof list) == 0) return c;
    }
    return 0;
}

/* Writes a line for each edge that needs no case, and answers their number. */
static size_t write_lines(void)
{
    size_t lines = 0;
    for (unsigned a = 1; a <= N; a++) {
        for (unsigned b = a + 1; b <= N; b++) {
            unsigned c = empty_split(a, b);
            if (c == 0) continue;
            const unsigned record[8] = {REVOSTI_LINE, a, b, 0, 0, c, 0, 0};
            uint8_t *at = sheet + RECORD * lines;
            for (size_t i = 0; i < 8; i++) put16(at + 2 * i, record[i]);
            lines++;
            if (lines > 1) put16(at - 2, (unsigned)lines); /* the line before leads to this one */
        }
    }
    return lines;
}

/* Asks the sheet and shows the verdict: both lines are accepted, and 1-3 and 2-4 are pending. */
static void ask(size_t lines)
{
    uint64_t answer = ask_sheet(RECORD * lines);
    expect("asking, refusal", revosti_refusal(answer), REVOSTI_ACCEPTED);
    expect("asking, lines accepted", revosti_lines(answer), 2);
    expect("mark of 1-3, asked", mark_of(1, 3), REVOSTI_PENDING);
    expect("mark of 4-2, asked", mark_of(4, 2), REVOSTI_PENDING);
}

/* While something is pending, the pair list and the tour check count it as open, and no sheet is marked or asked. */
static void while_pending(size_t lines)
{
    static const unsigned over_both[N] = {1, 3, 2, 4};
    expect("pairs at 3 under 1-2, with 1-3 pending", revosti_pairs(list_pairs(1, 2, 3, sizeof list)), 2);
    expect("pairs at 2 under 1-3, pending itself", list_pairs(1, 3, 2, sizeof list), 0);
    expect("a tour over 1-3 and 2-4, all edges open", (uint64_t)revosti_tour_open(check_tour(over_both)), 1);
    expect("marking while something is pending", mark_sheet(RECORD * lines), REVOSTI_SOMETHING_PENDING);
    expect("asking while something is pending", ask_sheet(RECORD * lines), REVOSTI_SOMETHING_PENDING);
}

/* Hands the sheet in: asks, withdraws, asks again and confirms. */
static void hand_in(size_t lines)
{
    expect("confirming with nothing pending", confirm(), REVOSTI_NOTHING_PENDING);
    ask(lines);
    while_pending(lines);
    expect("withdrawing", withdraw(), REVOSTI_ACCEPTED);
    expect("mark of 1-3, withdrawn", mark_of(1, 3), REVOSTI_OPEN);
    expect("mark of 4-2, withdrawn", mark_of(4, 2), REVOSTI_OPEN);
    expect("withdrawing with nothing pending", withdraw(), REVOSTI_NOTHING_PENDING);
    ask(lines);
    expect("confirming", confirm(), REVOSTI_ACCEPTED);
    expect("mark of 1-3, confirmed", mark_of(1, 3), REVOSTI_STRUCK);
    expect("mark of 4-2, confirmed", mark_of(4, 2), REVOSTI_STRUCK);
    expect("pairs at 3 under 1-2, with 1-3 struck", revosti_pairs(list_pairs(1, 2, 3, sizeof list)), 1);
}

/* Marks the sheet directly, from fresh marks: the verdict of asking, and the marks that confirming left. */
static void mark_directly(size_t lines)
{
    uint8_t confirmed[sizeof marks];
    memcpy(confirmed, marks, sizeof marks);
    expect("fresh marks again", fresh_marks(), REVOSTI_ACCEPTED);
    uint64_t answer = mark_sheet(RECORD * lines);
    expect("marking, refusal", revosti_refusal(answer), REVOSTI_ACCEPTED);
    expect("marking, lines accepted", revosti_lines(answer), 2);
    expect("marks differ from the confirmed ones", (uint64_t)(memcmp(confirmed, marks, sizeof marks) != 0), 0);
}

/* The search: extends a path that has `depth` points by every open edge, and keeps the shortest closed one. */
static unsigned path[N], best[N];
static uint32_t best_length = UINT32_MAX;

static void search(unsigned depth, uint32_t sum)
{
    unsigned from = path[depth - 1];
    if (depth == N) {
        if (is_open(from, path[0]) && sum + length(from, path[0]) < best_length) {
            best_length = sum + length(from, path[0]);
            memcpy(best, path, sizeof best);
        }
        return;
    }
    for (unsigned to = 1; to <= N; to++) {
        int seen = 0;
        for (unsigned i = 0; i < depth; i++) seen |= path[i] == to;
        if (seen || !is_open(from, to)) continue;
        path[depth] = to;
        search(depth + 1, sum + length(from, to));
    }
}

/* The solver looks at the four open edges only. */
static void find_tour(void)
{
    path[0] = 1;
    search(1, 0);
    uint64_t answer = check_tour(best);
    expect("tour found, length", revosti_tour_length(answer), 40);
    expect("tour found, all edges open", (uint64_t)revosti_tour_open(answer), 1);
}

/* Savings on the square: 1-3 and 2-4 are not compatible, 1-2 and 3-4 are; the pair 1, 4 at 3 is a tie for condition 5. */
static void savings(void)
{
    expect_saving("exchanging 1-3 and 2-4", revosti_exchange_saving(N, table, sizeof table, 1, 3, 2, 4), 8);
    expect_saving("exchanging 1-2 and 3-4", revosti_exchange_saving(N, table, sizeof table, 1, 2, 3, 4), -8);
    expect_saving("moving 3 from between 1 and 4 to between 1 and 2", revosti_move_saving(N, table, sizeof table, 3, 1, 4, 1, 2), 0);
    expect("exchanging 1-1, refusal", revosti_refusal(revosti_exchange_saving(N, table, sizeof table, 1, 1, 2, 4)), REVOSTI_POINT);
    expect("moving 3 to between 1 and 5, refusal", revosti_refusal(revosti_move_saving(N, table, sizeof table, 3, 1, 4, 1, 5)),
           REVOSTI_POINT);
}

/* The crossing of 1-2 with centres 3 and 4, whose other ends are 5, 6 and 7, 8: it settles its case if the centres are near enough. */
enum { P = 1, Q, R, S, X, Y, Z, W, EIGHT = 8 };
static uint8_t crossing[2 * EIGHT * (EIGHT - 1)];

static void join(unsigned a, unsigned b, uint32_t length) { put32(crossing + 4 * revosti_place(EIGHT, a, b), length); }

static void crossing_saves(uint32_t centres, int64_t want)
{
    static const unsigned tens[][2] = {{P, Q}, {R, X}, {R, Y}, {S, Z}, {S, W}}, nines[][2] = {{P, X}, {Q, W}, {P, Z}, {Q, Y}};
    for (unsigned a = 1; a <= EIGHT; a++) {
        for (unsigned b = a + 1; b <= EIGHT; b++) join(a, b, 20);
    }
    for (size_t i = 0; i < 5; i++) join(tens[i][0], tens[i][1], 10);
    for (size_t i = 0; i < 4; i++) join(nines[i][0], nines[i][1], 9);
    join(R, S, centres);
    printf("centres %u apart: ", (unsigned)centres);
    expect_saving("the crossing", revosti_crossing_saving(EIGHT, crossing, sizeof crossing, P, Q, R, S, X, Y, Z, W), want);
}

/* The marks as a byte set, as an older program holds them, and back: 1-3 and 2-4 are struck, and the packed set is the same. */
static void convert(void)
{
    static const uint8_t byte_set[EDGES] = {1, 0, 1, 1, 0, 1};
    uint8_t bytes[EDGES], back[SET];
    expect("unpacking", revosti_unpack_marks(N, marks, sizeof marks, bytes, sizeof bytes), REVOSTI_ACCEPTED);
    expect("byte set differs from the one expected", (uint64_t)(memcmp(bytes, byte_set, sizeof bytes) != 0), 0);
    expect("packing", revosti_pack_marks(N, bytes, sizeof bytes, back, sizeof back), REVOSTI_ACCEPTED);
    expect("marks differ, there and back", (uint64_t)(memcmp(back, marks, sizeof marks) != 0), 0);
    bytes[0] = 3;
    expect("packing, a byte of 3", revosti_pack_marks(N, bytes, sizeof bytes, back, sizeof back), REVOSTI_MARKS);
    back[SET - 1] |= 0x80;
    expect("unpacking, an unused bit set", revosti_unpack_marks(N, back, sizeof back, bytes, sizeof bytes), REVOSTI_MARKS);
    expect("confirming, an unused bit set", revosti_confirm(N, back, sizeof back), REVOSTI_MARKS);
}

/* Expects six bytes of a view. The byte behind them stays. */
static void expect_view(const char *what, uint64_t answer, const uint8_t *view, const uint8_t *want)
{
    expect(what, answer, REVOSTI_ACCEPTED);
    expect("  its bytes differ from those expected", (uint64_t)(memcmp(view, want, REVOSTI_VIEW_BYTES) != 0), 0);
    expect("  the byte behind them", view[REVOSTI_VIEW_BYTES], 77);
}

/* The slip of a sheet that stops at record 1, whose edge is struck already: until release the candidate sees only that it stopped. */
static void slips(size_t lines)
{
    static const uint8_t told[] = {REVOSTI_EDGE_STRUCK, 0, 1, 0, 0, 0}, hidden[] = {REVOSTI_STOPPED, 0, 0, 0, 0, 0};
    static const uint8_t released[] = {REVOSTI_EDGE_STRUCK, 1, 1, 0, 0, 0};
    uint8_t view[REVOSTI_VIEW_BYTES + 1] = {0, 0, 0, 0, 0, 0, 77};
    uint64_t slip = mark_sheet(RECORD * lines);
    expect_view("the examiner's view", revosti_examiner_view(slip, view, sizeof view), view, told);
    expect_view("the candidate's view", revosti_candidate_view(slip, view, sizeof view), view, hidden);
    slip = revosti_release(slip);
    expect("the slip is released", (uint64_t)revosti_is_released(slip), 1);
    expect("released twice", revosti_release(slip), slip);
    expect_view("the examiner's view, released", revosti_examiner_view(slip, view, sizeof view), view, released);
    expect_view("the candidate's view, released", revosti_candidate_view(slip, view, sizeof view), view, released);
    expect("a view of five bytes", revosti_examiner_view(slip, view, REVOSTI_VIEW_BYTES - 1), REVOSTI_BUFFER);
}

/* The square before it is cut: its side is at least 10, and `table` has the low lengths. What the high ones are, and the marks for both. */
static uint8_t high[sizeof table], between[sizeof marks];

static void measure_high(uint32_t side)
{
    const uint32_t corners[2 * N] = {0, 0, side, 0, side, side, 0, side};
    uint8_t points[8 * N];
    for (size_t i = 0; i < 2 * N; i++) put32(points + 4 * i, corners[i]);
    printf("a side of 10 to %u:\n", (unsigned)side);
    expect("  measuring", revosti_measure(N, REVOSTI_EUC_2D, points, sizeof points, high, sizeof high), REVOSTI_ACCEPTED);
    expect("  fresh marks", revosti_fresh_marks(N, between, sizeof between), REVOSTI_ACCEPTED);
}

static uint64_t mark_between(size_t lines)
{
    return revosti_mark_between(N, table, sizeof table, high, sizeof high, between, sizeof between, sheet, RECORD * lines);
}

static size_t pairs_between(unsigned a, unsigned b, unsigned c)
{
    return revosti_pairs(revosti_list_between(N, table, sizeof table, high, sizeof high, between, sizeof between, (uint16_t)a, (uint16_t)b,
                                              (uint16_t)c, list, sizeof list));
}

/* Up to a side of 13 both strikes hold, whichever board is cut: the diagonals are at least 14 + 14, two sides at most 26. Up to 14 they do
 * not: 14 + 14 against 28 is a tie, and pairs stand which neither table has. The same table twice is that table. */
static void limits(size_t lines)
{
    measure_high(13);
    expect("  pairs at 2 under 1-3", pairs_between(1, 3, 2), 0);
    expect("  marking, lines accepted", revosti_lines(mark_between(lines)), 2);
    expect("  marks differ from those of one table", (uint64_t)(memcmp(between, marks, sizeof marks) != 0), 0);
    measure_high(14);
    expect("  pairs at 2 under 1-3", pairs_between(1, 3, 2), 2);
    expect("  first pair, x and y as digits", 10 * get16(list) + get16(list + 2), 14);
    uint64_t answer = mark_between(lines);
    expect("  marking, refusal", revosti_refusal(answer), REVOSTI_PAIR);
    expect("  marking, record", revosti_record(answer), 1);
    measure_high(10);
    expect("  marking, as one table", mark_between(lines), (uint64_t)2 << 24);
    expect("  marks differ from those of one table", (uint64_t)(memcmp(between, marks, sizeof marks) != 0), 0);
    measure_high(9);
    expect("  marking, a low length above its high one", mark_between(lines), REVOSTI_LIMITS);
    expect("  mark of 1-3", revosti_mark_of(N, between, 1, 3), REVOSTI_OPEN);
}

/* The wall list is one page of six lines: printed, read into another table and other marks, and then with a faulty word. */
static void wall_list(void)
{
    enum { PAGE = REVOSTI_LINE_BYTES * EDGES };
    uint8_t text[PAGE + 1], other_table[sizeof table] = {0}, other_marks[sizeof marks] = {0};
    text[PAGE] = 77;
    expect("pages", revosti_page_count(N), 1);
    uint64_t answer = revosti_write_page(N, table, sizeof table, marks, sizeof marks, 1, text, sizeof text);
    expect("writing page 1, its bytes", revosti_page_bytes(answer), PAGE);
    expect("  the byte behind them", text[PAGE], 77);
    printf("%.*s", (int)PAGE, (const char *)text);
    expect("reading it", revosti_read_page(N, 1, text, PAGE, other_table, sizeof other_table, other_marks, sizeof other_marks), REVOSTI_ACCEPTED);
    expect("  lengths differ", (uint64_t)(memcmp(other_table, table, sizeof table) != 0), 0);
    expect("  marks differ", (uint64_t)(memcmp(other_marks, marks, sizeof marks) != 0), 0);
    expect("writing page 1 into a byte too few", revosti_write_page(N, table, sizeof table, marks, sizeof marks, 1, text, PAGE - 1), REVOSTI_BUFFER);
    expect("reading page 2", revosti_read_page(N, 2, text, PAGE, other_table, sizeof other_table, other_marks, sizeof other_marks), REVOSTI_PAGE);
    text[REVOSTI_LINE_BYTES + 16] = 'S';
    answer = revosti_read_page(N, 1, text, PAGE, other_table, sizeof other_table, other_marks, sizeof other_marks);
    expect("reading Struck in line 2, refusal", revosti_refusal(answer), REVOSTI_PAGE_TEXT);
    expect("  line", revosti_wrong_line(answer), 2);
}

static uint64_t tell_line(const uint8_t *set, size_t lines, uint32_t record, uint8_t *text, size_t size)
{
    return revosti_tell_line(N, table, sizeof table, set, sizeof marks, sheet, RECORD * lines, record, text, size);
}

/* The first line, told over fresh marks: why each of the three pairs at 2 does not stand under 1-3. The byte behind the text stays. */
static void tell(size_t lines)
{
    static const char want[] = "Exchanging 2-4 and 1-3 saves 8 and shuts out 3 and 4 as neighbours of 2.\n";
    uint8_t unstruck[sizeof marks], text[REVOSTI_SENTENCE_BYTES * (N - 1) * (N - 2) / 2];
    expect("bytes that hold every text", sizeof text, revosti_told_size(N));
    memset(text, 77, sizeof text);
    expect("fresh marks for telling", revosti_fresh_marks(N, unstruck, sizeof unstruck), REVOSTI_ACCEPTED);
    uint64_t answer = tell_line(unstruck, lines, 1, text, sizeof text);
    size_t size = revosti_told_bytes(answer), last = strlen(want);
    expect("telling line 1, refusal", revosti_refusal(answer), REVOSTI_ACCEPTED);
    expect("  bytes of its sentences", size, 195);
    expect("  the byte behind them", text[size], 77);
    printf("%.*s", (int)size, (const char *)text);
    expect("  the last sentence differs", (uint64_t)(memcmp(text + size - last, want, last) != 0), 0);
    expect("telling line 1 into a byte too few", tell_line(unstruck, lines, 1, text, size - 1), REVOSTI_BUFFER);
    expect("telling record 3 of 2", tell_line(unstruck, lines, 3, text, sizeof text), REVOSTI_INDEX_ABOVE);
    answer = tell_line(marks, lines, 2, text, sizeof text);
    expect("telling line 2, struck already, refusal", revosti_refusal(answer), REVOSTI_EDGE_STRUCK);
    expect("  record", revosti_record(answer), 2);
}

/* Faulty input is refused, and changes nothing. `lines` is the length of the sheet that is marked already. */
static void refusals(size_t lines)
{
    uint8_t old_table[sizeof table], old_marks[sizeof marks], old_list[sizeof list];
    memset(list, 0x5a, sizeof list);
    memcpy(old_table, table, sizeof table);
    memcpy(old_marks, marks, sizeof marks);
    memcpy(old_list, list, sizeof list);

    expect("fresh marks, n = 181", revosti_fresh_marks(181, marks, sizeof marks), REVOSTI_POINTS);
    expect("fresh marks, one byte short", revosti_fresh_marks(N, marks, sizeof marks - 1), REVOSTI_MARKS);
    expect("confirming, n = 181", revosti_confirm(181, marks, sizeof marks), REVOSTI_POINTS);
    expect("withdrawing, one byte short", revosti_withdraw(N, marks, sizeof marks - 1), REVOSTI_MARKS);
    expect("measuring, coordinates one byte short",
           revosti_measure(N, REVOSTI_EUC_2D, coordinates, sizeof coordinates - 1, table, sizeof table), REVOSTI_SIZE);
    expect("measuring, a table one byte short",
           revosti_measure(N, REVOSTI_EUC_2D, coordinates, sizeof coordinates, table, sizeof table - 1), REVOSTI_SIZE);
    expect("measuring, rule 9", measure(9), REVOSTI_RULE);
    put32(coordinates, REVOSTI_MOST_COORDINATE + 1);
    expect("measuring, a coordinate too large", measure(REVOSTI_EUC_2D), REVOSTI_COORDINATE);
    expect("marking, a sheet of an odd length", mark_sheet(RECORD * lines - 1), REVOSTI_SHEET);
    expect("marking, an edge struck already, record", revosti_record(mark_sheet(RECORD * lines)), 1);
    expect("listing, an edge struck already", list_pairs(1, 3, 2, sizeof list), REVOSTI_EDGE_STRUCK);
    expect("listing, a list of one byte", list_pairs(1, 2, 3, 1), REVOSTI_LIST);
    best[0] = best[1];
    expect("a tour that names a point twice", check_tour(best), REVOSTI_TOUR);

    expect("table changed by refused calls", (uint64_t)(memcmp(old_table, table, sizeof table) != 0), 0);
    expect("marks changed by refused calls", (uint64_t)(memcmp(old_marks, marks, sizeof marks) != 0), 0);
    expect("list changed by refused calls", (uint64_t)(memcmp(old_list, list, sizeof list) != 0), 0);
}

/* The square 1 (0,0), 2 (10,0), 3 (10,10), 4 (0,10), measured by each rule, by EUC_2D last: sides 10, diagonals 14. */
static void measure_square(void)
{
    static const uint32_t square[2 * N] = {0, 0, 10, 0, 10, 10, 0, 10};
    for (size_t i = 0; i < 2 * N; i++) put32(coordinates + 4 * i, square[i]);
    expect("length of 4-2 by CEIL_2D", diagonal(REVOSTI_CEIL_2D), 15);
    expect("length of 4-2 by ATT", diagonal(REVOSTI_ATT), 5);
    expect("length of 4-2 by MAN_2D", diagonal(REVOSTI_MAN_2D), 20);
    expect("length of 4-2 by MAX_2D", diagonal(REVOSTI_MAX_2D), 10);
    expect("measuring", measure(REVOSTI_EUC_2D), REVOSTI_ACCEPTED);
    expect("length of 1-2", length(1, 2), 10);
    expect("length of 4-2", length(4, 2), 14);
}

/* The square as two TSPLIB texts, by its coordinates and by its lengths. */
#define HEAD "NAME : square\nTYPE : TSP\nDIMENSION : 4\n"
static const char by_coordinates[] = HEAD "EDGE_WEIGHT_TYPE : EUC_2D\nNODE_COORD_SECTION\n1 0 0\n2 10 0\n3 10 10\n4 0 10\nEOF\n";
static const char by_lengths[] = HEAD "EDGE_WEIGHT_TYPE : EXPLICIT\nEDGE_WEIGHT_FORMAT : UPPER_ROW\nEDGE_WEIGHT_SECTION\n"
                                      "10 14 10\n10 14 10\nEOF\n";

static uint64_t points_of(const char *text) { return revosti_tsplib_points((const uint8_t *)text, strlen(text)); }
static uint64_t read_text(const char *text, uint8_t *to, size_t size)
{
    return revosti_read_tsplib((const uint8_t *)text, strlen(text), to, size);
}

/* Asks how many points a text has, reads it, and holds its table against the measured one. */
static void read_board(const char *text)
{
    uint8_t found[sizeof table];
    uint32_t n = revosti_points(points_of(text));
    expect("points of the text", n, N);
    expect("bytes of its table", 4 * revosti_edges(n), sizeof found);
    expect("reading, points", revosti_points(read_text(text, found, sizeof found)), N);
    expect("table differs from the measured one", (uint64_t)(memcmp(found, table, sizeof found) != 0), 0);
}

/* A text that is none is refused by 19 and its line; a table of wrong size by 2. Neither writes to the table. */
static void refuse_texts(void)
{
    static const char real[] = HEAD "EDGE_WEIGHT_TYPE : EUC_2D\nNODE_COORD_SECTION\n1 0 0\n2 1.0e+01 0\n3 10 10\n4 0 10\nEOF\n";
    uint8_t found[sizeof table], none[sizeof table];
    memset(none, 0x5a, sizeof none);
    memcpy(found, none, sizeof none);
    uint64_t answer = read_text(real, found, sizeof found);
    expect("reading 1.0e+01, refusal", revosti_refusal(answer), REVOSTI_TEXT);
    expect("reading 1.0e+01, line", revosti_text_line(answer), 7);
    expect("points of that text, line", revosti_text_line(points_of(real)), 7);
    expect("reading no text, line", revosti_text_line(read_text("", found, sizeof found)), 1);
    expect("reading, a table one byte short", read_text(by_coordinates, found, sizeof found - 1), REVOSTI_SIZE);
    expect("reading lengths, a table one byte short", read_text(by_lengths, found, sizeof found - 1), REVOSTI_SIZE);
    expect("table changed by refused texts", (uint64_t)(memcmp(found, none, sizeof found) != 0), 0);
}

/* Two pairs stand at 3 under 1-2: 1 and 4, 2 and 4. A last odd byte of the list stays. */
static void list_at_3(void)
{
    list[8] = 77;
    expect("pairs at 3 under 1-2", revosti_pairs(list_pairs(1, 2, 3, 9)), 2);
    expect("first pair, x and y as digits", 10 * get16(list) + get16(list + 2), 14);
    expect("second pair, x and y as digits", 10 * get16(list + 4) + get16(list + 6), 24);
    expect("the byte behind them", list[8], 77);
}

int main(void)
{
    measure_square();
    read_board(by_coordinates);
    read_board(by_lengths);
    refuse_texts();
    expect("bytes of marks", sizeof marks, revosti_marks_size(N));
    expect("fresh marks", fresh_marks(), REVOSTI_ACCEPTED);
    list_at_3();

    /* Two lines: strike 1-3 by a split at 2, strike 2-4 by a split at 1. No pair stands at either, so neither has a case. */
    size_t lines = write_lines();
    expect("lines written", lines, 2);
    hand_in(lines);
    mark_directly(lines);
    find_tour();
    savings();
    crossing_saves(9, 3);
    crossing_saves(12, 0);
    crossing_saves(14, -2);
    convert();
    slips(lines);
    limits(lines);
    wall_list();
    tell(lines);
    refusals(lines);
    return faults != 0;
}
