/*
 * Revosti for C: measure a board or read one from a TSPLIB text, make fresh marks, mark a strike sheet, ask one and confirm or withdraw it,
 * list standing pairs, check a tour; mark and list where lengths are known within limits only; tell how much an exchange, a move or a
 * crossing saves; convert sets of marks; show a marked sheet's slip to examiner and candidate; write the wall list of edges page by page,
 * and read it again; mark the sheets of eight desks in turns, one line a turn; tell in words why each pair at a line's split is settled.
 *
 * Link with librevosti.a (`tools/build archive` writes target/staticlib/librevosti.a), or install it: `tools/install PREFIX`, and then
 * `pkg-config --cflags --libs revosti`.
 *
 * Points are numbered 1 to n, n from REVOSTI_LEAST_POINTS to REVOSTI_MOST_POINTS. Edges stand in the order 1-2, 1-3, .., 1-n, 2-3, ..;
 * there are n(n - 1)/2 of them, and revosti_place gives the place of one. All numbers in buffers are little-endian.
 *
 *   coordinates  4 bytes a number, 2n numbers: both of point 1, then both of point 2, ..; each at most REVOSTI_MOST_COORDINATE.
 *   table        4 bytes an edge: its length, at most REVOSTI_MOST_LENGTH. It need not obey the triangle inequality.
 *   low, high    two tables: each length is known to be at least the low one and at most the high one.
 *   marks        a packed set: 2 bits an edge, four edges a byte, the first edge in the lowest bits, each REVOSTI_OPEN, REVOSTI_PENDING or
 *                REVOSTI_STRUCK; what the last byte has left is 0. revosti_marks_size gives its bytes, revosti_mark_of the mark of an edge.
 *   byte set     1 byte an edge, the same three numbers. revosti_pack_marks reads it and revosti_unpack_marks writes it, no other function.
 *   sheet        16 bytes a record, 1 to REVOSTI_MOST_RECORDS records, numbered from 1: eight 16-bit numbers kind, a, b, u, v, c, d, next.
 *   tour         2 bytes a point, n points.
 *   list         2 bytes a point: x then y of each pair. It takes any length: its places are its whole entries.
 *   view         REVOSTI_VIEW_BYTES bytes, what the examiner or the candidate sees of a slip. It may be longer: bytes past them stay.
 *   text         a TSPLIB text, lent whole. Any bytes of any length: no 0 need stand behind it, and one in it is a byte like others.
 *                Or a page of the wall list, REVOSTI_LINE_BYTES bytes a line, or the sentences of a line, at most REVOSTI_SENTENCE_BYTES
 *                bytes each. One that is written may be lent more: bytes past it stay.
 *   desks        REVOSTI_DESKS_BYTES bytes, the state of all eight desks; what is in them is the functions' own matter, and any bytes are a
 *                state. It may be longer: bytes past them stay.
 *
 * All functions accept any buffers of any lengths and any numbers: faulty input gets a refusal number, the first that applies in the
 * order given at each function. A length that is no whole number of entries is a wrong size there, for all buffers but list, view, text
 * and desks. A refused call changes nothing, but for a sheet that stops at a record. They touch no byte outside the lengths given, allocate
 * nothing, keep no state and always return. They use some 160 KB of stack, revosti_mark_between some 290 KB. A buffer that is written
 * overlaps no other while the call runs; buffers that are only read may overlap, and low and high may be the same. A buffer of length 0
 * may be NULL: of it no byte is read or written.
 *
 * The life of a mark:
 *
 *   open     from fresh marks on; marking a sheet moves it to struck, asking a sheet to pending.
 *   pending  until it is settled: confirming moves it to struck, withdrawing back to open.
 *   struck   for good; only fresh marks set it to open again.
 *   Marking and asking want nothing pending (refusal 20), confirming and withdrawing want something pending (refusal 21).
 *   Converting a set, there or back, keeps every mark, pending ones too.
 *
 * Marks are refused by 6 where the packed set has not its size, has a mark of 3 or has one of the unused bits of its last byte set. Of a
 * set that is only written (fresh marks, the conversions) the size alone is tested, and what it holds is not read.
 *
 * Within an asked sheet a pending edge counts as struck, and so it does where a line is told; the pair list and the tour check count it as
 * open. Savings read no marks.
 *
 * docs/RULES.md has the rules that they keep to, and what the words here mean (standing pair, split, crossing, stretch, saving).
 * What is proved of them: demands 1 to 3 of README.md. In particular, whatever sheets are marked, asked, confirmed and withdrawn from fresh
 * marks over one table, provided that nobody else writes the table or the marks meanwhile (open is REVOSTI_OPEN here):
 *
 *   - no edge of a shortest tour is ever struck or pending;
 *   - nor of a tour that cannot be made shorter by taking out at most three of its edges and putting in as many: all its edges stay open,
 *     provided that no sheet has a record of kind REVOSTI_STRETCH, which may take out more;
 *   - every point keeps at least two open edges;
 *   - at least n edges stay open.
 *
 * And whatever sheets are marked by revosti_mark_between from fresh marks, over tables low and high that stay, the marks serve every table
 * whose lengths lie between the two, ends included: the same four hold, the first two for the tours of each such table. Once the table is
 * known, the other functions go on from these marks over it.
 */
#ifndef REVOSTI_H
#define REVOSTI_H

#include <stddef.h>
#include <stdint.h>

#define REVOSTI_VERSION "1.0.0"
#define REVOSTI_VERSION_MAJOR 1
#define REVOSTI_VERSION_MINOR 0
#define REVOSTI_VERSION_PATCH 0

#ifdef __cplusplus
extern "C" {
#endif

enum {
    REVOSTI_LEAST_POINTS = 4,
    REVOSTI_MOST_POINTS = 180,
    REVOSTI_MOST_COORDINATE = 1000000,
    REVOSTI_MOST_LENGTH = 2000000,
    REVOSTI_MOST_RECORDS = 4000,
    REVOSTI_MOST_SPLITS = 6,
    REVOSTI_VIEW_BYTES = 6,
    REVOSTI_PAGE_LINES = 60, /* lines on a page, but for the last, which has what is left */
    REVOSTI_LINE_BYTES = 25, /* 24 columns and a newline */
    REVOSTI_SENTENCE_BYTES = 128, /* the most that a sentence has, its newline among them */
    REVOSTI_DESKS = 8,
    REVOSTI_DESKS_BYTES = 50, /* the state of all desks */
    REVOSTI_STOPPED = 255, /* the first byte that the candidate sees of a sheet that stopped, until release */

    REVOSTI_EUC_2D = 1,   /* rule 1: the nearest whole number */
    REVOSTI_CEIL_2D = 2,  /* rule 2: the next whole number above, or the same */
    REVOSTI_ATT = 3,      /* rule 3: the least d with 10 * d * d >= the sum of the two squared differences */
    REVOSTI_MAN_2D = 4,   /* rule 4: the sum of the two coordinate differences */
    REVOSTI_MAX_2D = 5,   /* rule 5: the larger of the two */

    REVOSTI_STRUCK = 0,
    REVOSTI_OPEN = 1,
    REVOSTI_PENDING = 2,

    REVOSTI_LINE = 1,     /* kind 1: strike a-b, split at c, first case d, next line */
    REVOSTI_SPLIT = 2,    /* kind 2: case with pair a, b, split at c, first case d, next case */
    REVOSTI_CROSSING = 3, /* kind 3: case with pair a, b, crossing of u-v, centres c and d, next case */
    REVOSTI_STRETCH = 4,  /* kind 4: case with pair a, b, new order of the stretch from u to v, c 0, first point d, next case */
    REVOSTI_STRETCH_POINT = 5 /* kind 5: a point of a new order, a, and the next point; all else 0 */
};

/* Refusal numbers. 0 is none. */
enum {
    REVOSTI_ACCEPTED = 0,
    REVOSTI_POINTS = 1,          /* n outside 4 to 180 */
    REVOSTI_SIZE = 2,            /* the coordinates have not 2n whole entries, or a table not n(n - 1)/2 */
    REVOSTI_RULE = 3,            /* the rule is outside 1 to 5 */
    REVOSTI_COORDINATE = 4,      /* a coordinate above 1,000,000 */
    REVOSTI_LENGTH = 5,          /* a table entry above 2,000,000 */
    REVOSTI_MARKS = 6,           /* a packed set of wrong size, with a mark of 3 or an unused bit set; converting, also a byte set of
                                    wrong size or with a byte above 2 */
    REVOSTI_SHEET = 7,           /* the sheet is not 1 to 4,000 whole records */
    REVOSTI_INDEX_ABOVE = 8,     /* an index above the record count; names the record that has the index */
    REVOSTI_INDEX_NOT_ABOVE = 9, /* an index not above the highest record entered; names the record that has the index */
    REVOSTI_KIND = 10,           /* wrong kind for its chain; or not 0: u or v in kinds 1 and 2, c in kind 4, b, u, v, c or d in kind 5 */
    REVOSTI_POINT = 11,          /* a point outside 1 to n, or a = b; of a saving, an edge taken out with both ends the same */
    REVOSTI_EDGE_STRUCK = 12,    /* the edge is struck already, or pending where a sheet is asked */
    REVOSTI_SEVENTH_SPLIT = 13,  /* more than six splits one inside another */
    REVOSTI_PAIR = 14,           /* the pair is not the next standing one, or the chain ends with standing pairs left */
    REVOSTI_NO_CROSSING = 15,    /* a crossing's edge or centres break a condition */
    REVOSTI_NO_SAVING = 16,      /* no labelling of the crossing saves */
    REVOSTI_TOUR = 17,           /* not n whole numbers, or not each point from 1 to n exactly once */
    REVOSTI_LIST = 18,           /* the list has fewer than twice as many places as there are standing pairs */
    REVOSTI_TEXT = 19,           /* not a TSPLIB text as they are read here; names the line */
    REVOSTI_SOMETHING_PENDING = 20, /* marking or asking while an edge is pending */
    REVOSTI_NOTHING_PENDING = 21,   /* confirming or withdrawing while none is */
    REVOSTI_BUFFER = 22,            /* a view is lent fewer than six bytes, a page or a told line fewer than its text has, the desks
                                       fewer than 50 */
    REVOSTI_NO_STRETCH = 23,        /* K with the pair has no stretch from u to v, or the chain does not name its inner points, each once;
                                       names the record of kind 4 */
    REVOSTI_NOT_SHORTER = 24,       /* the new order of a stretch is not shorter; names the record of kind 4 */
    REVOSTI_LIMITS = 25,            /* a low length above its high one */
    REVOSTI_PAGE = 26,              /* page number 0 or past the last */
    REVOSTI_PAGE_TEXT = 27,         /* a text that is not such a page; names its first wrong, missing or surplus line */
    REVOSTI_NO_DESK = 28,           /* a desk outside 1 to 8 */
    REVOSTI_DESK_BUSY = 29          /* handing in at a desk whose sheet still has a line */
};

/*
 * Measures a board: writes the distance of each edge to the table. Refusals in this order: 1; 2, of the coordinates and then of the
 * table; 3, 4. Answer: the refusal number, or 0. It changes the table alone, and a refused call nothing.
 */
uint64_t revosti_measure(uint32_t n, uint32_t rule, const uint8_t *coordinates, size_t coordinates_len, uint8_t *table,
                         size_t table_len);

/*
 * Reads a TSPLIB text: writes the table that revosti_measure writes for its coordinates and its rule, or, of an EXPLICIT text, the weights
 * as they are. Refusals in this order: 19; then of coordinates 1, 2 (the table), 4, and of weights 1, 2, 5 (a weight above
 * REVOSTI_MOST_LENGTH). Answer: 19 + 256 * line; or another refusal number alone; or 65,536 * n. It changes the table alone, and a refused
 * call nothing.
 *
 * Read are NAME, COMMENT, TYPE (TSP), DIMENSION, EDGE_WEIGHT_TYPE (EUC_2D, CEIL_2D, ATT, MAN_2D, MAX_2D, EXPLICIT), EDGE_WEIGHT_FORMAT
 * (UPPER_ROW, with EXPLICIT alone), NODE_COORD_SECTION or EDGE_WEIGHT_SECTION, and EOF; docs/FORMATS.md has the text corner by corner.
 * Numbers are whole, in digits alone, below 2^32. Every line ends in a newline, the last one, EOF, too.
 *
 * The line told, from 1 on, is the first that no such text could hold after the lines before it, or one past the last whole line. (It is
 * told modulo 2^56, which no text in memory reaches.)
 */
uint64_t revosti_read_tsplib(const uint8_t *text, size_t text_len, uint8_t *table, size_t table_len);

/*
 * How many points a TSPLIB text has, for a caller who does not know how large a table to lend. It makes no test but 19, so that n is any
 * number of 32 bits here: test it before a table is made for it. Answer: 19 + 256 * line, or 65,536 * n. It changes nothing.
 */
uint64_t revosti_tsplib_points(const uint8_t *text, size_t text_len);

/*
 * Makes fresh marks: sets every mark to REVOSTI_OPEN and the unused bits to 0, whatever they were: bytes of 85, the last one 1, 5, 21 or
 * 85. Refusals in this order: 1; 6, the size alone. Answer: the refusal number, or 0. A refused call changes no mark.
 */
uint64_t revosti_fresh_marks(uint32_t n, uint8_t *marks, size_t marks_len);

/*
 * Packs a byte set: writes the packed set with its marks. Refusals in this order: 1; 6, of the byte set (not n(n - 1)/2 bytes, or a byte
 * above 2) and then of the packed set (the size alone). Answer: the refusal number, or 0. It changes the packed set alone, and a refused
 * call nothing.
 */
uint64_t revosti_pack_marks(uint32_t n, const uint8_t *bytes, size_t bytes_len, uint8_t *packed, size_t packed_len);

/*
 * Unpacks a packed set: writes the byte set with its marks. Refusals in this order: 1; 6, of the packed set and then of the byte set (the
 * size alone). Answer: the refusal number, or 0. It changes the byte set alone, and a refused call nothing. Either conversion undoes the
 * other.
 */
uint64_t revosti_unpack_marks(uint32_t n, const uint8_t *packed, size_t packed_len, uint8_t *bytes, size_t bytes_len);

/*
 * Marks a sheet: strikes each line's edge whose argument is complete, one line after the other, and stops at the first refusal.
 * Refusals in this order: 1, 2, 5, 6, 20, 7; then 8 and 9 on each index followed; 10 and 11 on each record entered, then 12 on a line, and 14,
 * 13, 15, 16 on a case (14 before 13). A chain that ends with standing pairs left gets 14 at its last record, or at the split's owner.
 * A case with a new order gets 23 where there is no such stretch; then its chain of points is followed to the end, with 8 to 11; then
 * it gets 23 where the chain does not name the inner points, each once, and 24 where the new order is not shorter.
 * Answer: refusal number + 256 * record + 16,777,216 * lines accepted; take it apart with the functions below. The record is 0 where no
 * record is at fault. It changes marks alone: a call that is refused by 1 to 7 or 20 none; one that stops at a record keeps the strikes of
 * the lines accepted before it.
 */
uint64_t revosti_mark_sheet(uint32_t n, const uint8_t *table, size_t table_len, uint8_t *marks, size_t marks_len,
                            const uint8_t *sheet, size_t sheet_len);

/*
 * Asks a sheet: as revosti_mark_sheet, with the same refusals in the same order and the same answer on the same marks, but each edge that
 * it strikes gets REVOSTI_PENDING. A call that stops at a record keeps these. Where nothing is pending before, asking and then
 * confirming leave the marks that marking leaves (if no line is accepted, confirming is refused by 21, and they are the same anyway);
 * asking and then withdrawing leave the marks as they were.
 */
uint64_t revosti_ask_sheet(uint32_t n, const uint8_t *table, size_t table_len, uint8_t *marks, size_t marks_len,
                           const uint8_t *sheet, size_t sheet_len);

/*
 * Confirms: every pending mark becomes REVOSTI_STRUCK, and no other mark changes. Refusals in this order: 1, 6, 21.
 * Answer: the refusal number, or 0. A refused call changes no mark.
 */
uint64_t revosti_confirm(uint32_t n, uint8_t *marks, size_t marks_len);

/*
 * Withdraws: every pending mark becomes REVOSTI_OPEN, and no other mark changes. Refusals in this order: 1, 6, 21.
 * Answer: the refusal number, or 0. A refused call changes no mark.
 */
uint64_t revosti_withdraw(uint32_t n, uint8_t *marks, size_t marks_len);

/*
 * Checks a tour. Refusals in this order: 1, 2, 5, 6, 17. It changes nothing.
 * Answer: the refusal number alone, or 65,536 * length + 256 if all its edges are open. A pending edge counts as open.
 */
uint64_t revosti_check_tour(uint32_t n, const uint8_t *table, size_t table_len, const uint8_t *marks, size_t marks_len,
                            const uint8_t *tour, size_t tour_len);

/*
 * Lists the pairs that stand at the split point c, which may be a or b, under K = {a-b}: x then y of each, x below y, rising. Refusals in
 * this order: 1, 2, 5, 6; 11, of a, b and c; 12; 18. A pending edge counts as open, in 12 too.
 * Answer: the refusal number alone, or 65,536 * the number of pairs.
 * It changes the list alone: entries past the pairs keep their numbers, and so does a last odd byte. A refused call changes nothing.
 */
uint64_t revosti_list_pairs(uint32_t n, const uint8_t *table, size_t table_len, const uint8_t *marks, size_t marks_len,
                            uint16_t a, uint16_t b, uint16_t c, uint8_t *list, size_t list_len);

/*
 * Marks a sheet where each length is known within limits only, from low to high: whatever a rule takes out counts low, whatever it puts in
 * counts high, and a length that is both counts as each. As revosti_mark_sheet, with its answer, but with these refusals before the lines,
 * in this order: 1; 2, of low and then of high; 5, likewise; 25, a low length above its high one; 6, 20, 7. A call that is refused by one
 * of them changes nothing. Where low and high are equal everywhere it is revosti_mark_sheet.
 */
uint64_t revosti_mark_between(uint32_t n, const uint8_t *low, size_t low_len, const uint8_t *high, size_t high_len,
                              uint8_t *marks, size_t marks_len, const uint8_t *sheet, size_t sheet_len);

/*
 * Lists the pairs that stand where each length is known within limits only: as revosti_list_pairs, with its answer, but with refusals in
 * this order: 1; 2, of low and then of high; 5, likewise; 25; 6; 11, of a, b and c; 12; 18. Where low and high are equal everywhere it is
 * revosti_list_pairs; else every pair that stands over a table between them stands, too.
 */
uint64_t revosti_list_between(uint32_t n, const uint8_t *low, size_t low_len, const uint8_t *high, size_t high_len,
                              const uint8_t *marks, size_t marks_len, uint16_t a, uint16_t b, uint16_t c,
                              uint8_t *list, size_t list_len);

/*
 * Savings: how much a rule takes out less how much it puts in, a signed number. l(ab) is the length of a-b in the table, l(aa) is 0. A
 * rule shuts a case out exactly when its saving is above 0: at 0, a tie, it does not.
 *
 * The three functions refuse in this order: 1, 2, 5; 11, if an edge taken out is none: an end is outside 1 to n, or both are the same.
 * Nothing else is tested. Edges may touch. Whether an edge or a pair lies in some K is the caller's matter.
 * Answer, with a sign: the refusal number alone, or 65,536 * the saving, below 0 too. A saving of 0 is answered by 0: look at
 * revosti_refusal first, then at revosti_saving. They read the table alone and change nothing.
 */

/*
 * The saving of exchanging p-q and x-y (2-opt): their sum less the larger of the two exchanges,
 *
 *   l(pq) + l(xy) - max(l(px) + l(qy), l(py) + l(qx)).
 *
 * The edges taken out are p-q and x-y. It is above 0 exactly when the two edges are not compatible: no shortest tour has both.
 */
int64_t revosti_exchange_saving(uint32_t n, const uint8_t *table, size_t table_len, uint16_t p, uint16_t q, uint16_t x, uint16_t y);

/*
 * The saving of moving the point c from between x and y to between u and v (or-opt): old less new,
 *
 *   (l(uv) + l(xc) + l(yc)) - (l(xy) + l(uc) + l(vc)).
 *
 * The edges taken out are x-c, y-c and u-v. Condition 5 shuts a pair out exactly when this is above 0 for some point c that has two edges,
 * x-c and y-c, in K with the pair, and some edge u-v of that set that does not touch c. The split point is one such c, with the pair as x
 * and y.
 */
int64_t revosti_move_saving(uint32_t n, const uint8_t *table, size_t table_len, uint16_t c, uint16_t x, uint16_t y, uint16_t u, uint16_t v);

/*
 * The saving of the crossing of p-q with the centres r and s (3-opt), x and y the other ends of r, z and w those of s. That of one labelling
 * is the smaller of its two moves,
 *
 *   l(pq) + l(rx) + l(sw) - l(rs) - l(px) - l(qw)    and    l(pq) + l(ry) + l(sz) - l(rs) - l(pz) - l(qy),
 *
 * and that of the crossing is the largest of the four labellings: x and y swapped or not, z and w swapped or not. The edges taken out are
 * p-q, r-x, s-w, r-y and s-z. For a crossing that is not refused by 15, it is above 0 exactly when the crossing settles its case; else
 * that is refused by 16.
 */
int64_t revosti_crossing_saving(uint32_t n, const uint8_t *table, size_t table_len, uint16_t p, uint16_t q, uint16_t r, uint16_t s,
                                uint16_t x, uint16_t y, uint16_t z, uint16_t w);

/*
 * Slips: what a marked sheet came to, for examiner and candidate. A slip is one number, the answer of revosti_mark_sheet (or
 * revosti_ask_sheet, or revosti_mark_between) as it is: refusal number or 0 in bits 0 to 7, record in 8 to 23, lines accepted in 24 to 39.
 * Bit 40 is set once it is released; in such an answer it is 0. Every number is a slip: bits 41 to 63 are ignored, and kept.
 *
 *   byte   the examiner sees             the candidate sees until release
 *   0      the refusal number, or 0      0, or REVOSTI_STOPPED where there is a refusal
 *   1      released, 0 or 1              0
 *   2, 3   the record                    0
 *   4, 5   the lines                     the lines
 *
 * After release the candidate sees the examiner's bytes. Until then two slips read the same to the candidate exactly when they have the same
 * lines and both sheets stopped or neither did. The examiner's bytes tell every slip from every other, by its bits 0 to 40.
 */

/* Releases a slip: sets bit 40 and keeps every other. Answer: the slip. Releasing twice is releasing once. It refuses nothing. */
uint64_t revosti_release(uint64_t slip);

/*
 * Writes what the examiner sees, and what the candidate sees, to the first six bytes. Refusal: 22, fewer than six bytes are lent. Answer:
 * the refusal number, or 0. Bytes past the six stay, and a refused call changes nothing.
 */
uint64_t revosti_examiner_view(uint64_t slip, uint8_t *bytes, size_t bytes_len);
uint64_t revosti_candidate_view(uint64_t slip, uint8_t *bytes, size_t bytes_len);

/*
 * The wall list: a line for each edge, in the order of edges, on pages of REVOSTI_PAGE_LINES lines, the last with what is left. Pages are
 * numbered from 1; revosti_page_count gives how many there are, at most 269.
 *
 *   columns   1 to 3  5 to 7  9 to 15  17 to 24
 *   hold      lower   higher  length   open, pending or struck
 *
 * Numbers are right-aligned without leading zeros, the word begins in column 17, blanks stand elsewhere, and a newline ends the line.
 */

/*
 * Writes a page to the front of the text. Refusals in this order: 1, 2, 5, 6, 26; 22, the text is lent fewer bytes than the page has.
 * Answer: the refusal number alone, or 65,536 * the page's length in bytes, which revosti_page_bytes takes out. It changes the text alone:
 * bytes past the page stay, and a refused call changes nothing.
 */
uint64_t revosti_write_page(uint32_t n, const uint8_t *table, size_t table_len, const uint8_t *marks, size_t marks_len, uint32_t page,
                            uint8_t *text, size_t text_len);

/*
 * Reads a page into a table and marks: sets the lengths and the marks of its edges, and no other. Refusals in this order: 1; 2, of the
 * table; 6; 26; 27, if the text is not exactly a page as revosti_write_page writes it, with lengths up to REVOSTI_MOST_LENGTH and any
 * marks. Other edges' lengths are not tested. Answer: 27 + 256 * line, another refusal number, or 0; revosti_wrong_line takes the line out.
 * It is counted from 1: the first that is wrong or missing (cut, or without its newline), or one past the last where something follows
 * it. A refused call changes nothing. Reading all pages of an instance, one after the other, yields its lengths and its marks.
 * A page is taken at its word and may strike any edge: a set that is read from pages keeps shortest tours open if the set that they were
 * written from does.
 */
uint64_t revosti_read_page(uint32_t n, uint32_t page, const uint8_t *text, size_t text_len, uint8_t *table, size_t table_len,
                           uint8_t *marks, size_t marks_len);

/*
 * Eight desks, 1 to REVOSTI_DESKS: candidates hand in sheets over one table, each with marks of their own, and each turn marks one line.
 *
 *   open      revosti_open_desks: no desk has a line left, and none was served.
 *   hand in   revosti_hand_in tests a sheet as marking does; its first line waits. While a desk has a line left, it takes no other (29).
 *   next      revosti_next_desk tells the desk that the next turn serves, so whose table, marks and sheet to lend: the next after the last
 *             served, counting upward and round again, that has a line left.
 *   turn      revosti_turn marks one line of that desk and tells its verdict so far. A desk with a line left is served within eight turns.
 *   end       a desk with no line left has the answer and the marks of revosti_mark_sheet, whatever others did, and may hand in again.
 *
 * The last two hold if only these functions alter the desks' state, and nothing but turns alters the desk's n, table, marks or sheet.
 */

/* Opens the desks: the first 50 bytes become 0. Refusal: 22, fewer are lent. Answer: the refusal number, or 0. */
uint64_t revosti_open_desks(uint8_t *desks, size_t desks_len);

/*
 * Hands in a sheet at a desk. Refusals in this order: 22; 28; 29; then those of revosti_mark_sheet before its lines, 1, 2, 5, 6, 20, 7.
 * Answer: the refusal number, or 0. It changes the desk's part of the state alone, and a refused call nothing. The table, the marks and the
 * sheet are not kept: a turn is lent them again.
 */
uint64_t revosti_hand_in(uint8_t *desks, size_t desks_len, uint32_t desk, uint32_t n, const uint8_t *table, size_t table_len,
                         const uint8_t *marks, size_t marks_len, const uint8_t *sheet, size_t sheet_len);

/* The desk that the next turn serves. Refusal: 22. Answer: 22, or 65,536 * the desk, 0 where no desk has a line left. It changes nothing. */
uint64_t revosti_next_desk(const uint8_t *desks, size_t desks_len);

/*
 * One turn: marks one line of the desk that revosti_next_desk tells, whose table, marks and sheet are lent. Answer: 22; 0 where no desk has
 * a line left, and nothing changes; else the answer of revosti_mark_sheet so far, plus 2^48 * the desk, plus 2^56 if it has a line left.
 * While one is left, refusal and record are 0. Each of these ends the desk's sheet: one of the tests 1, 2, 5, 6, 20, 7, which are repeated
 * (record 0, and no mark changes); a refusal of the line; and, in the turn of the line that has it, a next index refused by 8 or 9, or 0.
 * The desk counts as served whatever comes of it. It changes the desk's part of the state and the marks lent, and nothing of other desks.
 * The answer is a slip, not released.
 */
uint64_t revosti_turn(uint8_t *desks, size_t desks_len, uint32_t n, const uint8_t *table, size_t table_len, uint8_t *marks, size_t marks_len,
                      const uint8_t *sheet, size_t sheet_len);

/*
 * Tells the reasons of a line in words: for each pair x, y at its split point c, x below y, both not c, in pair order, why the pair does
 * not stand, or how its case is closed. Each sentence is a line of text of at most REVOSTI_SENTENCE_BYTES bytes, its newline among them;
 * edges have their lower point first, and a saving is above 0:
 *
 *   Struck edge 3-5 shuts out 3 and 8 as neighbours of 5.
 *   Third edge at 5 shuts out 3 and 8 as neighbours of 5.
 *   Loop 1-2-5 shuts out 1 and 2 as neighbours of 5.
 *   Exchanging 3-5 and 1-2 saves 12 and shuts out 3 and 8 as neighbours of 5.
 *   Moving 5 between 1 and 2 saves 7 and shuts out 3 and 8 as neighbours of 5.
 *   Further split at 9 settles 3 and 8 as neighbours of 5.
 *
 * The first test of the rules that fails is told, and in it the lowest point or the lowest edge. A standing pair of an accepted line is
 * always settled by a further split: at a first split no crossing meets its conditions, and a new order that saves is a moved point.
 *
 * The line is the record with this number, the marks are those from before it, a pending edge read as struck; the line counts as the
 * first entered, and its next index is not read. Refusals in this order: 1, 2, 5, 6, 7; 8 with record 0, the record number is 0 or above
 * the record count; those of the line, as revosti_mark_sheet has them, 8 to 16, 23 and 24 with their records; 22 last, the text is lent
 * fewer bytes than the sentences have. Answer: refusal number + 256 * record; or 65,536 * the text's length: look at revosti_refusal
 * first, then at revosti_record or revosti_told_bytes. It changes the text alone: bytes past the sentences stay, and a refused call changes
 * nothing. A text of revosti_told_size(n) bytes always holds them.
 */
uint64_t revosti_tell_line(uint32_t n, const uint8_t *table, size_t table_len, const uint8_t *marks, size_t marks_len,
                           const uint8_t *sheet, size_t sheet_len, uint32_t record, uint8_t *text, size_t text_len);

/*
 * The parts of an answer, and of a slip. revosti_points is that of a TSPLIB text which is read, revosti_text_line the line of a refusal 19
 * (of any other refusal of such a text it is 0). revosti_refusal takes that of a saving, too: made a uint64_t it keeps its lowest byte,
 * which is 0 where the saving is below 0. revosti_saving is exact, since such an answer is a multiple of 65,536; of a refusal it is 0.
 * revosti_next is that of revosti_next_desk; revosti_desk and revosti_line_left, with the first three, those of revosti_turn.
 * revosti_told_bytes is that of revosti_tell_line where it is not refused.
 */
static inline unsigned revosti_refusal(uint64_t answer) { return (unsigned)(answer & 0xff); }
static inline unsigned revosti_record(uint64_t answer) { return (unsigned)(answer >> 8 & 0xffff); }
static inline unsigned revosti_lines(uint64_t answer) { return (unsigned)(answer >> 24 & 0xffff); }
static inline int revosti_is_released(uint64_t slip) { return (int)(slip >> 40 & 1); }
static inline size_t revosti_pairs(uint64_t answer) { return (size_t)(answer >> 16); }
static inline uint64_t revosti_tour_length(uint64_t answer) { return answer >> 16; }
static inline int revosti_tour_open(uint64_t answer) { return (int)(answer >> 8 & 1); }
static inline uint32_t revosti_points(uint64_t answer) { return (uint32_t)(answer >> 16); }
static inline uint64_t revosti_text_line(uint64_t answer) { return answer >> 8; }
static inline size_t revosti_page_bytes(uint64_t answer) { return (size_t)(answer >> 16); }
static inline unsigned revosti_wrong_line(uint64_t answer) { return (unsigned)(answer >> 8 & 0xff); }
static inline size_t revosti_told_bytes(uint64_t answer) { return (size_t)(answer >> 16); }
static inline unsigned revosti_next(uint64_t answer) { return (unsigned)(answer >> 16); }
static inline unsigned revosti_desk(uint64_t answer) { return (unsigned)(answer >> 48 & 0xff); }
static inline int revosti_line_left(uint64_t answer) { return (int)(answer >> 56 & 1); }
static inline int64_t revosti_saving(int64_t answer) { return answer / 65536; }

/* How many edges n points have, and the place of the edge a-b (a and b different, in either order). */
static inline size_t revosti_edges(uint32_t n) { return (size_t)n * (n - 1) / 2; }
static inline size_t revosti_place(uint32_t n, uint32_t a, uint32_t b)
{
    uint32_t low = a < b ? a : b, high = a < b ? b : a;
    return (size_t)(low - 1) * (2 * n - low) / 2 + (high - low - 1);
}

/* How many pages the wall list of n points has. */
static inline uint32_t revosti_page_count(uint32_t n)
{
    return (uint32_t)((revosti_edges(n) + REVOSTI_PAGE_LINES - 1) / REVOSTI_PAGE_LINES);
}

/* How many bytes hold the sentences of a line of n points, whichever they are: so many for each pair of points beside the split point. */
static inline size_t revosti_told_size(uint32_t n) { return (size_t)REVOSTI_SENTENCE_BYTES * ((size_t)(n - 1) * (n - 2) / 2); }

/* How many bytes the packed set of n points has, and the mark of the edge a-b in one (a and b different, from 1 to n, in either order). */
static inline size_t revosti_marks_size(uint32_t n) { return (revosti_edges(n) + 3) / 4; }
static inline unsigned revosti_mark_of(uint32_t n, const uint8_t *marks, uint32_t a, uint32_t b)
{
    size_t place = revosti_place(n, a, b);
    return (unsigned)marks[place / 4] >> 2 * (place % 4) & 3;
}

#ifdef __cplusplus
}
#endif

#endif
