/*
 * The fuzzing target over the functions for C. An input is a file of the program `mark`: rule, n, coordinates, records. Its last
 * 16 bytes are read as the eight points of a saving, too, its last 8 as a slip, its last 4 as damage to a page and as the
 * number of a record whose line is told, its last 56 or fewer as the state of eight desks, and all of it as a TSPLIB text.
 *
 * Every buffer ends at a page that must not be touched, so a read or write past its end is a crash. The archive carries no
 * instrumentation; instead what a call answers (refusal, record, lines, strikes) is written into AFL's map, so that inputs with a new
 * outcome are kept and go on from there. A broken promise aborts.
 */
#include <stdio.h>
#include <stdlib.h>
#include <string.h>
#include <sys/mman.h>
#include <unistd.h>

#include "revosti.h"

void __afl_coverage_interesting(unsigned char value, unsigned int id);
__AFL_FUZZ_INIT()

enum { PAGE = 4096, MOST = 1 << 17, MOST_EDGES = 16110 };

/* A buffer whose last byte stands in front of a page that cannot be touched. */
static uint8_t *guarded(void)
{
    uint8_t *at = mmap(NULL, MOST + PAGE, PROT_READ | PROT_WRITE, MAP_PRIVATE | MAP_ANONYMOUS, -1, 0);
    if (at == MAP_FAILED || mprotect(at + MOST, PAGE, PROT_NONE) != 0) _exit(2);
    return at + MOST;
}

static uint8_t *table_end, *marks_end, *sheet_end, *tour_end, *list_end, *measured_end, *asked_end, *settled_end, *other_list_end;
static uint8_t *bytes_end, *packed_end, *view_end, *high_end, *text_end, *desks_end, *told_end;

static unsigned get16(const uint8_t *at) { return at[0] | (unsigned)at[1] << 8; }
static uint32_t get32(const uint8_t *at) { return at[0] | (uint32_t)at[1] << 8 | (uint32_t)at[2] << 16 | (uint32_t)at[3] << 24; }
static uint64_t get64(const uint8_t *at) { return get32(at) | (uint64_t)get32(at + 4) << 32; }

static void promise(int kept, const char *what)
{
    if (kept) return;
    fprintf(stderr, "broken: %s\n", what);
    abort();
}

/* What was seen, hashed into AFL's map. */
static void seen(unsigned kind, unsigned a, unsigned b)
{
    uint32_t hash = kind * 0x9e3779b1u ^ a * 0x85ebca77u ^ b * 0xc2b2ae3du;
    __afl_coverage_interesting(1, (hash ^ hash >> 15) & 0x7fff);
}

/* Any length will do here: the distance's bits, so that ties and broken triangles occur. */
static uint32_t length(const uint8_t *coordinates, uint32_t a, uint32_t b)
{
    uint64_t x = (uint64_t)get32(coordinates + 8 * (a - 1)) + get32(coordinates + 8 * (b - 1));
    uint64_t y = (uint64_t)get32(coordinates + 8 * (a - 1) + 4) ^ get32(coordinates + 8 * (b - 1) + 4);
    return (uint32_t)((x * 31 + y * 17) % 2000003);
}

/* The bytes of a packed set, the mark of an edge in it, and the bits of a byte of it that hold marks. */
static size_t packed(size_t edges) { return (edges + 3) / 4; }
static uint8_t mark_of(const uint8_t *marks, size_t edge) { return marks[edge / 4] >> 2 * (edge % 4) & 3; }
static uint8_t used(size_t edges, size_t at) { return at == edges / 4 ? (uint8_t)((1 << 2 * (edges % 4)) - 1) : 0xff; }

static unsigned count(const uint8_t *marks, size_t edges, uint8_t mark)
{
    unsigned count = 0;
    for (size_t i = 0; i < edges; i++) count += mark_of(marks, i) == mark;
    return count;
}

/* What test 6 of a packed set answers. */
static uint64_t test_6(uint32_t n, const uint8_t *marks, size_t len)
{
    size_t edges = revosti_edges(n);
    if (len != packed(edges) || marks[len - 1] & ~used(edges, len - 1)) return REVOSTI_MARKS;
    return count(marks, edges, 3) ? REVOSTI_MARKS : 0;
}

static int no_points(uint32_t n) { return n < REVOSTI_LEAST_POINTS || n > REVOSTI_MOST_POINTS; }

/* Marks that marking or asking left of fresh ones: two open edges at every point, and n in all. */
static void enough_open(uint32_t n, const uint8_t *marks, size_t edges)
{
    promise(count(marks, edges, REVOSTI_OPEN) >= n, "n edges are open");
    for (uint32_t a = 1; a <= n; a++) {
        unsigned open = 0;
        for (uint32_t b = 1; b <= n; b++) open += b != a && mark_of(marks, revosti_place(n, a, b)) == REVOSTI_OPEN;
        promise(open >= 2, "two open edges at every point");
    }
}

/* Unpacks into old bytes, which stay where the call is refused. */
static uint64_t try_unpack(uint32_t n, const uint8_t *marks, size_t len, uint8_t *bytes, size_t edges)
{
    uint64_t number = no_points(n) ? REVOSTI_POINTS : edges != revosti_edges(n) ? REVOSTI_MARKS : test_6(n, marks, len);
    memset(bytes, 0xa5, edges);
    promise(revosti_unpack_marks(n, marks, len, bytes, edges) == number, "1 and 6 of the packed set, or 0");
    for (size_t i = 0; i < edges; i++) promise(bytes[i] == (number ? 0xa5 : mark_of(marks, i)), "the byte set, or the bytes as they were");
    return number;
}

/* The same for packing. */
static uint64_t try_pack(uint32_t n, const uint8_t *bytes, size_t edges, uint8_t *marks, size_t len)
{
    uint64_t number = no_points(n) ? REVOSTI_POINTS : edges != revosti_edges(n) || len != packed(edges) ? REVOSTI_MARKS : 0;
    for (size_t i = 0; i < edges; i++)
        if (number == 0 && bytes[i] > REVOSTI_PENDING) number = REVOSTI_MARKS;
    memset(marks, 0xa5, len);
    promise(revosti_pack_marks(n, bytes, edges, marks, len) == number, "1 and 6 of the byte set, or 0");
    for (size_t i = 0; i < 4 * len; i++)
        promise(number ? marks[i / 4] == 0xa5 : mark_of(marks, i) == (i < edges ? bytes[i] : 0), "the packed set, or the bytes as they were");
    return number;
}

/* There and back, with sets a byte too short, and with a byte of the input in the byte set. */
static void try_convert(uint32_t n, const uint8_t *marks, size_t edges, uint32_t rule)
{
    size_t len = packed(edges);
    if (edges == 0) return;
    uint8_t *bytes = bytes_end - edges, *back = packed_end - len;
    try_unpack(n, marks + 1, len - 1, bytes, edges);
    try_unpack(n, marks, len, bytes + 1, edges - 1);
    uint64_t number = try_unpack(n, marks, len, bytes, edges);
    if (number == 0) {
        promise(try_pack(n, bytes, edges, back, len) == 0 && memcmp(back, marks, len) == 0, "unpacked and packed is as before");
        try_pack(n, bytes + 1, edges - 1, back, len);
        try_pack(n, bytes, edges, back + 1, len - 1);
    }
    bytes[rule % edges] = (uint8_t)(rule >> 8);
    seen(9, (unsigned)number, (unsigned)try_pack(n, bytes, edges, back, len));
}

static void try_tour(uint32_t n, const uint8_t *table, size_t table_len, const uint8_t *marks, size_t edges)
{
    uint8_t *tour = tour_end - 2 * n;
    for (uint32_t i = 0; i < n; i++) tour[2 * i] = (uint8_t)(i + 1), tour[2 * i + 1] = 0;
    uint64_t answer = revosti_check_tour(n, table, table_len, marks, packed(edges), tour, 2 * n);
    promise(revosti_refusal(answer) != REVOSTI_TOUR, "1, 2, .., n is a tour");
    seen(3, revosti_refusal(answer), (unsigned)revosti_tour_open(answer));
    tour[0] = tour[2];
    answer = revosti_check_tour(n, table, table_len, marks, packed(edges), tour, 2 * n);
    promise(answer != 0 && answer <= REVOSTI_TOUR, "a point twice is no tour");
}

/* Lists into a list of some length, odd ones too: nothing past the pairs is written, and nothing where the call is refused. */
static void try_list(uint32_t n, const uint8_t *table, size_t table_len, const uint8_t *marks, size_t edges, uint32_t rule)
{
    uint16_t a = (uint16_t)(rule >> 8 & 0xff), b = (uint16_t)(rule >> 16 & 0xff), c = (uint16_t)(rule >> 24);
    size_t len = rule % 3 == 2 ? rule % 101 : 4 * edges + rule % 3;
    uint8_t *list = list_end - len;
    memset(list, 0xa5, len);
    uint64_t answer = revosti_list_pairs(n, table, table_len, marks, packed(edges), a, b, c, list, len);
    size_t written = 4 * (size_t)revosti_pairs(answer);
    promise(answer <= REVOSTI_LIST || answer % 65536 == 0, "a refusal number, or pairs");
    promise(written <= len, "the pairs fit");
    for (size_t i = written; i < len; i++) promise(list[i] == 0xa5, "bytes past the pairs stay");
    seen(4, revosti_refusal(answer), (unsigned)(written / 4));
}

static uint64_t apart(uint32_t a, uint32_t b) { return a < b ? b - a : a - b; }

/* Whether d is the distance by the rule of the points at a and b. A number outside 1 to 5 is no rule. */
static int is_distance(uint32_t rule, uint64_t d, const uint8_t *a, const uint8_t *b)
{
    uint64_t dx = apart(get32(a), get32(b)), dy = apart(get32(a + 4), get32(b + 4)), s = dx * dx + dy * dy;
    switch (rule) {
    case 1: return 4 * s < (2 * d + 1) * (2 * d + 1) && (d == 0 || (2 * d - 1) * (2 * d - 1) <= 4 * s);
    case 2: return d * d >= s && (d == 0 || (d - 1) * (d - 1) < s);
    case 3: return 10 * d * d >= s && (d == 0 || 10 * (d - 1) * (d - 1) < s);
    case 4: return d == dx + dy;
    case 5: return d == (dx > dy ? dx : dy);
    default: return 0;
    }
}

/* Measures into a table of old bytes, which stay where the call is refused; otherwise each length is the rule's distance. */
static void try_measure(uint32_t n, uint32_t rule, const uint8_t *coordinates, size_t points, size_t edges)
{
    size_t len = 4 * edges + (rule >> 8 & 1), from = 8 * points - (rule >> 9 & 1 && points ? rule >> 10 & 3 : 0);
    uint8_t *measured = measured_end - len;
    memset(measured, 0xa5, len);
    uint32_t number = rule >> 12 & 1 ? rule : rule & 0xff;
    uint64_t answer = revosti_measure(n, number, coordinates, from, measured, len);
    promise(answer <= REVOSTI_COORDINATE, "a refusal number or 0");
    promise(answer != REVOSTI_RULE || number < 1 || number > 5, "rules 1 to 5 are not refused");
    for (size_t i = 0; i < len; i++)
        promise(answer == 0 ? i % 4 != 3 || measured[i] == 0 : measured[i] == 0xa5, "lengths below 2^24, or the bytes as they were");
    for (uint32_t a = 1; answer == 0 && a < n; a++)
        for (uint32_t b = a + 1; b <= n; b++, measured += 4)
            promise(is_distance(number, get32(measured), coordinates + 8 * (a - 1), coordinates + 8 * (b - 1)), "the rule's distance");
    seen(5, (unsigned)answer, answer == 0 ? number : 0);
}

/* What confirming and withdrawing answer: 1, 6, 21, or 0. */
static uint64_t settling(uint32_t n, const uint8_t *marks, size_t len)
{
    if (no_points(n)) return REVOSTI_POINTS;
    if (test_6(n, marks, len)) return REVOSTI_MARKS;
    return count(marks, revosti_edges(n), REVOSTI_PENDING) ? 0 : REVOSTI_NOTHING_PENDING;
}

/* Confirms or withdraws on a copy, which is left in front of settled_end: pending marks become so, and no others change. */
static void try_settle(uint32_t n, const uint8_t *marks, size_t edges, uint8_t settled,
                       uint64_t (*settle)(uint32_t, uint8_t *, size_t))
{
    size_t len = packed(edges);
    uint8_t *copy = settled_end - len;
    memcpy(copy, marks, len);
    uint64_t number = settling(n, marks, len);
    promise(settle(n, copy, len) == number, "1, 6 and 21, or 0");
    for (size_t i = 0; i < 4 * len; i++) {
        uint8_t mark = mark_of(marks, i);
        promise(mark_of(copy, i) == (number == 0 && mark == REVOSTI_PENDING ? settled : mark), "pending marks become so, and no others change");
    }
    promise(settle(n, copy, len) == (number ? number : REVOSTI_NOTHING_PENDING), "nothing is pending any more");
    if (len) promise(settle(n, copy + 1, len - 1) == settling(n, copy + 1, len - 1), "a byte too few");
    seen(6, (unsigned)number, settled);
}

/* The list counts pending edges as open: over marks that were asked it is as over those from before. */
static void try_same_list(uint32_t n, const uint8_t *table, const uint8_t *before, const uint8_t *asked, size_t edges,
                          uint16_t a, uint16_t b, uint16_t c)
{
    size_t len = 4 * edges;
    uint8_t *list = list_end - len, *other = other_list_end - len;
    memset(list, 0xa5, len), memset(other, 0xa5, len);
    uint64_t answer = revosti_list_pairs(n, table, len, asked, packed(edges), a, b, c, list, len);
    promise(answer == revosti_list_pairs(n, table, len, before, packed(edges), a, b, c, other, len), "pending edges are listed as open ones");
    promise(memcmp(list, other, len) == 0, "pairs with pending edges stand");
    seen(7, revosti_refusal(answer), (unsigned)revosti_pairs(answer));
}

/* The same for a tour of the points at order. */
static void try_same_tour(uint32_t n, const uint8_t *table, const uint8_t *before, const uint8_t *asked, size_t edges,
                          const uint16_t *order)
{
    uint8_t *tour = tour_end - 2 * n;
    for (uint32_t i = 0; i < n; i++) tour[2 * i] = (uint8_t)order[i], tour[2 * i + 1] = 0;
    uint64_t answer = revosti_check_tour(n, table, 4 * edges, asked, packed(edges), tour, 2 * n);
    promise(answer == revosti_check_tour(n, table, 4 * edges, before, packed(edges), tour, 2 * n), "pending edges of a tour are open");
    seen(8, revosti_refusal(answer), (unsigned)revosti_tour_open(answer));
}

/* Looks at the last pending edge: lists for it, lists with it as a leg, and a tour through it. */
static void try_looks(uint32_t n, const uint8_t *table, const uint8_t *before, const uint8_t *asked, size_t edges, uint32_t rule)
{
    static uint16_t order[REVOSTI_MOST_POINTS];
    uint16_t a = 1, b = 2, points = 2;
    for (uint16_t i = 1; i < n; i++)
        for (uint16_t j = (uint16_t)(i + 1); j <= n; j++)
            if (mark_of(asked, revosti_place(n, i, j)) == REVOSTI_PENDING) a = i, b = j;
    order[0] = a, order[1] = b;
    for (uint16_t i = 1; i <= n; i++)
        if (i != a && i != b) order[points++] = i;
    try_same_list(n, table, before, asked, edges, a, b, (uint16_t)((rule >> 24) % n + 1));
    try_same_list(n, table, before, asked, edges, order[2], order[3], a);
    try_same_tour(n, table, before, asked, edges, order);
}

/* Asks what was marked, from the marks before it: the same answer, the strikes pending; then confirms and withdraws. */
static void try_ask(uint32_t n, const uint8_t *table, size_t table_len, const uint8_t *before, const uint8_t *marked, size_t edges,
                    const uint8_t *sheet, size_t sheet_len, uint64_t answer)
{
    size_t len = packed(edges);
    uint8_t *asked = asked_end - len, *copy = settled_end - len;
    memcpy(asked, before, len);
    promise(revosti_ask_sheet(n, table, table_len, asked, len, sheet, sheet_len) == answer, "asking answers as marking");
    for (size_t i = 0; i < 4 * len; i++) {
        uint8_t mark = mark_of(before, i);
        promise(mark_of(asked, i) == (mark_of(marked, i) == mark ? mark : REVOSTI_PENDING), "the strikes of an asked sheet are pending");
    }
    int none = count(before, edges, REVOSTI_PENDING) == 0;
    try_settle(n, asked, edges, REVOSTI_STRUCK, revosti_confirm);
    if (none) promise(memcmp(copy, marked, len) == 0, "asked and confirmed is marked");
    try_settle(n, asked, edges, REVOSTI_OPEN, revosti_withdraw);
    if (none) promise(memcmp(copy, before, len) == 0, "asked and withdrawn is as before");
    if (revosti_lines(answer) == 0) return;
    memcpy(copy, asked, len);
    answer = revosti_mark_sheet(n, table, table_len, copy, len, sheet, sheet_len);
    promise(answer == REVOSTI_SOMETHING_PENDING, "nothing is marked while something is pending");
    answer = revosti_ask_sheet(n, table, table_len, copy, len, sheet, 0);
    promise(answer == REVOSTI_SOMETHING_PENDING, "nor asked, and 20 is before 7");
    promise(memcmp(copy, asked, len) == 0, "20 changes no mark");
}

/* The length between two points, 0 from a point to itself. */
static int64_t between(uint32_t n, const uint8_t *table, uint32_t a, uint32_t b)
{
    return a == b ? 0 : get32(table + 4 * revosti_place(n, a, b));
}

/* What tests 1, 2, 5 and 11 of a saving answer. The edges taken out are given by their ends. */
static int64_t test_saving(uint32_t n, const uint8_t *table, size_t len, const uint16_t (*out)[2], size_t edges)
{
    if (no_points(n)) return REVOSTI_POINTS;
    if (len != 4 * revosti_edges(n)) return REVOSTI_SIZE;
    for (size_t i = 0; i < len; i += 4)
        if (get32(table + i) > REVOSTI_MOST_LENGTH) return REVOSTI_LENGTH;
    for (size_t i = 0; i < edges; i++)
        if (out[i][0] < 1 || out[i][0] > n || out[i][1] < 1 || out[i][1] > n || out[i][0] == out[i][1]) return REVOSTI_POINT;
    return 0;
}

static int64_t smaller(int64_t a, int64_t b) { return a < b ? a : b; }
static int64_t larger(int64_t a, int64_t b) { return a < b ? b : a; }

/* An answer that is the refusal number, or 65,536 times the saving. */
static void saved(unsigned kind, int64_t answer, int64_t refusal, int64_t saving)
{
    promise(answer == (refusal ? refusal : 65536 * saving), "the saving, or its refusal");
    seen(kind, (unsigned)refusal, refusal ? 0 : (unsigned)((saving > 0) - (saving < 0)));
}

#define L(a, b) between(n, table, a, b)

static void try_exchange(uint32_t n, const uint8_t *table, size_t len, uint16_t p, uint16_t q, uint16_t x, uint16_t y)
{
    const uint16_t out[][2] = {{p, q}, {x, y}};
    int64_t refusal = test_saving(n, table, len, out, 2);
    saved(10, revosti_exchange_saving(n, table, len, p, q, x, y), refusal,
          refusal ? 0 : L(p, q) + L(x, y) - larger(L(p, x) + L(q, y), L(p, y) + L(q, x)));
}

static void try_move(uint32_t n, const uint8_t *table, size_t len, uint16_t c, uint16_t x, uint16_t y, uint16_t u, uint16_t v)
{
    const uint16_t out[][2] = {{x, c}, {y, c}, {u, v}};
    int64_t refusal = test_saving(n, table, len, out, 3);
    saved(11, revosti_move_saving(n, table, len, c, x, y, u, v), refusal,
          refusal ? 0 : L(u, v) + L(x, c) + L(y, c) - L(x, y) - L(u, c) - L(v, c));
}

/* The saving of one labelling of a crossing. */
static int64_t labelling(uint32_t n, const uint8_t *table, const uint16_t *pqrs, uint16_t x, uint16_t y, uint16_t z, uint16_t w)
{
    uint16_t p = pqrs[0], q = pqrs[1], r = pqrs[2], s = pqrs[3];
    return L(p, q) - L(r, s) + smaller(L(r, x) + L(s, w) - L(p, x) - L(q, w), L(r, y) + L(s, z) - L(p, z) - L(q, y));
}

static void try_crossing(uint32_t n, const uint8_t *table, size_t len, const uint16_t *pqrs, const uint16_t *ends)
{
    uint16_t p = pqrs[0], q = pqrs[1], r = pqrs[2], s = pqrs[3], x = ends[0], y = ends[1], z = ends[2], w = ends[3];
    const uint16_t out[][2] = {{p, q}, {r, x}, {s, w}, {r, y}, {s, z}};
    int64_t refusal = test_saving(n, table, len, out, 5), best = 0;
    if (!refusal)
        best = larger(larger(labelling(n, table, pqrs, x, y, z, w), labelling(n, table, pqrs, x, y, w, z)),
                      larger(labelling(n, table, pqrs, y, x, z, w), labelling(n, table, pqrs, y, x, w, z)));
    saved(12, revosti_crossing_saving(n, table, len, p, q, r, s, x, y, z, w), refusal, best);
}

/* All three savings of the first of eight points. */
static void try_three(uint32_t n, const uint8_t *table, size_t len, const uint16_t *v)
{
    try_exchange(n, table, len, v[0], v[1], v[2], v[3]);
    try_move(n, table, len, v[0], v[1], v[2], v[3], v[4]);
    try_crossing(n, table, len, v, v + 4);
}

/* Savings of eight 16-bit points as they are, then brought to 1 to n, also with a table a byte too short. */
static void try_savings(uint32_t n, const uint8_t *table, size_t len, const uint8_t *points)
{
    uint16_t v[8];
    for (int i = 0; i < 8; i++) v[i] = (uint16_t)(points[2 * i] | points[2 * i + 1] << 8);
    try_three(n, table, len, v);
    for (int i = 0; n && i < 8; i++) v[i] = (uint16_t)(v[i] % n + 1);
    try_three(n, table, len, v);
    if (len) try_three(n, table + 1, len - 1, v);
}

/* A view of a slip in so many bytes: the six that are due, and the others as they were; or 22, and all of them. */
static void try_view(uint64_t slip, size_t len, int hides, uint64_t (*look)(uint64_t, uint8_t *, size_t))
{
    unsigned refusal = revosti_refusal(slip), record = hides ? 0 : revosti_record(slip), lines = revosti_lines(slip);
    uint8_t *view = view_end - len, due[REVOSTI_VIEW_BYTES];
    due[0] = (uint8_t)(hides && refusal ? REVOSTI_STOPPED : refusal), due[1] = (uint8_t)(slip >> 40 & 1);
    due[2] = (uint8_t)record, due[3] = (uint8_t)(record >> 8), due[4] = (uint8_t)lines, due[5] = (uint8_t)(lines >> 8);
    uint64_t number = len < sizeof due ? REVOSTI_BUFFER : 0;
    memset(view, 0xa5, len);
    promise(look(slip, view, len) == number, "22, or 0");
    for (size_t i = 0; i < len; i++) promise(view[i] == (number == 0 && i < sizeof due ? due[i] : 0xa5), "the view, or the bytes as they were");
    seen(13, (unsigned)number, (refusal != 0) + 2u * (unsigned)(slip >> 40 & 1) + 4u * (unsigned)hides);
}

/* A slip before and after its release, in so many bytes. */
static void try_slip(uint64_t slip, size_t len)
{
    uint64_t released = slip | (uint64_t)1 << 40;
    promise(revosti_release(slip) == released && revosti_release(released) == released, "bit 40 is set, and every other stays");
    try_view(slip, len, 0, revosti_examiner_view);
    try_view(slip, len, slip != released, revosti_candidate_view);
    try_view(released, len, 0, revosti_examiner_view);
    try_view(released, len, 0, revosti_candidate_view);
}

/* Low and high lengths. */
struct limits {
    uint32_t n;
    const uint8_t *low, *high;
    size_t low_len, high_len;
};

/* What tests 1, 2, 5 and 25 answer. */
static uint64_t test_limits(struct limits l)
{
    if (no_points(l.n)) return REVOSTI_POINTS;
    size_t len = 4 * revosti_edges(l.n);
    if (l.low_len != len || l.high_len != len) return REVOSTI_SIZE;
    for (size_t i = 0; i < len; i += 4)
        if (get32(l.low + i) > REVOSTI_MOST_LENGTH || get32(l.high + i) > REVOSTI_MOST_LENGTH) return REVOSTI_LENGTH;
    for (size_t i = 0; i < len; i += 4)
        if (get32(l.low + i) > get32(l.high + i)) return REVOSTI_LIMITS;
    return 0;
}

/* And those of listing: 6, 11, 12. */
static uint64_t test_listing(struct limits l, const uint8_t *marks, size_t len, const uint16_t *abc)
{
    uint64_t number = test_limits(l);
    if (number) return number;
    if (test_6(l.n, marks, len)) return REVOSTI_MARKS;
    for (int i = 0; i < 3; i++)
        if (abc[i] == 0 || abc[i] > l.n) return REVOSTI_POINT;
    if (abc[0] == abc[1]) return REVOSTI_POINT;
    return mark_of(marks, revosti_place(l.n, abc[0], abc[1])) == REVOSTI_STRUCK ? REVOSTI_EDGE_STRUCK : 0;
}

/* Or those of marking before any record: 6, 20, 7. */
static uint64_t test_marking(struct limits l, const uint8_t *marks, size_t len, size_t sheet_len)
{
    uint64_t number = test_limits(l);
    if (number) return number;
    if (test_6(l.n, marks, len)) return REVOSTI_MARKS;
    if (count(marks, revosti_edges(l.n), REVOSTI_PENDING)) return REVOSTI_SOMETHING_PENDING;
    return sheet_len == 0 || sheet_len % 16 || sheet_len > 16 * REVOSTI_MOST_RECORDS ? REVOSTI_SHEET : 0;
}

/* High lengths: the low ones and up to the rule's width more; by some rules one of them is below the low one, or above its limit. */
static struct limits some_limits(uint32_t n, const uint8_t *table, size_t len, uint32_t rule)
{
    static const uint32_t widths[] = {0, 1, 1, 3, 40, 1000, 100000, REVOSTI_MOST_LENGTH};
    uint8_t *high = high_end - len;
    uint32_t width = widths[rule >> 5 & 7], hash = rule | 1;
    for (size_t i = 0; i + 4 <= len; i += 4) {
        hash = hash * 0x9e3779b1u + 0x7f4a7c15u;
        uint32_t low = get32(table + i), l = low + (hash >> 8) % (width + 1);
        if (l > REVOSTI_MOST_LENGTH && low <= REVOSTI_MOST_LENGTH) l = REVOSTI_MOST_LENGTH;
        if (rule % 11 == 9 && i / 4 == rule / 11 % (len / 4)) l = rule % 2 ? low - 1 : REVOSTI_MOST_LENGTH + 1;
        high[i] = (uint8_t)l, high[i + 1] = (uint8_t)(l >> 8), high[i + 2] = (uint8_t)(l >> 16), high[i + 3] = (uint8_t)(l >> 24);
    }
    size_t cut = rule % 13 == 12 && len > 4 ? 1 + (rule >> 4 & 3) : 0;
    return (struct limits){n, table, high + cut, len, len - cut};
}

/* The refusals of records: 8 to 16, 23 and 24. */
static int of_record(unsigned refusal)
{
    return (refusal >= REVOSTI_INDEX_ABOVE && refusal <= REVOSTI_NO_SAVING) || refusal == REVOSTI_NO_STRETCH || refusal == REVOSTI_NOT_SHORTER;
}

/*
 * The record told is one of the sheet, and that of 23 and 24 has a stretch. What comes of sheets with stretches is written
 * into the map by itself.
 */
static void told_record(unsigned refusal, unsigned record, unsigned lines, const uint8_t *sheet, size_t sheet_len)
{
    promise(record * 16u <= sheet_len, "the record is one of the sheet");
    promise((record != 0) == of_record(refusal), "a record is named exactly by 8 to 16, 23 and 24");
    int stretch = refusal == REVOSTI_NO_STRETCH || refusal == REVOSTI_NOT_SHORTER;
    if (stretch) promise(get16(sheet + 16 * (record - 1)) == REVOSTI_STRETCH, "23 and 24 name a record of kind 4");
    unsigned stretches = 0;
    for (size_t i = 0; i + 16 <= sheet_len; i += 16) stretches += get16(sheet + i) == REVOSTI_STRETCH;
    if (stretches) seen(24, refusal, lines < 60 ? lines : 60);
}

/* Marks over two tables, from the marks before: the slip; the refusals before any record; the parts of the answer, and the strikes. */
static void try_mark_between(struct limits l, const uint8_t *before, size_t edges, const uint8_t *sheet, size_t sheet_len, uint32_t rule)
{
    size_t len = packed(edges);
    uint8_t *marks = settled_end - len;
    memcpy(marks, before, len);
    uint64_t number = test_marking(l, before, len, sheet_len);
    uint64_t answer = revosti_mark_between(l.n, l.low, l.low_len, l.high, l.high_len, marks, len, sheet, sheet_len);
    unsigned refusal = revosti_refusal(answer), record = revosti_record(answer), lines = revosti_lines(answer);
    seen(14, refusal, lines < 60 ? lines : 60);
    try_slip(answer, 5 + rule % 3);
    if (number) {
        promise(answer == number && memcmp(before, marks, len) == 0, "1, 2, 5, 25, 6, 20, 7 of two tables, and no mark changed");
        return;
    }
    promise((refusal == 0 || of_record(refusal)) && answer >> 40 == 0, "0, or 8 to 16, 23 and 24");
    told_record(refusal, record, lines, sheet, sheet_len);
    promise(lines == count(marks, edges, REVOSTI_STRUCK) - count(before, edges, REVOSTI_STRUCK), "lines accepted are marks changed");
    for (size_t i = 0; i < 4 * len; i++) {
        uint8_t mark = mark_of(marks, i), old = mark_of(before, i);
        promise(mark == old || (old == REVOSTI_OPEN && mark == REVOSTI_STRUCK), "marks only go from open to struck");
    }
    if (rule % 5 != 4 && lines > 0) enough_open(l.n, marks, edges);
}

/* One table lent as both: the answer and the marks of marking. */
static void try_mark_equal(uint32_t n, const uint8_t *table, size_t table_len, const uint8_t *before, const uint8_t *marked, size_t edges,
                           const uint8_t *sheet, size_t sheet_len, uint64_t answer)
{
    size_t len = packed(edges);
    uint8_t *marks = settled_end - len;
    memcpy(marks, before, len);
    uint64_t equal = revosti_mark_between(n, table, table_len, table, table_len, marks, len, sheet, sheet_len);
    promise(equal == answer && memcmp(marks, marked, len) == 0, "over equal tables as over one");
}

/* The pairs of the first list are in the second. Both rise. */
static int listed_too(const uint8_t *list, size_t pairs, const uint8_t *other, size_t others)
{
    size_t at = 0;
    for (size_t i = 0; i < pairs; i++, at++) {
        while (at < others && memcmp(list + 4 * i, other + 4 * at, 4) != 0) at++;
        if (at == others) return 0;
    }
    return 1;
}

/* Lists over one table: lent as both it is listed as before; what stands over it is among the pairs over two, if there are such. */
static void try_list_of_one(uint32_t n, const uint8_t *table, size_t table_len, const uint8_t *marks, size_t edges, const uint16_t *abc,
                            const uint8_t *list, uint64_t between)
{
    size_t len = 4 * edges;
    uint8_t *one = other_list_end - len, *equal = bytes_end - len;
    memset(one, 0xa5, len), memset(equal, 0xa5, len);
    uint64_t answer = revosti_list_pairs(n, table, table_len, marks, packed(edges), abc[0], abc[1], abc[2], one, len);
    promise(answer == revosti_list_between(n, table, table_len, table, table_len, marks, packed(edges), abc[0], abc[1], abc[2], equal, len),
            "over equal tables as over one");
    promise(memcmp(one, equal, len) == 0, "the list over equal tables");
    if (between % 65536 != 0) return;
    promise(answer % 65536 == 0, "a list over one table if over both");
    promise(listed_too(one, revosti_pairs(answer), list, revosti_pairs(between)), "what stands over one table stands over both");
}

/* A list a byte too short for the pairs. */
static void try_short_list(struct limits l, const uint8_t *marks, size_t edges, const uint16_t *abc, size_t len)
{
    uint8_t *list = other_list_end - len;
    memset(list, 0xa5, len);
    uint64_t answer = revosti_list_between(l.n, l.low, l.low_len, l.high, l.high_len, marks, packed(edges), abc[0], abc[1], abc[2], list, len);
    promise(answer == REVOSTI_LIST, "18 of a list over two tables");
    for (size_t i = 0; i < len; i++) promise(list[i] == 0xa5, "a list that is too short stays");
}

/* Lists over two tables: 1, 2, 5, 25, 6, 11, 12 as due, nothing written but the pairs, and 18. */
static void try_list_between(struct limits l, const uint8_t *marks, size_t edges, uint32_t rule)
{
    const uint16_t abc[] = {(uint16_t)(rule >> 8 & 0xff), (uint16_t)(rule >> 16 & 0xff), (uint16_t)(rule >> 24)};
    size_t len = 4 * edges;
    uint8_t *list = list_end - len;
    memset(list, 0xa5, len);
    uint64_t number = test_listing(l, marks, packed(edges), abc);
    uint64_t answer = revosti_list_between(l.n, l.low, l.low_len, l.high, l.high_len, marks, packed(edges), abc[0], abc[1], abc[2], list, len);
    promise(number ? answer == number : answer % 65536 == 0 && answer <= 65536 * edges, "1, 2, 5, 25, 6, 11, 12 of two tables, or pairs");
    for (size_t i = 4 * revosti_pairs(answer); i < len; i++) promise(list[i] == 0xa5, "bytes past the pairs stay");
    try_list_of_one(l.n, l.low, l.low_len, marks, edges, abc, list, answer);
    try_list_of_one(l.n, l.high, l.high_len, marks, edges, abc, list, answer);
    if (revosti_pairs(answer) > 0) try_short_list(l, marks, edges, abc, 4 * revosti_pairs(answer) - 1);
    seen(15, revosti_refusal(answer), (unsigned)revosti_pairs(answer));
}

/* A copy of a text's first bytes that ends where nothing more can be read. */
static const uint8_t *lent_text(const uint8_t *file, size_t size) { return memcpy(text_end - size, file, size); }

/* Reads a text into a table of old bytes: 19 before 1 before 2 before 4 and 5, and a table of lengths or as it was. */
static void read_text(const uint8_t *file, size_t size, size_t len, uint64_t points)
{
    uint8_t *table = measured_end - len;
    memset(table, 0xa5, len);
    uint64_t answer = revosti_read_tsplib(lent_text(file, size), size, table, len), n = points >> 16;
    int few = n < REVOSTI_LEAST_POINTS || n > REVOSTI_MOST_POINTS;
    if (revosti_refusal(points)) promise(answer == points, "19 is told alike");
    else if (few) promise(answer == REVOSTI_POINTS, "1 after 19");
    else if (len != 4 * revosti_edges((uint32_t)n)) promise(answer == REVOSTI_SIZE, "2 after 1");
    else promise(answer == points || answer == REVOSTI_COORDINATE || answer == REVOSTI_LENGTH, "n, or 4, or 5");
    for (size_t i = 0; i < len; i++) promise(!revosti_refusal(answer) || table[i] == 0xa5, "a refused text leaves the table");
    for (size_t i = 0; i + 4 <= len; i += 4)
        promise(revosti_refusal(answer) || get32(table + i) <= REVOSTI_MOST_LENGTH, "lengths within the limit");
    seen(17, revosti_refusal(answer), revosti_refusal(answer) == REVOSTI_TEXT || few ? 0 : (unsigned)n);
}

/* The first bytes of a text that end with so many newlines. */
static size_t first_lines(const uint8_t *file, uint64_t lines)
{
    size_t at = 0;
    for (; lines; at++) lines -= file[at] == '\n';
    return at;
}

/* What the first bytes of a text are like: the first byte of each of their lines that is no blank, and how many words it has. */
static unsigned likeness(const uint8_t *file, size_t size)
{
    unsigned like = 0, words = 0;
    for (size_t i = 0; i < size; i++) {
        int begins = file[i] > ' ' && (i == 0 || file[i - 1] <= ' ');
        if (begins && words == 0) like = like * 31 + file[i];
        words = file[i] == '\n' ? 0 : words + (unsigned)begins;
        if (i + 1 < size && file[i + 1] == '\n') like = like * 31 + (words < 4 ? words : 4);
    }
    return like & 0xff;
}

/*
 * The whole input as a text. The line told is one of its lines or the one after them; the whole lines before it by themselves miss just
 * that line, or are a good text. A good text without its last newline misses its last line; with one more it has a line too many.
 */
static void try_text(const uint8_t *file, size_t size)
{
    if (size + 1 > MOST) return;
    static uint8_t longer[MOST];
    uint64_t points = revosti_tsplib_points(lent_text(file, size), size), line = points >> 8, lines = 0, n = points >> 16;
    for (size_t i = 0; i < size; i++) lines += file[i] == '\n';
    if (revosti_refusal(points)) {
        promise(revosti_refusal(points) == REVOSTI_TEXT && line >= 1 && line <= lines + 1, "19, and a line or the one after the last");
        size_t good = first_lines(file, line - 1);
        uint64_t before = revosti_tsplib_points(lent_text(file, good), good);
        promise(before == points || revosti_refusal(before) == 0, "the lines before it begin some text");
        if (line > 1) seen(18, line < 40 ? (unsigned)line : 40, likeness(file, good));
    } else {
        promise(points % 65536 == 0 && points >> 48 == 0, "19, or n");
        seen(19, n < 40 ? (unsigned)n : 40, likeness(file, size));
        promise(revosti_tsplib_points(lent_text(file, size - 1), size - 1) == REVOSTI_TEXT + 256 * lines, "EOF ends in a newline");
        memcpy(longer, file, size), longer[size] = '\n';
        promise(revosti_tsplib_points(lent_text(longer, size + 1), size + 1) == REVOSTI_TEXT + 256 * (lines + 1), "EOF is last");
    }
    size_t len = revosti_refusal(points) || n > REVOSTI_MOST_POINTS ? size % 101 : n < 2 ? 0 : 4 * revosti_edges((uint32_t)n);
    read_text(file, size, len, points);
    read_text(file, size, len + 1, points);
    if (len) read_text(file, size, len - 1, points);
    seen(16, revosti_refusal(points), line < 200 && revosti_refusal(points) ? (unsigned)line : 200);
}

/* The last bytes of the list read as a page into a table of other bytes and marks all struck: what it answers, and that only a page that
 * is read changes them, at its own edges. */
static uint64_t read_page(uint32_t n, uint32_t page, size_t size, size_t edges)
{
    size_t first = (size_t)REVOSTI_PAGE_LINES * (page - 1), lines = size / REVOSTI_LINE_BYTES, len = packed(edges);
    uint8_t *table = measured_end - 4 * edges, *left = settled_end - len;
    memset(table, 0xa5, 4 * edges);
    memset(left, 0, len);
    uint64_t answer = revosti_read_page(n, page, list_end - size, size, table, 4 * edges, left, len);
    for (size_t i = 0; i < edges; i++) {
        if (answer == 0 && first <= i && i < first + lines) continue;
        promise(get32(table + 4 * i) == 0xa5a5a5a5 && mark_of(left, i) == REVOSTI_STRUCK, "a page changes its own edges only, and none where it is refused");
    }
    return answer;
}

/* A page written into as many bytes as it has, and one less; read again; and with a byte of it changed. */
static void try_page(uint32_t n, const uint8_t *table, size_t table_len, const uint8_t *marks, size_t edges, uint32_t page, uint32_t damage)
{
    size_t first = (size_t)REVOSTI_PAGE_LINES * (page - 1), most = REVOSTI_PAGE_LINES * REVOSTI_LINE_BYTES;
    uint64_t answer = revosti_write_page(n, table, table_len, marks, packed(edges), page, list_end - most, most);
    unsigned refusal = revosti_refusal(answer);
    seen(20, refusal, (unsigned)(revosti_page_bytes(answer) / 100));
    if (refusal || table_len != 4 * edges) return;
    size_t size = revosti_page_bytes(answer), lines = size / REVOSTI_LINE_BYTES;
    promise(size == REVOSTI_LINE_BYTES * lines && lines == (edges - first < REVOSTI_PAGE_LINES ? edges - first : REVOSTI_PAGE_LINES), "60 lines, or what is left");
    promise(revosti_write_page(n, table, table_len, marks, packed(edges), page, list_end - size + 1, size - 1) == REVOSTI_BUFFER, "22 for one byte");
    promise(revosti_write_page(n, table, table_len, marks, packed(edges), page, list_end - size, size) == answer, "its own size is enough");
    promise(read_page(n, page, size, edges) == 0, "what is written is read");
    const uint8_t *lengths = measured_end - 4 * edges, *left = settled_end - packed(edges);
    for (size_t i = first; i < first + lines; i++)
        promise(memcmp(lengths + 4 * i, table + 4 * i, 4) == 0 && mark_of(left, i) == mark_of(marks, i), "its lengths and marks are those that were written");
    list_end[-(ptrdiff_t)size + (ptrdiff_t)(damage % size)] = (uint8_t)(damage >> 24);
    answer = read_page(n, page, size, edges);
    promise(answer == 0 || answer == REVOSTI_PAGE_TEXT + 256 * (damage % size / REVOSTI_LINE_BYTES + 1), "27 with the line that was changed");
    seen(21, revosti_refusal(answer), (unsigned)(damage % size % REVOSTI_LINE_BYTES));
}

/* What a desk is lent: one table, marks and a sheet. */
struct folder {
    uint32_t n;
    const uint8_t *table, *sheet;
    size_t table_len, edges, sheet_len;
};


/* A desk's three numbers: its next index, the record that has it, its lines. */
static const uint8_t *numbers_of(const uint8_t *desks, unsigned desk) { return desks + 6 * desk - 4; }
static int has_line(const uint8_t *desks, unsigned desk) { return get16(numbers_of(desks, desk) + 4) < get16(numbers_of(desks, desk)); }

/* The desk that the next turn serves, by the page: the first after the last served that has a line left, round and round; 0 for none. */
static unsigned due_desk(const uint8_t *desks)
{
    for (unsigned i = 0; i < REVOSTI_DESKS; i++) {
        unsigned desk = (get16(desks) + i) % REVOSTI_DESKS + 1;
        if (has_line(desks, desk)) return desk;
    }
    return 0;
}

/* The two states are the same but for one desk's numbers, and for the last desk served where a turn has changed it. */
static int others_stay(const uint8_t *before, const uint8_t *after, size_t len, unsigned desk, int turned)
{
    for (size_t i = turned ? 2 : 0; i < len; i++)
        if (before[i] != after[i] && !(i + 4 >= 6 * desk && i < 6 * desk + 2)) return 0;
    return 1;
}

/* Hands in at a desk, in a state of len bytes that stands in front of desks_end: 22, 28, 29, then the sheet's tests. */
static void try_hand_in(struct folder f, const uint8_t *marks, size_t len, uint32_t desk)
{
    static const uint8_t first[6] = {1, 0, 0, 0, 0, 0};
    uint8_t before[64], *desks = desks_end - len;
    memcpy(before, desks, len);
    struct limits l = {f.n, f.table, f.table, f.table_len, f.table_len};
    uint64_t number = len < REVOSTI_DESKS_BYTES ? REVOSTI_BUFFER : desk < 1 || desk > REVOSTI_DESKS ? REVOSTI_NO_DESK
                      : has_line(desks, desk) ? REVOSTI_DESK_BUSY : test_marking(l, marks, packed(f.edges), f.sheet_len);
    uint64_t answer = revosti_hand_in(desks, len, desk, f.n, f.table, f.table_len, marks, packed(f.edges), f.sheet, f.sheet_len);
    promise(answer == number, "22, 28, 29 and the sheet's tests, or 0");
    if (answer) promise(memcmp(before, desks, len) == 0, "a refused handing-in changes nothing");
    else promise(memcmp(numbers_of(desks, desk), first, 6) == 0 && others_stay(before, desks, len, desk, 0), "the first line waits alone");
    seen(22, (unsigned)answer, desk < 10 ? desk : 10);
}

/* A turn that serves a desk: what it tells of it, what it leaves of the state, and at most one strike. */
static void served(struct folder f, const uint8_t *before, const uint8_t *marked, const uint8_t *desks, const uint8_t *marks, size_t len,
                   unsigned desk, uint64_t answer)
{
    unsigned refusal = revosti_refusal(answer), record = revosti_record(answer), lines = revosti_lines(answer);
    const uint8_t *was = numbers_of(before, desk), *now = numbers_of(desks, desk);
    unsigned index = get16(was), owner = get16(was + 2), old = get16(was + 4);
    struct limits l = {f.n, f.table, f.table, f.table_len, f.table_len};
    uint64_t number = test_marking(l, marked, packed(f.edges), f.sheet_len);
    promise(answer >> 57 == 0 && (answer >> 40 & 0xff) == 0 && revosti_desk(answer) == desk, "the desk served, and no other bit");
    promise(get16(desks) == desk && others_stay(before, desks, len, desk, 1), "a turn changes its desk and the last served alone");
    promise(revosti_line_left(answer) == has_line(desks, desk), "a line is left where the state has one");
    if (revosti_line_left(answer)) {
        promise((answer & 0xffffff) == 0 && get16(now + 4) == lines, "no refusal while a line is left");
        promise(get16(now) > index && get16(now) * 16u <= f.sheet_len && get16(now + 2) == index, "the next line waits behind its own");
    } else promise(get16(now) == 0 && get16(now + 2) == 0 && get16(now + 4) == 0, "an ended sheet leaves nothing");
    if (number) promise(refusal == number && record == 0 && lines == old, "1, 2, 5, 6, 20, 7 again, and the lines kept");
    else if (index * 16u > f.sheet_len) promise(refusal == REVOSTI_INDEX_ABOVE && record == owner && lines == old, "8 by the owner");
    else if (refusal) promise(of_record(refusal) && record >= index, "8 to 16, 23 and 24 at this line");
    unsigned strikes = 0;
    for (size_t i = 0; i < 4 * packed(f.edges); i++) {
        uint8_t mark = mark_of(marks, i), had = mark_of(marked, i);
        promise(mark == had || (had == REVOSTI_OPEN && mark == REVOSTI_STRUCK), "marks only go from open to struck");
        strikes += mark != had;
    }
    promise(strikes <= 1 && lines == old + strikes, "a line accepted is a mark changed");
}

/* One turn on the state in front of desks_end and the marks in front of settled_end. Answers it. */
static uint64_t try_turn(struct folder f, size_t len)
{
    static uint8_t marked[MOST_EDGES];
    uint8_t before[64], *desks = desks_end - len, *marks = settled_end - packed(f.edges);
    memcpy(before, desks, len), memcpy(marked, marks, packed(f.edges));
    unsigned desk = len < REVOSTI_DESKS_BYTES ? 0 : due_desk(desks);
    uint64_t next = revosti_next_desk(desks, len);
    promise(next == (len < REVOSTI_DESKS_BYTES ? REVOSTI_BUFFER : 65536 * (uint64_t)desk), "22, or the desk after the last served");
    uint64_t answer = revosti_turn(desks, len, f.n, f.table, f.table_len, marks, packed(f.edges), f.sheet, f.sheet_len);
    for (size_t i = REVOSTI_DESKS_BYTES; i < len; i++) promise(before[i] == desks[i], "bytes past the state stay");
    if (desk) served(f, before, marked, desks, marks, len, desk, answer);
    else {
        promise(answer == (len < REVOSTI_DESKS_BYTES ? REVOSTI_BUFFER : 0), "22, or nothing left");
        promise(memcmp(before, desks, len) == 0 && memcmp(marked, marks, packed(f.edges)) == 0, "and nothing changes");
    }
    seen(23, revosti_refusal(answer), desk + 16u * (unsigned)revosti_line_left(answer));
    return answer;
}

/* Turns until no desk has a line left, or a hundred. */
static void try_turns(struct folder f, size_t len)
{
    for (int turns = 0; turns < 100 && (try_turn(f, len) >> 48) != 0; turns++) {}
}

/*
 * The last bytes of the input as a state: a sheet is handed in, a turn taken, the sheet handed in again and turns taken, all with one
 * folder; then it is opened. A sheet that is handed in alone on open desks ends as it is marked.
 */
static void try_desks(struct folder f, const uint8_t *before, const uint8_t *marked, uint64_t answer, const uint8_t *file, size_t size)
{
    size_t len = size < 56 ? size : 44 + size % 13, set = packed(f.edges);
    uint8_t *desks = desks_end - len, *marks = settled_end - set;
    memcpy(desks, file + size - len, len), memcpy(marks, before, set);
    uint32_t desk = len > 8 ? desks[len - 1] % 11 : get32(file);
    try_hand_in(f, marks, len, desk);
    try_turn(f, len);
    try_hand_in(f, marks, len, desk);
    try_turns(f, len);
    uint64_t opened = revosti_open_desks(desks, len);
    promise(opened == (len < REVOSTI_DESKS_BYTES ? REVOSTI_BUFFER : 0), "22, or open desks");
    for (size_t i = 0; i < len; i++)
        promise(desks[i] == 0 || opened || i >= REVOSTI_DESKS_BYTES, "open desks are all 0");
    if (opened) return;
    memcpy(marks, before, set);
    uint64_t last = 0, told;
    try_hand_in(f, marks, len, 1 + size % REVOSTI_DESKS);
    while ((told = try_turn(f, len)) != 0) last = told;
    if (last) promise((last & 0xffffffffff) == answer && memcmp(marks, marked, set) == 0, "by turns as marked alone");
}

/* A sentence for each pair, each a line of a kind that a first split has. Answers how many tell a pair that stands. */
static size_t settled_pairs(uint32_t n, const uint8_t *text, size_t size)
{
    size_t settled = 0, sentences = 0, first = 0;
    for (size_t i = 0; i < size; i++) {
        if (text[i] != '\n') continue;
        size_t length = i + 1 - first;
        promise(length > 2 && length <= REVOSTI_SENTENCE_BYTES && text[i - 1] == '.', "a sentence is a line");
        promise(memchr("STLEMF", text[first], 6) != NULL, "one of the six reasons of a first split");
        seen(25, text[first], 0);
        settled += text[first] == 'F';
        sentences++, first = i + 1;
    }
    promise(first == size && sentences == (size_t)(n - 1) * (n - 2) / 2, "a sentence for each pair");
    return settled;
}

/* Tells a line into so many bytes in front of told_end; those past the text stay, and all of them where it is refused. */
static uint64_t tell(struct folder f, const uint8_t *marks, uint32_t record, size_t room)
{
    uint8_t *text = told_end - room;
    memset(text, 0xa5, room);
    uint64_t answer = revosti_tell_line(f.n, f.table, f.table_len, marks, packed(f.edges), f.sheet, f.sheet_len, record, text, room);
    size_t size = revosti_refusal(answer) ? 0 : revosti_told_bytes(answer);
    promise(size <= room, "the text lies in its bytes");
    for (size_t i = size; i < room; i++) promise(text[i] == 0xa5, "bytes past the text stay, and all of them where it is refused");
    return answer;
}

/* What is due for a record, over marks with nothing pending: the sheet's tests, 8 for no record, and what marking tells of record 1. */
static void told_as_due(struct folder f, const uint8_t *marks, uint32_t record, uint64_t answer, size_t room)
{
    struct limits l = {f.n, f.table, f.table, f.table_len, f.table_len};
    uint64_t number = test_marking(l, marks, packed(f.edges), f.sheet_len);
    unsigned refusal = revosti_refusal(answer), at = revosti_record(answer);
    if (number) promise(answer == number, "1, 2, 5, 6, 7");
    else if (record == 0 || record > f.sheet_len / 16) promise(answer == REVOSTI_INDEX_ABOVE, "8 and no record");
    else if (refusal == REVOSTI_BUFFER) promise(at == 0 && room < revosti_told_size(f.n), "22 for a text that need not fit");
    else if (refusal) promise(of_record(refusal) && at >= record && at <= f.sheet_len / 16, "8 to 16, 23 and 24 at the line or behind it");
    if (number || record != 1) return;
    uint8_t *left = asked_end - packed(f.edges);
    memcpy(left, marks, packed(f.edges));
    uint64_t marked = revosti_mark_sheet(f.n, f.table, f.table_len, left, packed(f.edges), f.sheet, f.sheet_len);
    if (revosti_lines(marked) == 0) promise(answer == marked, "a refused line gets its refusal");
    else promise(refusal == 0 || refusal == REVOSTI_BUFFER, "an accepted line is told");
}

/* An accepted line: its own bytes are enough and one less is not, and the pairs told to stand are as many as are listed. */
static void told_whole(struct folder f, const uint8_t *marks, uint32_t record, uint64_t answer)
{
    const uint8_t *line = f.sheet + 16 * (size_t)(record - 1);
    size_t size = revosti_told_bytes(answer), room = 4 * f.edges;
    promise(tell(f, marks, record, size - 1) == REVOSTI_BUFFER, "22 for one byte");
    promise(tell(f, marks, record, size) == answer, "its own size is enough");
    size_t settled = settled_pairs(f.n, told_end - size, size);
    uint16_t a = (uint16_t)get16(line + 2), b = (uint16_t)get16(line + 4), c = (uint16_t)get16(line + 10);
    uint64_t pairs = revosti_list_pairs(f.n, f.table, f.table_len, marks, packed(f.edges), a, b, c, list_end - room, room);
    promise(revosti_refusal(pairs) == 0 && revosti_pairs(pairs) == settled, "the pairs that stand are told so");
}

/* A line told: pending marks are read as struck. */
static void try_tell(struct folder f, const uint8_t *before, uint32_t record)
{
    static uint8_t text[MOST];
    size_t set = packed(f.edges), most = no_points(f.n) ? 64 : revosti_told_size(f.n), room = most < MOST ? most : MOST;
    uint8_t *marks = settled_end - set;
    memcpy(marks, before, set);
    revosti_confirm(f.n, marks, set);
    uint64_t answer = tell(f, before, record, room);
    memcpy(text, told_end - room, room);
    promise(tell(f, marks, record, room) == answer && memcmp(text, told_end - room, room) == 0, "pending is told as struck");
    seen(26, revosti_refusal(answer), record < 40 ? record : 40);
    told_as_due(f, marks, record, answer, room);
    if (revosti_refusal(answer) == 0) told_whole(f, marks, record, answer);
}

static void run(const uint8_t *file, size_t size)
{
    try_text(file, size);
    if (size < 8) return;
    uint32_t rule = get32(file), n = get32(file + 4);
    size_t points = n <= 200 ? n : 200;
    if (size < 8 + 8 * points) return;
    const uint8_t *coordinates = file + 8;
    size_t edges = points < 2 ? 0 : points * (points - 1) / 2, len = packed(edges), sheet_len = size - 8 - 8 * points;
    if (sheet_len > MOST) return;
    uint8_t *table = table_end - 4 * edges, *marks = marks_end - packed(edges), *sheet = sheet_end - sheet_len;
    for (uint32_t a = 1; a <= points; a++)
        for (uint32_t b = a + 1; b <= points; b++) {
            uint32_t l = length(coordinates, a, b);
            uint8_t *at = table + 4 * revosti_place((uint32_t)points, a, b);
            at[0] = (uint8_t)l, at[1] = (uint8_t)(l >> 8), at[2] = (uint8_t)(l >> 16), at[3] = (uint8_t)(l >> 24);
        }
    memset(marks, 0xa5, len);
    uint64_t fresh = revosti_fresh_marks(n, marks, len);
    promise(fresh == (no_points(n) ? REVOSTI_POINTS : 0), "fresh marks for any n from 4 to 180");
    for (size_t i = 0; i < len; i++) promise(marks[i] == (fresh ? 0xa5 : 85 & used(edges, i)), "fresh marks are open, or stay");
    for (size_t i = 0; i < len; i++) marks[i] = 85 & used(edges, i);
    try_measure(n, rule, coordinates, points, edges);
    memcpy(sheet, file + size - sheet_len, sheet_len);
    if (rule % 5 == 4 && edges) marks[rule % len] = (uint8_t)(rule >> 8);
    try_convert(n, marks, edges, rule);

    static uint8_t before[MOST_EDGES];
    memcpy(before, marks, len);
    size_t table_len = 4 * edges - (rule % 7 == 6 && edges ? rule >> 4 & 3 : 0);
    uint64_t answer = revosti_mark_sheet(n, table + (4 * edges - table_len), table_len, marks, len, sheet, sheet_len);
    unsigned refusal = revosti_refusal(answer), record = revosti_record(answer), lines = revosti_lines(answer);
    int known = refusal <= REVOSTI_NO_SAVING || refusal == REVOSTI_SOMETHING_PENDING || of_record(refusal);
    promise(known && answer >> 40 == 0, "the answer's parts");
    told_record(refusal, record, lines, sheet, sheet_len);
    promise(lines == count(marks, edges, REVOSTI_STRUCK) - count(before, edges, REVOSTI_STRUCK), "lines accepted are marks changed");
    if (refusal != 0 && record == 0) promise(memcmp(before, marks, len) == 0, "a refused call changes no mark");
    int pending = count(before, edges, REVOSTI_PENDING) != 0, passed = refusal == 0 || refusal > REVOSTI_MARKS;
    promise(!passed || pending == (refusal == REVOSTI_SOMETHING_PENDING), "20, past 6, exactly where something is pending");
    for (size_t i = 0; i < 4 * len; i++) {
        uint8_t mark = mark_of(marks, i), old = mark_of(before, i);
        promise(mark == old || (old == REVOSTI_OPEN && mark == REVOSTI_STRUCK), "marks only go from open to struck");
    }
    try_ask(n, table + (4 * edges - table_len), table_len, before, marks, edges, sheet, sheet_len, answer);
    struct limits limits = some_limits(n, table + (4 * edges - table_len), table_len, rule);
    try_mark_equal(n, table + (4 * edges - table_len), table_len, before, marks, edges, sheet, sheet_len, answer);
    try_mark_between(limits, before, edges, sheet, sheet_len, rule);
    try_list_between(limits, marks, edges, rule);
    if (lines > 0) try_looks(n, table, before, asked_end - len, edges, rule);
    if (rule % 5 != 4 && lines > 0) enough_open(n, marks, edges), enough_open(n, asked_end - len, edges);
    seen(1, refusal, record < 40 ? record : 40 + record / 64);
    seen(2, lines < 60 ? lines : 60, refusal);
    try_list(n, table + (4 * edges - table_len), table_len, marks, edges, rule);
    if (size >= 16) try_savings(n, table + (4 * edges - table_len), table_len, file + size - 16);
    try_slip(answer, 6 + rule % 3);
    struct folder folder = {n, table + (4 * edges - table_len), sheet, table_len, edges, sheet_len};
    try_desks(folder, before, marks, answer, file, size);
    try_tell(folder, before, 1);
    try_tell(folder, before, get32(file + size - 4) % (uint32_t)(sheet_len / 16 + 2));
    try_slip(get64(file + size - 8), size % 9);
    try_page(n, table + (4 * edges - table_len), table_len, marks, edges, 1 + (rule >> 16) % 4, get32(file + size - 4));
    if (n == points && n >= 2) try_tour(n, table, 4 * edges, marks, edges);
}

int main(void)
{
    table_end = guarded(), marks_end = guarded(), sheet_end = guarded(), tour_end = guarded();
    list_end = guarded(), measured_end = guarded(), asked_end = guarded(), settled_end = guarded(), other_list_end = guarded();
    bytes_end = guarded(), packed_end = guarded(), view_end = guarded(), high_end = guarded(), text_end = guarded(), desks_end = guarded();
    told_end = guarded();
    __AFL_INIT();
    unsigned char *file = __AFL_FUZZ_TESTCASE_BUF;
    while (__AFL_LOOP(10000)) run(file, (size_t)__AFL_FUZZ_TESTCASE_LEN);
    return 0;
}
