/*
 * Reads a board, FILE.tsp, and its set of marks, FILE.marks, prints the open edges with their lengths, and checks the
 * tour that goes over the points in the order given.
 *
 *   cc examples/open_edges.c $(pkg-config --cflags --libs revosti) -o open_edges     (after tools/install PREFIX)
 *   ./open_edges FILE.tsp FILE.marks 1 2 3 4
 *
 * Exit status: 0 the tour is one and all its edges are open, 1 it is not, or something is refused, 2 bad use, 3 a file
 * cannot be read.
 */
#include <stdio.h>
#include <stdlib.h>

#include "revosti.h"

enum { EDGES = REVOSTI_MOST_POINTS * (REVOSTI_MOST_POINTS - 1) / 2, TEXT = 1 << 20 };

static uint8_t text[TEXT], table[4 * EDGES], marks[EDGES / 4 + 1], tour[2 * REVOSTI_MOST_POINTS];

/* Reads a whole file, at most so many bytes. */
static size_t read_file(const char *name, uint8_t *buffer, size_t most)
{
    FILE *file = fopen(name, "rb");
    size_t size = file ? fread(buffer, 1, most, file) : 0;
    if (!file || ferror(file) || (size == most && fgetc(file) != EOF)) {
        fprintf(stderr, "%s cannot be read, or is too long\n", name);
        exit(3);
    }
    fclose(file);
    return size;
}

/* An answer that is no refusal. */
static uint64_t accepted(const char *what, uint64_t answer)
{
    if (revosti_refusal(answer) != REVOSTI_ACCEPTED) {
        fprintf(stderr, "%s: refused, number %u\n", what, revosti_refusal(answer));
        exit(1);
    }
    return answer;
}

static uint32_t length_at(size_t place)
{
    const uint8_t *at = table + 4 * place;
    return at[0] | (uint32_t)at[1] << 8 | (uint32_t)at[2] << 16 | (uint32_t)at[3] << 24;
}

int main(int count, char **words)
{
    if (count < 3) {
        fprintf(stderr, "usage: open_edges FILE.tsp FILE.marks POINT ..\n");
        return 2;
    }
    size_t text_len = read_file(words[1], text, sizeof text), marks_len = read_file(words[2], marks, sizeof marks);
    uint32_t n = revosti_points(accepted(words[1], revosti_tsplib_points(text, text_len)));
    size_t table_len = n <= REVOSTI_MOST_POINTS ? 4 * revosti_edges(n) : 0, tour_len = 0;
    accepted(words[1], revosti_read_tsplib(text, text_len, table, table_len));
    for (int at = 3; at < count && tour_len < sizeof tour; at++) {
        unsigned long point = strtoul(words[at], NULL, 10);
        tour[tour_len++] = (uint8_t)(point < 256 ? point : 0); /* 0 is no point, and is refused */
        tour[tour_len++] = 0;
    }
    uint64_t answer = accepted("the tour, or the marks", revosti_check_tour(n, table, table_len, marks, marks_len, tour, tour_len));
    for (uint32_t a = 1; a < n; a++)
        for (uint32_t b = a + 1; b <= n; b++)
            if (revosti_mark_of(n, marks, a, b) == REVOSTI_OPEN)
                printf("%u-%u is open, length %u\n", a, b, length_at(revosti_place(n, a, b)));
    printf("the tour has length %llu, %s\n", (unsigned long long)revosti_tour_length(answer),
           revosti_tour_open(answer) ? "all its edges are open" : "and a struck edge");
    return !revosti_tour_open(answer);
}
