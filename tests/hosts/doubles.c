/* What a program prints of a double is taken for a coefficient: C's "%.16e", the shortest scientific form that reads back as the same
   double, and "%.16f", 17 digits each at the most. One digit more is refused 2 at its line. */
#include "trace.h"

#include <inttypes.h>
#include <stdio.h>
#include <stdlib.h>
#include <string.h>

#define LOTS 60
#define ARCS (LOTS * LOTS)
#define AREA(a) (a), sizeof(a) / sizeof *(a)
#define BYTES(text) (const uint8_t *)(text), strlen(text)
#define GRAPH AREA(ids), AREA(out_offsets), AREA(out_targets), AREA(in_offsets), AREA(in_sources)

static int64_t ids[LOTS], result[LOTS], claimed[LOTS];
static size_t out_offsets[LOTS + 1], out_targets[ARCS], in_offsets[LOTS + 1], in_sources[ARCS];
static size_t numerators[LOTS], denominators[LOTS], first[LOTS], second[LOTS], third[LOTS], lines[LOTS];
static char vertices[LOTS * 4], edges[ARCS * 8], claim[LOTS * 40];

/* Digits behind the point of the shortest scientific form that reads back as x. */
static int shortest(double x) {
    char text[40];
    for (int places = 0; places < 17; places++) {
        snprintf(text, sizeof text, "%.*e", places, x);
        if (strtod(text, NULL) == x) return places;
    }
    return 17;
}

/* The verdict on a claim of all coefficients as printed so, in the shortest form where `places` is below 0: the same by both calls. */
static uint64_t judged(size_t n, size_t m, const char *format, int places) {
    claim[0] = 0;
    for (size_t v = 0; v < n; v++) {
        double x = (double)numerators[v] / (double)denominators[v];
        sprintf(claim + strlen(claim), "%" PRId64 " ", ids[v]);
        sprintf(claim + strlen(claim), format, places < 0 ? shortest(x) : places, x);
        strcat(claim, "\n");
    }
    uint64_t wide = trace_judge(n, m, GRAPH, TRACE_LCC, 0, BYTES(claim), AREA(result), AREA(claimed), AREA(first), AREA(second),
                                AREA(third), AREA(lines));
    uint64_t narrow = trace_verdict(BYTES(vertices), BYTES(edges), BYTES(claim), TRACE_DIRECTED, TRACE_LCC, 0);
    if (TRACE_NUMBER(wide) != TRACE_VERDICT_NUMBER(narrow) || TRACE_LINE(wide) != TRACE_VERDICT_LINE(narrow)) {
        fprintf(stderr, "doubles: trace_judge says %" PRIu64 " and trace_verdict %" PRIu64 " of\n%s", wide, narrow, claim);
        exit(1);
    }
    return narrow;
}

static void expect(const char *what, uint64_t said, uint64_t number, uint64_t line) {
    if (TRACE_VERDICT_NUMBER(said) == number && TRACE_VERDICT_LINE(said) == line) return;
    fprintf(stderr, "doubles: %s: %" PRIu64 " at line %" PRIu64 "\n", what, TRACE_VERDICT_NUMBER(said), TRACE_VERDICT_LINE(said));
    exit(1);
}

int main(void) {
    for (int u = 0; u < LOTS; u++) {
        sprintf(vertices + strlen(vertices), "%d\n", u);
        for (int v = 0; v < LOTS; v++)
            if (u != v && (u * u + 7 * v) % (3 + u % 11) == 0) sprintf(edges + strlen(edges), "%d %d\n", u, v);
    }
    uint64_t loaded = trace_load(TRACE_DIRECTED, BYTES(vertices), BYTES(edges), GRAPH);
    if (TRACE_REFUSED(loaded)) return 1;
    size_t n = TRACE_LOADED_VERTICES(loaded), m = TRACE_LOADED_ARCS(loaded);
    if (TRACE_REFUSED(trace_lcc(n, m, GRAPH, AREA(numerators), AREA(denominators), AREA(third)))) return 1;

    expect("%.16e", judged(n, m, "%.*e", 16), TRACE_MATCH, 0);
    expect("%.15e", judged(n, m, "%.*e", 15), TRACE_MATCH, 0);
    expect("the shortest that reads back", judged(n, m, "%.*e", -1), TRACE_MATCH, 0);
    expect("%.16f", judged(n, m, "%.*f", 16), TRACE_MATCH, 0);
    expect("%.17e", judged(n, m, "%.*e", 17), 2, 1);
    expect("%.17f", judged(n, m, "%.*f", 17), 2, 1);
    printf("doubles: %zu coefficients are taken as C prints them\n", n);
    return 0;
}
