/* What a C host reads off an answer with the macros of trace.h: values, refusals and the three verdicts, of which none is a refusal. */
#include "trace.h"

#include <inttypes.h>
#include <stdio.h>
#include <stdlib.h>
#include <string.h>

#define PLACES 8
#define AREA(a) (a), sizeof(a) / sizeof *(a)
#define BYTES(text) (const uint8_t *)(text), strlen(text)
#define VERTICES BYTES("-3\n2\n5\n9\n20\n")
#define EDGES BYTES("2 5\n2 9\n5 2\n5 9\n9 20\n")

/* A lent graph, and the areas of a verdict. */
static size_t vertices, arcs;
static int64_t ids[PLACES], result[PLACES], claimed[PLACES];
static size_t out_offsets[PLACES], out_targets[PLACES], in_offsets[PLACES], in_sources[PLACES];
static size_t first[PLACES], second[PLACES], third[PLACES], lines[PLACES];
#define GRAPH AREA(ids), AREA(out_offsets), AREA(out_targets), AREA(in_offsets), AREA(in_sources)

static uint64_t load(uint64_t mode) { return trace_load(mode, VERTICES, EDGES, GRAPH); }

/* The record of lines is lent with so many places and any content: these are zero afterwards, and those behind them as they were. */
static uint64_t judge_within(size_t places, uint64_t kernel, int64_t parameter, const char *claim) {
    for (size_t k = 0; k < PLACES; k++) lines[k] = 7;
    uint64_t said = trace_judge(vertices, arcs, GRAPH, kernel, parameter, BYTES(claim), AREA(result), AREA(claimed), AREA(first),
                                AREA(second), AREA(third), lines, places);
    for (size_t k = 0; k < PLACES; k++) {
        if (lines[k] == (k < places ? 0 : 7)) continue;
        fprintf(stderr, "answers: place %zu of the record of lines holds %zu\n", k, lines[k]);
        exit(1);
    }
    return said;
}

static uint64_t judge(uint64_t kernel, int64_t parameter, const char *claim) { return judge_within(6, kernel, parameter, claim); }

static uint64_t verdict(uint64_t kernel, int64_t parameter, const char *claim) {
    return trace_verdict(VERTICES, EDGES, BYTES(claim), TRACE_DIRECTED, kernel, parameter);
}

/* What an answer says. */
struct three {
    int refused;
    uint64_t number, file, line;
};

static void same(const char *what, struct three said, struct three right) {
    if (said.refused == right.refused && said.number == right.number && said.file == right.file && said.line == right.line) return;
    fprintf(stderr, "answers: %s: %s %" PRIu64 " %" PRIu64 " %" PRIu64 "\n", what, said.refused ? "refused" : "not refused", said.number,
            said.file, said.line);
    exit(1);
}

static struct three wide(uint64_t a) { return (struct three){TRACE_REFUSED(a), TRACE_NUMBER(a), TRACE_FILE(a), TRACE_LINE(a)}; }

static struct three narrow(uint64_t a) {
    return (struct three){TRACE_VERDICT_REFUSED(a), TRACE_VERDICT_NUMBER(a), TRACE_VERDICT_FILE(a), TRACE_VERDICT_LINE(a)};
}

int main(void) {
    static const struct {
        const char *what;
        uint64_t kernel;
        int64_t parameter;
        const char *claim;
        struct three right;
    } claims[] = {
        {"a match", TRACE_BFS, 2, "-3 9223372036854775807\n2 0\n5 1\n9 1\n20 2\n", {0, TRACE_MATCH, 3, 0}},
        {"a mismatch", TRACE_BFS, 2, "-3 9223372036854775807\n2 0\n5 1\n9 2\n20 3\n", {0, TRACE_MISMATCH, 3, 4}},
        {"a component too many", TRACE_WCC, 0, "-3 7\n2 1\n5 1\n9 1\n20 2\n", {0, TRACE_MISMATCH, 3, 5}},
        {"a coefficient off the line", TRACE_LCC, 0, "-3 0\n2 0.5\n5 0.5\n9 0.3332999\n20 0\n", {0, TRACE_MISMATCH, 3, 4}},
        {"a match in another order", TRACE_BFS, 2, "20 2\n-3 9223372036854775807\n9 1\n2 0\n5 1\n", {0, TRACE_MATCH, 3, 0}},
        {"the smaller of two at fault", TRACE_BFS, 2, "20 3\n9 2\n5 1\n2 0\n-3 9223372036854775807\n", {0, TRACE_MISMATCH, 3, 2}},
        {"a component that comes last", TRACE_WCC, 0, "20 1\n9 1\n5 1\n-3 8\n2 7\n", {0, TRACE_MISMATCH, 3, 3}},
        {"a coefficient that comes last", TRACE_LCC, 0, "20 0\n9 0\n5 0\n-3 0\n2 0\n", {0, TRACE_MISMATCH, 3, 5}},
        {"a line twice", TRACE_CDLP, 2, "20 2\n9 2\n5 5\n9 2\n2 2\n-3 -3\n", {0, TRACE_INCOMPLETE, 3, 4}},
        {"a surplus line", TRACE_CDLP, 2, "20 2\n9 2\n5 5\n2 2\n-3 -3\n3 3\n", {0, TRACE_INCOMPLETE, 3, 6}},
        {"a missing line", TRACE_CDLP, 2, "-3 -3\n2 2\n5 5\n9 2\n", {0, TRACE_INCOMPLETE, 3, 5}},
        {"another identifier", TRACE_CDLP, 2, "-3 -3\n2 2\n6 5\n9 2\n20 2\n", {0, TRACE_INCOMPLETE, 3, 3}},
        {"a malformed line", TRACE_WCC, 0, "-3 1\n2  1\n", {1, 2, 3, 2}},
        {"a number out of range", TRACE_WCC, 0, "9223372036854775808 1\n", {1, 3, 3, 1}},
        {"a root that isn't there", TRACE_BFS, 3, "", {1, 10, 0, 0}},
        {"rounds below 0", TRACE_CDLP, -1, "", {1, 11, 0, 0}},
        {"an unknown kernel", 5, 0, "", {1, 12, 0, 0}},
    };
    uint64_t loaded = load(TRACE_DIRECTED);
    same("a load", wide(loaded), (struct three){0, 0, 0, 5 * 10000000 + 5});
    vertices = TRACE_LOADED_VERTICES(loaded), arcs = TRACE_LOADED_ARCS(loaded);
    for (size_t k = 0; k < sizeof claims / sizeof *claims; k++) {
        same(claims[k].what, wide(judge(claims[k].kernel, claims[k].parameter, claims[k].claim)), claims[k].right);
        same(claims[k].what, narrow(verdict(claims[k].kernel, claims[k].parameter, claims[k].claim)), claims[k].right);
    }
    same("a record of lines too short", wide(judge_within(4, TRACE_BFS, 2, claims[0].claim)), (struct three){1, 8, 0, 0});
    same("one that is just long enough", wide(judge_within(5, TRACE_BFS, 2, claims[0].claim)), (struct three){0, TRACE_MATCH, 3, 0});
    vertices = 4;
    same("an unsound graph", wide(judge(TRACE_WCC, 0, "")), (struct three){1, 9, 0, 0});
    same("an unknown mode", wide(load(2)), (struct three){1, 12, 0, 0});
    for (uint64_t number = 0; number <= 21; number++) {
        int refusal = number >= 1 && number <= 12;
        same("a number", (struct three){TRACE_IS_REFUSAL(number), number, 0, 0}, (struct three){refusal, number, 0, 0});
    }
    printf("answers: a C host reads values, refusals and verdicts apart\n");
    return 0;
}
