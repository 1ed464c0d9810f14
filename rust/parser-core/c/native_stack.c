/* native_stack DEPTH NESTS KIND: runs a rule that calls itself until the depth limit refuses it, from
 * inside so many nests (a line of kind 6 on the left of one of kind 7, with the rest on its right),
 * its body in a line of KIND, which opens a call too (0: none). Prints number, place, count: 12, 0, 0.
 * Under `ulimit -s` it tells how much stack a level takes. */
#include <parser_core.h>
#include <stdio.h>
#include <stdlib.h>

static int32_t nodes[4 * 4096];
static int32_t lines;
static uint32_t tokens[10 * PARSER_CORE_DEEPEST], report[PARSER_CORE_REPORT], scratch[PARSER_CORE_SCRATCH];

static int32_t line(int32_t kind, int32_t a, int32_t b) {
    int32_t *n = nodes + 4 * lines;
    n[0] = kind;
    n[1] = a;
    n[2] = b;
    return ++lines;
}

/* The rule's line is the last one, which is known before it is written, and the root. */
static void write_grammar(int32_t nests, int32_t kind) {
    int32_t nothing = line(1, 0, 0);
    int32_t body = line(20, 2 + 2 * nests + (kind != 0) + 1, 0);
    for (int32_t i = 0; i < nests; i++) {
        body = line(7, line(6, nothing, body), nothing);
    }
    if (kind != 0) {
        body = line(kind, body, 0);
    }
    line(8, 7, body);
}

int main(int argc, char **argv) {
    if (argc != 4) {
        return 1;
    }
    write_grammar(atoi(argv[2]), atoi(argv[3]));
    parser_core_run_outcome o = parser_core_run(
        nodes, 4 * (size_t)lines, NULL, 0, NULL, 0, (uint32_t)lines, (uint32_t)atoi(argv[1]), 0,
        tokens, 10 * PARSER_CORE_DEEPEST, report, PARSER_CORE_REPORT, scratch, PARSER_CORE_SCRATCH);
    printf("%6u%6u%6u\n", o.number, o.place, o.count);
    return 0;
}
