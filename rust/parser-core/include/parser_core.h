/* The proved parser core for C. Link libparser_core.a (bash tools/staticlib.sh).
 *
 * Number, place, count and what stands in the areas are document 01's, for all input; the root and the
 * counted calls are document 02's. A pointer names as many items as the length behind it says; the
 * areas that are written (tokens, report, scratch, and the nodes of a reading) overlap nothing else
 * that is passed. */
#ifndef PARSER_CORE_H
#define PARSER_CORE_H

#include <stddef.h>
#include <stdint.h>

#ifdef __cplusplus
extern "C" {
#endif

enum {
    PARSER_CORE_DEEPEST = 1024, /* the largest depth limit */
    PARSER_CORE_REPORT = 515,   /* the fewest numbers of a report area */
    PARSER_CORE_SCRATCH = 4864  /* the fewest numbers of a scratch area */
};

/* What a sheet reading returns: the fields of ParserCoreOutcome (crates/parser_core), which has them
 * by position. */
typedef struct {
    uint32_t number;
    uint32_t place;
    uint32_t count;
} parser_core_outcome;

/* What a run returns: the fields of ParserCoreRunOutcome, likewise.
 *
 * `calls` says how many counted calls the run entered: lines of kinds 8 to 14, each time one is
 * evaluated and not refused by a limit; a repeat (10) once, however many rounds it has; kind 18
 * never. It is counted with call limit 0 too, and up to the moment of a stop; 0 where the run was
 * refused. It stays at 2^64 - 1 once there.
 *
 * A run that gave 0 or 10 gives the same, areas and all, with call limit 0 and with every limit from
 * `calls` on; with a smaller one above 0 it gives neither 0 nor 10. */
typedef struct {
    uint32_t number;
    uint32_t place;
    uint32_t count;
    uint64_t calls;
} parser_core_run_outcome;

/* Runs the grammar of `nodes`, four numbers a line, on `text`, from line `root`: lines are numbered from
 * 1, and a line of any kind may be the root (18 where it is no line of the sheet). What stands in lines
 * that the root does not reach, by naming or calling, changes nothing where the sheet is accepted.
 *
 * A token takes five numbers; `tokens` needs room for the most that are held at once, which can be more
 * than the count returned (14 else). It recurses: a level of depth takes less than 500 bytes of stack,
 * and as many again for each nest of kinds 6 and 7 (README.md, "Native stack"). */
parser_core_run_outcome parser_core_run(
    const int32_t *nodes, size_t nodes_len,
    const uint8_t *literals, size_t literals_len,
    const uint8_t *text, size_t text_len,
    uint32_t root,
    uint32_t depth_limit, uint32_t call_limit,
    uint32_t *tokens, size_t tokens_len,
    uint32_t *report, size_t report_len,
    uint32_t *scratch, size_t scratch_len);

/* Reads a sheet, lines of 41 bytes, into `nodes`. */
parser_core_outcome parser_core_read_sheet(
    const uint8_t *sheet, size_t sheet_len,
    int32_t *nodes, size_t nodes_len);

#ifdef __cplusplus
}
#endif

#endif
