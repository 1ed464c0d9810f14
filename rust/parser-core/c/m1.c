/* Document 01's M1 and M2 from C: reads the sheet, runs it from its last line, 4, on `a` and on `b`, and
 * prints planread's listing of each run and, behind it, its counted calls. Ends with status 1 where the
 * sheet is refused. */
#include <inttypes.h>
#include <parser_core.h>
#include <stdio.h>
#include <string.h>

static const char sheet[] =
    "   1           0           1           0\n"
    "   8           7           1           0\n"
    "  19           3           0           0\n"
    "   6           2           3           0\n";

static int32_t nodes[16];
static uint32_t tokens[20], report[PARSER_CORE_REPORT], scratch[PARSER_CORE_SCRATCH];

static void print_tokens(uint32_t count) {
    for (uint32_t i = 0; i < count; i++) {
        const uint32_t *t = tokens + 5 * i;
        printf("%6u%6u%6u%6u%6u%6u\n", i, t[0], t[1], t[2], t[3], t[4]);
    }
}

static void print_rules(uint32_t count) {
    for (uint32_t i = 0; i < count; i++) {
        printf("%6u%6u\n", i < report[1] ? 1u : 2u, report[3 + i]);
    }
}

static void list(const char *text) {
    parser_core_run_outcome o = parser_core_run(
        nodes, 16, (const uint8_t *)"abc", 3, (const uint8_t *)text, strlen(text), 4,
        PARSER_CORE_DEEPEST, 0, tokens, 20, report, PARSER_CORE_REPORT, scratch, PARSER_CORE_SCRATCH);
    printf("%6u%6u%6u\n", o.number, o.place, o.count);
    if (o.number == 0) {
        print_tokens(o.count);
    } else if (o.number == 10) {
        print_rules(o.count);
    }
    printf("calls %" PRIu64 "\n", o.calls);
}

int main(void) {
    parser_core_outcome read =
        parser_core_read_sheet((const uint8_t *)sheet, strlen(sheet), nodes, 16);
    if (read.number != 0) {
        return 1;
    }
    list("a");
    list("b");
    return 0;
}
