/*
 * Calls every function of the checker from C and checks the answers.
 *
 *   caller              sheet A, held to the figures of document 01
 *   caller SHEET OUT    the sheet in a file, held to the lines in another
 *
 * In both cases the answers are held to each other, and lent memory to what has
 * to stay. Prints the sheet's lines. Exit status: 0 where all is as it should
 * be, 1 where an answer differs, 2 where a file cannot be read.
 */
#include "tyvasuri.h"

#include <inttypes.h>
#include <stdio.h>
#include <stdlib.h>
#include <string.h>

/* Fills lent memory, so that a change in it shows. */
#define PATTERN 0xA5

/* Sheet A as document 01 prints it. */
static const uint8_t sheet_a[] = {
    0x48, 0x5A, 0x08, 0x00, 0x4D, 0x4C, 0x01, 0x00, 0x4D, 0x44, 0x04, 0x00, 0x54, 0x4B, 0x00, 0x00,
    0x02, 0x00, 0x03, 0x00, 0x04, 0x00, 0x4D, 0x4C, 0x02, 0x00, 0x4D, 0x44, 0x04, 0x00, 0x54, 0x4B,
    0x00, 0x00, 0x01, 0x00, 0x04, 0x00, 0x04, 0x00, 0x53, 0x57, 0x01, 0x00, 0x04, 0x00, 0x4D, 0x44,
    0x04, 0x00, 0x54, 0x4B, 0x01, 0x00, 0x02, 0x00, 0x02, 0x00, 0x04, 0x00, 0x45, 0x4E, 0x0A, 0x00
};

static const char lines_a[] =
    "sheet modules 2 modes 3 tasks 3 switches 1 horizon 8\n"
    "quick over 3 demand 4\n"
    "exact over 4 7 demand 4\n"
    "run 0 0000000\n"
    "run 1 0000111\n";

/* A sheet's bytes. */
struct sheet {
    const uint8_t *bytes;
    size_t len;
};

/* Memory to lend. */
struct lent {
    uint32_t *work;
    size_t work_len;
    uint8_t *tape;
    size_t tape_len;
    uint8_t *out;
    size_t out_len;
};

/* Lines of text, with room for the longest report and a 0. */
struct text {
    char bytes[TYVASURI_REPORT_LEN + 1];
    size_t len;
};

static int differences = 0;

/* Counts and names a difference. */
static void expect(const char *what, uint64_t found, uint64_t wanted)
{
    if (found != wanted) {
        fprintf(stderr, "%s: %" PRIu64 " where %" PRIu64 " is wanted\n", what, found, wanted);
        differences += 1;
    }
}

/* Ends the program where a difference leaves nothing to go on with. */
static void require(const char *what, int holds)
{
    if (!holds) {
        fprintf(stderr, "%s does not hold\n", what);
        exit(1);
    }
}

/* Memory of just so many bytes, 1 at least, filled with the pattern. */
static void *filled(size_t bytes)
{
    void *memory = malloc(bytes > 0 ? bytes : 1);
    if (memory == NULL) {
        fprintf(stderr, "no memory\n");
        exit(2);
    }
    return memset(memory, PATTERN, bytes);
}

/* Memory of just these lengths. */
static struct lent lend(size_t work_len, size_t tape_len, size_t out_len)
{
    struct lent lent;
    lent.work = filled(work_len * sizeof *lent.work);
    lent.work_len = work_len;
    lent.tape = filled(tape_len);
    lent.tape_len = tape_len;
    lent.out = filled(out_len);
    lent.out_len = out_len;
    return lent;
}

static void give_back(struct lent lent)
{
    free(lent.work);
    free(lent.tape);
    free(lent.out);
}

/* Whether so many bytes still hold the pattern. */
static int is_untouched(const void *memory, size_t bytes)
{
    const uint8_t *byte = memory;
    size_t i;
    for (i = 0; i < bytes; i += 1) {
        if (byte[i] != PATTERN) {
            return 0;
        }
    }
    return 1;
}

/* Whether no lent memory has changed. */
static int is_as_lent(struct lent lent)
{
    return is_untouched(lent.work, lent.work_len * sizeof *lent.work)
        && is_untouched(lent.tape, lent.tape_len)
        && is_untouched(lent.out, lent.out_len);
}

static uint64_t state_demand(struct sheet s, size_t module, size_t mode, size_t time, size_t length,
                             struct lent lent)
{
    return tyvasuri_state_demand(s.bytes, s.len, module, mode, time, length, lent.work,
                                 lent.work_len);
}

static uint64_t module_demand(struct sheet s, size_t module, size_t length, struct lent lent)
{
    return tyvasuri_module_demand(s.bytes, s.len, module, length, lent.work, lent.work_len);
}

static uint64_t quick_test(struct sheet s, struct lent lent)
{
    return tyvasuri_quick_test(s.bytes, s.len, lent.work, lent.work_len);
}

static uint64_t exact_test(struct sheet s, struct lent lent)
{
    return tyvasuri_exact_test(s.bytes, s.len, lent.work, lent.work_len, lent.tape, lent.tape_len);
}

static uint64_t report(struct sheet s, struct lent lent)
{
    return tyvasuri_report(s.bytes, s.len, lent.work, lent.work_len, lent.tape, lent.tape_len,
                           lent.out, lent.out_len);
}

/* Every call that borrows memory is refused with this answer and changes nothing. */
static void check_refused(struct sheet s, struct lent lent, uint64_t answer)
{
    expect("refused state demand", state_demand(s, 0, 0, 0, 0, lent), answer);
    expect("refused module demand", module_demand(s, 0, 0, lent), answer);
    expect("refused quick test", quick_test(s, lent), answer);
    expect("refused exact test", exact_test(s, lent), answer);
    expect("refused report", report(s, lent), answer);
    expect("memory as lent", is_as_lent(lent), 1);
    give_back(lent);
}

/* A module past the last is out of range, whatever memory is lent. */
static void check_range(struct sheet s, size_t modules)
{
    struct lent lent = lend(0, 0, 0);
    expect("mode demand's range", tyvasuri_mode_demand(s.bytes, s.len, modules, 0, 0, 0),
           TYVASURI_OUT_OF_RANGE);
    expect("state demand's range", state_demand(s, modules, 0, 0, 0, lent), TYVASURI_OUT_OF_RANGE);
    expect("module demand's range", module_demand(s, modules, 0, lent), TYVASURI_OUT_OF_RANGE);
    give_back(lent);
}

/* Tape memory, and output memory, that is one byte too short is refused. */
static void check_short(struct sheet s, size_t tape_len)
{
    struct lent tape = lend(TYVASURI_WORK_LEN, tape_len - 1, TYVASURI_REPORT_LEN);
    struct lent out = lend(TYVASURI_WORK_LEN, tape_len, TYVASURI_REPORT_LEN - 1);
    expect("exact test, short tape", exact_test(s, tape), TYVASURI_MEMORY_TOO_SHORT);
    expect("report, short tape", report(s, tape), TYVASURI_MEMORY_TOO_SHORT);
    expect("memory as lent", is_as_lent(tape), 1);
    expect("report, short output", report(s, out), TYVASURI_MEMORY_TOO_SHORT);
    expect("memory as lent", is_as_lent(out), 1);
    give_back(tape);
    give_back(out);
}

/* The demands: none in no time, a state's at most its module's, and the quick test's sum. */
static void check_demands(struct sheet s, uint64_t judged, uint64_t quick, struct lent lent)
{
    size_t horizon = tyvasuri_horizon_of(judged);
    uint32_t sum = 0;
    size_t k;
    for (k = 0; k < tyvasuri_modules_of(judged); k += 1) {
        uint64_t state = state_demand(s, k, 0, 0, horizon, lent);
        uint64_t module = module_demand(s, k, horizon, lent);
        expect("mode demand in no time", tyvasuri_mode_demand(s.bytes, s.len, k, 0, 0, 0), 0);
        expect("state demand answered", tyvasuri_kind_of(state), TYVASURI_ANSWERED);
        expect("module demand answered", tyvasuri_kind_of(module), TYVASURI_ANSWERED);
        expect("state at most module", tyvasuri_demand_of(state) <= tyvasuri_demand_of(module), 1);
        sum += tyvasuri_demand_of(module_demand(s, k, tyvasuri_quick_length_of(quick), lent));
    }
    expect("sum of module demands", sum, tyvasuri_quick_demand_of(quick));
}

/* Whether an answer of a test is clear or over. */
static int is_verdict(uint64_t answer)
{
    return answer == TYVASURI_ANSWERED || tyvasuri_kind_of(answer) == TYVASURI_OVER;
}

/* Adds a module's run: its number and its tape, one digit a tick. */
static void add_run(struct text *text, size_t module, const uint8_t *tape, size_t end)
{
    size_t tick;
    text->len += (size_t)sprintf(text->bytes + text->len, "run %zu ", module);
    for (tick = 0; tick < end; tick += 1) {
        text->bytes[text->len++] = (char)('0' + tape[tick]);
    }
    text->bytes[text->len++] = '\n';
}

/* Adds the lines of the two tests. */
static void add_verdicts(struct text *text, uint64_t quick, uint64_t exact)
{
    char *at = text->bytes + text->len;
    if (tyvasuri_kind_of(quick) == TYVASURI_OVER) {
        at += sprintf(at, "quick over %zu demand %" PRIu32 "\n", tyvasuri_quick_length_of(quick),
                      tyvasuri_quick_demand_of(quick));
    } else {
        at += sprintf(at, "quick clear\n");
    }
    if (tyvasuri_kind_of(exact) == TYVASURI_OVER) {
        at += sprintf(at, "exact over %zu %zu demand %" PRIu32 "\n", tyvasuri_exact_start_of(exact),
                      tyvasuri_exact_end_of(exact), tyvasuri_exact_demand_of(exact));
    } else {
        at += sprintf(at, "exact clear\n");
    }
    text->len = (size_t)(at - text->bytes);
}

/* Makes a sheet's lines from the answers of the judge and the two tests. */
static void make_lines(struct text *text, uint64_t judged, uint64_t quick, uint64_t exact,
                       const uint8_t *tape)
{
    size_t end = tyvasuri_exact_end_of(exact);
    size_t k;
    text->len = (size_t)sprintf(text->bytes,
                                "sheet modules %zu modes %zu tasks %zu switches %zu horizon %zu\n",
                                tyvasuri_modules_of(judged), tyvasuri_modes_of(judged),
                                tyvasuri_tasks_of(judged), tyvasuri_switches_of(judged),
                                tyvasuri_horizon_of(judged));
    add_verdicts(text, quick, exact);
    if (tyvasuri_kind_of(exact) == TYVASURI_OVER) {
        for (k = 0; k < tyvasuri_modules_of(judged); k += 1) {
            add_run(text, k, tape + k * end, end);
        }
    }
}

/* Checks an accepted sheet, and makes its lines. */
static void check_accepted(struct text *text, struct sheet s, uint64_t judged)
{
    size_t tape_len = tyvasuri_tape_len_of(judged);
    struct lent lent = lend(TYVASURI_WORK_LEN, tape_len, TYVASURI_REPORT_LEN);
    uint64_t quick = quick_test(s, lent);
    uint64_t exact = exact_test(s, lent);
    size_t taped = tyvasuri_modules_of(judged) * tyvasuri_exact_end_of(exact);
    require("the quick test has a verdict", is_verdict(quick));
    require("the exact test has a verdict", is_verdict(exact));
    require("the end is at most the horizon", taped <= tape_len);
    expect("bytes past the tapes stay", is_untouched(lent.tape + taped, tape_len - taped), 1);
    make_lines(text, judged, quick, exact, lent.tape);
    check_demands(s, judged, quick, lent);
    expect("report's length", report(s, lent), (uint64_t)text->len << 8);
    expect("report's lines", memcmp(lent.out, text->bytes, text->len) == 0, 1);
    give_back(lent);
    check_range(s, tyvasuri_modules_of(judged));
    check_refused(s, lend(TYVASURI_WORK_LEN - 1, tape_len, TYVASURI_REPORT_LEN),
                  TYVASURI_MEMORY_TOO_SHORT);
    check_short(s, tape_len);
}

/* Checks any bytes, and makes the lines for them. */
static void check_sheet(struct text *text, struct sheet s)
{
    uint64_t judged = tyvasuri_judge(s.bytes, s.len);
    if (tyvasuri_is_refused(judged)) {
        text->len = (size_t)sprintf(text->bytes, "refused %u at %zu\n", tyvasuri_kind_of(judged),
                                    tyvasuri_place_of(judged));
        expect("refused mode demand", tyvasuri_mode_demand(s.bytes, s.len, 0, 0, 0, 0), judged);
        check_refused(s, lend(TYVASURI_WORK_LEN, TYVASURI_MOST_TAPE_LEN, TYVASURI_REPORT_LEN),
                      judged);
    } else {
        check_accepted(text, s, judged);
    }
}

/* The figures of sheet A, and the fault of sheet A without its last byte. */
static void check_figures(struct sheet a)
{
    struct lent lent = lend(TYVASURI_WORK_LEN, 16, TYVASURI_REPORT_LEN);
    uint64_t cut = tyvasuri_judge(a.bytes, a.len - 1);
    expect("mode demand, 1 to 3",
           tyvasuri_demand_of(tyvasuri_mode_demand(a.bytes, a.len, 1, 1, 1, 3)), 2);
    expect("state demand for 5", tyvasuri_demand_of(state_demand(a, 1, 0, 1, 5, lent)), 0);
    expect("state demand for 6", tyvasuri_demand_of(state_demand(a, 1, 0, 1, 6, lent)), 2);
    expect("module demand for 8", tyvasuri_demand_of(module_demand(a, 1, 8, lent)), 4);
    expect("cut short", tyvasuri_kind_of(cut), TYVASURI_CUT_SHORT);
    expect("cut short at", tyvasuri_place_of(cut), 60);
    give_back(lent);
}

/* Reads so many bytes of a file at most, and gives how many there were. */
static size_t read_file(const char *path, void *bytes, size_t most)
{
    FILE *file = fopen(path, "rb");
    size_t len;
    if (file == NULL) {
        perror(path);
        exit(2);
    }
    len = fread(bytes, 1, most, file);
    if (ferror(file)) {
        perror(path);
        exit(2);
    }
    fclose(file);
    return len;
}

/* Holds the lines to those that are wanted, and prints them. */
static void check_lines(const struct text *text, const void *wanted, size_t wanted_len)
{
    expect("lines' length", text->len, wanted_len);
    expect("lines", text->len == wanted_len && memcmp(text->bytes, wanted, wanted_len) == 0, 1);
    fwrite(text->bytes, 1, text->len, stdout);
}

int main(int argc, char **argv)
{
    static struct text text;
    if (argc == 1) {
        struct sheet a = { sheet_a, sizeof sheet_a };
        check_sheet(&text, a);
        check_figures(a);
        check_lines(&text, lines_a, sizeof lines_a - 1);
    } else if (argc == 3) {
        static uint8_t bytes[TYVASURI_MOST_BYTES + 1];
        static char wanted[TYVASURI_REPORT_LEN + 1];
        struct sheet s = { bytes, read_file(argv[1], bytes, sizeof bytes) };
        check_sheet(&text, s);
        check_lines(&text, wanted, read_file(argv[2], wanted, sizeof wanted));
    } else {
        fprintf(stderr, "caller [SHEET OUT]\n");
        return 2;
    }
    return differences > 0;
}
