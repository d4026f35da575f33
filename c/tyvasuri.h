/*
 * A checker for timing sheets, for C programs.
 *
 * The functions are those of libchecker.a, which `c/archive` writes to
 * target/staticlib/ at the repository's root. They are proved to answer as
 * the build definition of the sheets (document 01) says, with the change
 * requests (document 02) that docs/CHANGES.md names, for any bytes and any
 * numbers.
 *
 * Memory. The caller lends all memory. A pointer is never null, also where its
 * length is 0, and memory that is written overlaps no other memory of the call.
 * A length counts elements: bytes, or numbers of 32 bits for `work`. Nothing is
 * kept between calls. What a call leaves in the working memory means nothing.
 *
 * Answers. Each function returns one number, to be read by the functions at the
 * end of this file. Its kind is TYVASURI_ANSWERED, a refusal, or TYVASURI_OVER.
 * A fault of the sheet goes before TYVASURI_OUT_OF_RANGE, and that before
 * TYVASURI_MEMORY_TOO_SHORT. A refused call changes no lent memory.
 */
#ifndef TYVASURI_H
#define TYVASURI_H

#include <stddef.h>
#include <stdint.h>

#ifdef __cplusplus
extern "C" {
#endif

/* The bytes of the longest sheet. Of a longer input one byte more is enough to read. */
#define TYVASURI_MOST_BYTES 3624

/* The numbers of working memory that a call wants at least. */
#define TYVASURI_WORK_LEN 16384

/* The bytes of output memory that the report wants at least. */
#define TYVASURI_REPORT_LEN 16384

/* The bytes of tape memory that are enough for every sheet. */
#define TYVASURI_MOST_TAPE_LEN 16000

/* The kinds of an answer; 1 to 10 are the refusal numbers of document 01. */
enum tyvasuri_kind {
    /* accepted, a figure, clear, or a report */
    TYVASURI_ANSWERED = 0,
    /* the sheet ends where a mark or a field is wanted */
    TYVASURI_CUT_SHORT = 1,
    /* a mark is none of HZ, ML, MD, TK, SW, SX and EN */
    TYVASURI_UNKNOWN_MARK = 2,
    /* a mark is out of order, or a module is closed or exceeded against its number of modes */
    TYVASURI_OUT_OF_ORDER = 3,
    /* a ninth ML, a 17th TK in a mode, a 257th TK or a 129th of SW and SX together */
    TYVASURI_PAST_COUNT = 4,
    /* a field of HZ, ML, MD or TK breaks its rule */
    TYVASURI_BAD_FIELD = 5,
    /* a field of SW or SX breaks its rule */
    TYVASURI_BAD_SWITCH = 6,
    /* EN's number is wrong */
    TYVASURI_BAD_END = 7,
    /* bytes stand after EN */
    TYVASURI_BYTES_AFTER = 8,
    /* a module, mode, mode time or length is out of its range */
    TYVASURI_OUT_OF_RANGE = 9,
    /* the lent memory is too short */
    TYVASURI_MEMORY_TOO_SHORT = 10,
    /* a test says over */
    TYVASURI_OVER = 255
};

/* Judges any bytes as a sheet. Accepted: the counts and the horizon. */
uint64_t tyvasuri_judge(const uint8_t *sheet, size_t sheet_len);

/*
 * The demand of a mode between two mode times, 0 <= from <= to <= mode period:
 * the costs of the instances released at or after `from` and due at or before
 * `to`.
 */
uint64_t tyvasuri_mode_demand(const uint8_t *sheet, size_t sheet_len,
                              size_t module, size_t mode,
                              size_t from, size_t to);

/*
 * The largest demand in the first `length` ticks over all runs from the mode at
 * that mode time; the time is below the mode period, the length at most the
 * horizon.
 */
uint64_t tyvasuri_state_demand(const uint8_t *sheet, size_t sheet_len,
                               size_t module, size_t mode,
                               size_t time, size_t length,
                               uint32_t *work, size_t work_len);

/*
 * The largest state demand over all states of the modes that are reached from
 * mode 0: mode 0, and what a reached mode lists as a switch's target. A mode that
 * no chain of switches leads to does not count; its state demands are answered.
 */
uint64_t tyvasuri_module_demand(const uint8_t *sheet, size_t sheet_len,
                                size_t module, size_t length,
                                uint32_t *work, size_t work_len);

/*
 * The quick test, over the module demands. Over: the smallest length, and the
 * demand for it. Clear here is clear in the exact test too.
 */
uint64_t tyvasuri_quick_test(const uint8_t *sheet, size_t sheet_len,
                             uint32_t *work, size_t work_len);

/*
 * The exact test. Over: the interval's start and end, and the demand in it; then
 * module k's tape, a mode's number for each tick before the end, begins at byte
 * k * end of the tape memory. All other bytes of it stay. The tape memory has at
 * least modules * horizon bytes, clear or not.
 */
uint64_t tyvasuri_exact_test(const uint8_t *sheet, size_t sheet_len,
                             uint32_t *work, size_t work_len,
                             uint8_t *tape, size_t tape_len);

/*
 * Writes the lines that the sheet program prints for an accepted sheet, each
 * with its newline and with no 0 at the end, and answers with their length. For
 * a refused sheet it writes nothing: `refused N at P` is then the caller's to
 * print.
 */
uint64_t tyvasuri_report(const uint8_t *sheet, size_t sheet_len,
                         uint32_t *work, size_t work_len,
                         uint8_t *tape, size_t tape_len,
                         uint8_t *out, size_t out_len);

/* So many bits of an answer, from bit `from` on. */
static inline uint64_t tyvasuri_bits_of(uint64_t answer, unsigned from, unsigned width)
{
    return (answer >> from) & ((UINT64_C(1) << width) - 1);
}

/* The kind of any answer, one of enum tyvasuri_kind. */
static inline unsigned tyvasuri_kind_of(uint64_t answer)
{
    return (unsigned)tyvasuri_bits_of(answer, 0, 8);
}

/* Whether any answer is a refusal. */
static inline int tyvasuri_is_refused(uint64_t answer)
{
    return tyvasuri_kind_of(answer) >= TYVASURI_CUT_SHORT
        && tyvasuri_kind_of(answer) <= TYVASURI_MEMORY_TOO_SHORT;
}

/* The place of a refusal: the first byte of the bad record, or of those after EN. */
static inline size_t tyvasuri_place_of(uint64_t answer)
{
    return (size_t)tyvasuri_bits_of(answer, 8, 56);
}

/* Of the judge, accepted: the number of modules. */
static inline size_t tyvasuri_modules_of(uint64_t answer)
{
    return (size_t)tyvasuri_bits_of(answer, 8, 8);
}

/* Of the judge, accepted: the number of modes. */
static inline size_t tyvasuri_modes_of(uint64_t answer)
{
    return (size_t)tyvasuri_bits_of(answer, 16, 8);
}

/* Of the judge, accepted: the number of tasks. */
static inline size_t tyvasuri_tasks_of(uint64_t answer)
{
    return (size_t)tyvasuri_bits_of(answer, 24, 16);
}

/* Of the judge, accepted: the number of switches, SW and SX together. */
static inline size_t tyvasuri_switches_of(uint64_t answer)
{
    return (size_t)tyvasuri_bits_of(answer, 40, 8);
}

/* Of the judge, accepted: the horizon. */
static inline size_t tyvasuri_horizon_of(uint64_t answer)
{
    return (size_t)tyvasuri_bits_of(answer, 48, 16);
}

/* Of the judge, accepted: the bytes of tape memory that the sheet wants. */
static inline size_t tyvasuri_tape_len_of(uint64_t answer)
{
    return tyvasuri_modules_of(answer) * tyvasuri_horizon_of(answer);
}

/* Of the three demands, answered: the demand. */
static inline uint32_t tyvasuri_demand_of(uint64_t answer)
{
    return (uint32_t)tyvasuri_bits_of(answer, 8, 32);
}

/* Of the quick test, over: the length. */
static inline size_t tyvasuri_quick_length_of(uint64_t answer)
{
    return (size_t)tyvasuri_bits_of(answer, 8, 16);
}

/* Of the quick test, over: the demand for that length. */
static inline uint32_t tyvasuri_quick_demand_of(uint64_t answer)
{
    return (uint32_t)tyvasuri_bits_of(answer, 24, 32);
}

/* Of the exact test, over: the interval's start. */
static inline size_t tyvasuri_exact_start_of(uint64_t answer)
{
    return (size_t)tyvasuri_bits_of(answer, 8, 16);
}

/* Of the exact test, over: the interval's end. */
static inline size_t tyvasuri_exact_end_of(uint64_t answer)
{
    return (size_t)tyvasuri_bits_of(answer, 24, 16);
}

/* Of the exact test, over: the demand in the interval. */
static inline uint32_t tyvasuri_exact_demand_of(uint64_t answer)
{
    return (uint32_t)tyvasuri_bits_of(answer, 40, 24);
}

/* Of the report, answered: the bytes written. */
static inline size_t tyvasuri_report_len_of(uint64_t answer)
{
    return (size_t)tyvasuri_bits_of(answer, 8, 32);
}

#ifdef __cplusplus
}
#endif

#endif
