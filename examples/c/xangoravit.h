/* The calls of Xangoravit for C: a training sheet's reader, writer and moves (crate sheet_api) and the fit (crate c_api).

   A slice is passed as a pointer and the number of its elements. The memory is the caller's: no call keeps a pointer or
   allocates. Slices of one call must not overlap, and each must hold the number of elements that is passed for it; the
   contents may be anything. Matrices are stored row by row.

   Every call but xangoravit_scratch_words returns 0, or the number of its refusal. n not from 1 to 4,096 (of
   xangoravit_solve to 64) or p not from 1 to 64 is refused with 1 (but by xangoravit_read_header and
   xangoravit_count_rows, which ask only for bytes); then a slice of the wrong length with 2, whether of doubles or of
   words, the scratch excepted: one that is too short is 4, and a longer one will do. What is wrong with a sheet's bytes,
   11 to 15, comes before 1 and 2: 12 where there are not 5 bytes, 11, 12, 13, then row by row 14 and 15. An answer that has
   its 7 words is written with every refusal. Nothing else is, but a sheet's place, and what a fit writes that 7 or 8 ends.

   Four calls write a sheet: xangoravit_write_sheet_1 and _2, xangoravit_move_up and xangoravit_move_down. An output that is
   too short for it is refused with 2 ahead of all else; a longer one will do, and what is behind the sheet stays as it was.
   Then a writer refuses with 1, 2 and 3, and row by row with 14 and 15; a move with 11 to 15, then 1, and 2 for its words.

   A sheet has version 1 or 2. Version 2 has the number of a patent family in 4 bytes behind its length, and is otherwise
   version 1. The three calls that read a sheet take both, and the family is in none of their words. A move starts from one
   version, and refuses the other with 11.

   A sheet's row with target claim 0 is cancelled: the bits of its score are 0 (else 14), its features may be anything, and
   it is no row of the matrix. The place of 14 and 15 is a row of the sheet, cancelled ones counted. The n of
   xangoravit_read_header and of the writers is of all rows; every other n counts the rows that remain, and so do the places
   of 5.

   A word that holds a double holds its bits (copy them with memcpy). */
#ifndef XANGORAVIT_H
#define XANGORAVIT_H

#include <stddef.h>
#include <stdint.h>

#ifdef __cplusplus
extern "C" {
#endif

/* Settings, 8 words. The panels R by C are used by a lazy fit only: 1 to 256 by 1 to 32. */
enum {
    XANGORAVIT_ALPHA,     /* bits of a double, 0 to 1,000,000 */
    XANGORAVIT_L1_RATIO,  /* bits of a double, 0 to 1 */
    XANGORAVIT_TOL,       /* bits of a double, finite and at least 0 */
    XANGORAVIT_MAX_ITER,  /* M, the most rounds that are made: 0 to 1,000 */
    XANGORAVIT_PANEL_ROWS,
    XANGORAVIT_PANEL_COLS,
    XANGORAVIT_NORMALISE, /* 0: no; any other word: yes */
    XANGORAVIT_LAZY,      /* 0: the normalised matrix is stored in the scratch; any other word: it is not */
    XANGORAVIT_SETTINGS   /* how many words there are */
};

/* Header of a sheet, 10 words: n and p, then the settings' 8 words, so that `header + XANGORAVIT_FROM` are settings. */
enum { XANGORAVIT_N, XANGORAVIT_P, XANGORAVIT_FROM, XANGORAVIT_HEADER = XANGORAVIT_FROM + XANGORAVIT_SETTINGS };

/* Words of a move, 2: how many bytes the moved sheet has, and the family, which a move down has taken out of it. */
enum { XANGORAVIT_MOVED_BYTES, XANGORAVIT_MOVED_FAMILY, XANGORAVIT_MOVED };

/* Record of a fit between its calls, 16 words: stage (0 opening, 1 solving, 2 searching, 3 ended), the stage's index,
   round, the three counts, the bits of nine doubles, and whether a solve has missed its tolerance. Keep it with the
   scratch, and pass both back as they are. */
enum { XANGORAVIT_RECORD = 16 };

/* Answer, 7 words. From xangoravit_resume the counts are the record's, also with a refusal, or 0 where the record has not
   its 16 words; from the other calls they are 0. */
enum {
    XANGORAVIT_KIND,          /* one of the four below */
    XANGORAVIT_NUMBER,        /* of the refusal, or 0 */
    XANGORAVIT_PLACE,         /* of the refusal: the index of a value or a column; 0 where it has none */
    XANGORAVIT_COUNT_ROUNDS,  /* rounds, */
    XANGORAVIT_COUNT_SOLVER,  /* solver rounds */
    XANGORAVIT_COUNT_TRIALS,  /* and trials made so far */
    XANGORAVIT_LAST,          /* bits of the intercept; from xangoravit_solve, of the solver's error */
    XANGORAVIT_ANSWER         /* how many words there are */
};

enum {
    XANGORAVIT_PENDING,   /* started, or paused: call xangoravit_resume (again) */
    XANGORAVIT_CONVERGED, /* done; also of xangoravit_predict and xangoravit_solve */
    XANGORAVIT_LIMIT,     /* the rounds ran out: the weights are unfinished, do not release them */
    XANGORAVIT_REFUSED
};

/* Reads a sheet's header alone. n is what stands in it, cancelled rows counted: the memory that the sheet wants may be
   less, which xangoravit_count_rows says. Writes the header unless it refuses. R and C become the panels of its settings.
   Refusals 11 to 13, then 2 for the header's words; they have no place. */
uint64_t xangoravit_read_header(const uint8_t *bytes, size_t bytes_length, size_t rows, size_t cols,
                                uint64_t *header, size_t header_length);

/* Reads the header and counts the rows that remain. That count, which may be 0, is its n: n and p say how much memory the
   sheet wants. The header's other words are those of xangoravit_read_header. Always writes the place's word, if there is
   one word: the refusal's, or 0; the header only where it does not refuse. Refusals 11 to 15, then 2 for the words of
   header and place. */
uint64_t xangoravit_count_rows(const uint8_t *bytes, size_t bytes_length, size_t rows, size_t cols,
                               uint64_t *header, size_t header_length, uint64_t *place, size_t place_length);

/* Reads a whole sheet into x, of n * p doubles, and y, of n, for the n rows that remain; the header's n is the same.
   Always writes the place's word, if there is one word: the refusal's, or 0; the others only where it does not refuse.
   Refusals 11 to 15, then 1 and 2. */
uint64_t xangoravit_read_sheet(const uint8_t *bytes, size_t bytes_length, size_t rows, size_t cols,
                               double *x, size_t x_length, double *y, size_t y_length,
                               uint64_t *header, size_t header_length, uint64_t *place, size_t place_length);

/* Writes a sheet of version 1, of 38 + n * (12 + 8 * p) bytes. Row i has the claims sources[i] and targets[i], the p
   features from x[i * p] on and the score y[i]; n counts all rows, cancelled ones too. The score of a row with target 0
   has all bits 0, else it is 14; features and all other scores may be anything, and a NaN is written as 7ff8000000000000.
   R and C are checked as a fit's, but are not in a sheet. Rows that are all cancelled are written as well, although
   reading them is refused with 1. Always writes the place's word, if there is one word: the refusal's, or 0; the output
   only where it does not refuse. Refusals: 2 for an output that is too short, whatever n and p are; 1; 2 unless sources,
   targets and y have n elements, x n * p, and settings and place their words; 3; then row by row 14 and 15. */
uint64_t xangoravit_write_sheet_1(size_t n, size_t p, const uint64_t *settings, size_t settings_length,
                                  const uint16_t *sources, size_t sources_length, const uint16_t *targets, size_t targets_length,
                                  const double *x, size_t x_length, const double *y, size_t y_length,
                                  uint8_t *out, size_t out_length, uint64_t *place, size_t place_length);

/* The same for version 2, with the number of a family, which may be any: 42 + n * (12 + 8 * p) bytes. Refuses as version 1. */
uint64_t xangoravit_write_sheet_2(uint32_t family, size_t n, size_t p, const uint64_t *settings, size_t settings_length,
                                  const uint16_t *sources, size_t sources_length, const uint16_t *targets, size_t targets_length,
                                  const double *x, size_t x_length, const double *y, size_t y_length,
                                  uint8_t *out, size_t out_length, uint64_t *place, size_t place_length);

/* Moves a sheet of version 1 up to version 2, with that family: 4 bytes more. All other bytes but version and length are
   copied, whatever the pattern of a NaN. Always writes the place's word, if there is one word: the refusal's, or 0; output
   and words of the move only where it does not refuse. Refusals: 2 where the output is shorter than bytes_length + 4, then
   11 to 15; 1 as in reading, by the rows that remain; 2 for the words of move and place. */
uint64_t xangoravit_move_up(const uint8_t *bytes, size_t bytes_length, uint32_t family, uint8_t *out, size_t out_length,
                            uint64_t *moved, size_t moved_length, uint64_t *place, size_t place_length);

/* Moves a sheet of version 2 down to version 1, and hands its family back: 4 bytes less. Down after up gives the old bytes,
   and so does up after down with that family. Writes and refuses as xangoravit_move_up does; the output's due length is
   bytes_length - 4, and 0 where there are fewer bytes. */
uint64_t xangoravit_move_down(const uint8_t *bytes, size_t bytes_length, uint8_t *out, size_t out_length,
                              uint64_t *moved, size_t moved_length, uint64_t *place, size_t place_length);

/* The doubles of scratch that a fit needs: lend start and resume so many, or more, which are left alone. 0 where n, p or a
   setting is out of range, or the settings have not their 8 words: then no scratch will do, and a start says why. */
size_t xangoravit_scratch_words(size_t n, size_t p, const uint64_t *settings, size_t settings_length);

/* Checks everything, prepares the scratch and writes the record; makes no step. Refusals 1 to 6. */
uint64_t xangoravit_start(size_t n, size_t p, const double *x, size_t x_length, const double *y, size_t y_length,
                          const uint64_t *settings, size_t settings_length, double *scratch, size_t scratch_length,
                          uint64_t *record, size_t record_length, uint64_t *answer, size_t answer_length);

/* Makes steps until the budget is spent (pending) or the fit ends; where a fit pauses does not change its answer. Pass
   what the start was passed. The p weights are written where the fit ends; it ends too where it is refused 7 or 8, with
   weights of 0. Refusals 1 to 4, then 9: a record that is impossible or has ended. They leave record, scratch and weights
   as they were, and so does a call with budget 0 that is pending, whatever their words are. */
uint64_t xangoravit_resume(size_t n, size_t p, const double *x, size_t x_length, const double *y, size_t y_length,
                           const uint64_t *settings, size_t settings_length, uint64_t *record, size_t record_length,
                           double *scratch, size_t scratch_length, double *weights, size_t weights_length,
                           uint64_t budget, uint64_t *answer, size_t answer_length);

/* Each row times the weights, plus the intercept: n doubles. Refusals 1, 2 and 5. */
uint64_t xangoravit_predict(size_t n, size_t p, const double *x, size_t x_length, const double *weights, size_t weights_length,
                            double intercept, double *out, size_t out_length, uint64_t *answer, size_t answer_length);

/* The solver alone: a, n by n, times x is b. x holds the start, and then the solution; 8 * n doubles of scratch.
   Refusals 1 to 5, 8 and 10. */
uint64_t xangoravit_solve(size_t n, const double *a, size_t a_length, const double *b, size_t b_length, double *x, size_t x_length,
                          double tol, size_t limit, double *scratch, size_t scratch_length, uint64_t *answer, size_t answer_length);

#ifdef __cplusplus
}
#endif
#endif
