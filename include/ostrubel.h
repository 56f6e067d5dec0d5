/*
 * Ostrubel: sparse whole-number matrices with GraphBLAS operations, for C (C99) and C++.
 *
 * Buffers. All matrices, stores, index lists and workspaces are buffers of uint32_t that the caller owns, passed as a
 * pointer and the number of words. Any words may be in them: what is no valid matrix or store is refused. A pointer is
 * to that many words also where a call does not look at them; with a count of 0 it is any aligned address but not null.
 * A buffer that a call writes (not const) may not overlap another buffer of the same call; those that are only read may.
 *
 * A matrix of R rows, C columns and N entries takes R + 2N + 9 words: 1 and the revision; 2, R, C; R+1 and the row starts;
 * N and the column numbers; N and the values, in two's complement (-5 is 4294967291). R and C are 1 to 1,000, N is 0 to
 * 2,048. Words after it are spare, and an accepted call leaves those that it does not need as they were.
 *
 * The revision tells whether a matrix was written: a new matrix has 0, and each accepted call that writes into a matrix
 * adds one, even where no cell changes; after 4294967295 comes 0. A matrix that is read from a file has the file's.
 *
 * A store has eight slots, 0 to 7, each empty or with a matrix, in one buffer of 8 to 16,384 words: slot by slot a
 * count of words and the matrix, then zeros. All zeros is a store with eight empty slots. A write needs room for 8 words
 * and all matrices as they are after the call.
 *
 * Answers. Each call returns one number: take it apart by the functions below. A call that is accepted has the code 0;
 * only ostrubel_row_view and ostrubel_day_show have no code.
 * A refused call has the lowest code that applies (on a store 12 comes first, and 13 between 2 and 7; of a file 15 comes
 * before 11; of a formula in the order that is said there), changes no word but the workspace's or a formula's stack's, and
 * its entries, value, position or number are 0. Workspace and stack are all zeros after every call that has them.
 *
 * Threads. A call takes no memory beside its buffers and the stack, and keeps nothing: calls on several threads may run
 * at once where each has buffers of its own (those that are only read may be shared). 48 KB of stack are enough for any
 * call.
 */
#ifndef OSTRUBEL_H
#define OSTRUBEL_H

#include <stddef.h>
#include <stdint.h>

#ifdef __cplusplus
extern "C" {
#endif

/* A number of words or bytes, or a slot: 64 bits on every target, also where size_t has 32 (wasm32). */
typedef uint64_t ostrubel_size;

/* Sizes, in words of 32 bits. */
#define OSTRUBEL_MAX_MATRIX_WORDS 5105 /* the largest matrix: 1,000 rows, 2,048 entries */
#define OSTRUBEL_MIN_WORKSPACE_WORDS 15315
#define OSTRUBEL_MIN_STORE_WORDS 8
#define OSTRUBEL_MAX_STORE_WORDS 16384
#define OSTRUBEL_MIN_FORMULA_WORDS 65000 /* the stack of ostrubel_store_formula */

/* Bytes of stack that are enough for any call on any target; the most that is worked out for one is some 36,000. */
#define OSTRUBEL_STACK_BYTES 49152

/* Sizes, in bytes: the largest file, four for each word of the largest matrix, and the largest text. */
#define OSTRUBEL_MAX_FILE_BYTES 20420
#define OSTRUBEL_MAX_TEXT_BYTES 40975

/* Limits. An index list has 1 to 1,000 indexes. */
#define OSTRUBEL_MAX_ROWS 1000
#define OSTRUBEL_MAX_COLS 1000
#define OSTRUBEL_MAX_ENTRIES 2048
#define OSTRUBEL_MAX_INDEXES 1000
#define OSTRUBEL_SLOTS 8
#define OSTRUBEL_MAX_ALLOWANCE 1000 /* rounds of ostrubel_open_doors */
#define OSTRUBEL_MAX_FORMULA_BYTES 64
#define OSTRUBEL_MAX_BRACKETS 3 /* open at once in a formula */

/* Codes of answers. */
enum {
    OSTRUBEL_OK = 0,
    OSTRUBEL_FLAGS_OUT_OF_RANGE = 1,   /* flags above 31 */
    OSTRUBEL_UNKNOWN_OPERATOR = 2,     /* no such operator, monoid or accumulator */
    OSTRUBEL_INVALID_FIRST = 3,        /* the first input is no valid matrix; also the one to check or read */
    OSTRUBEL_INVALID_SECOND = 4,       /* the second input, or the day matrix, is no valid matrix */
    OSTRUBEL_INVALID_MASK = 5,         /* the mask, the marks or the keys in hand are no valid matrix */
    OSTRUBEL_INVALID_OUTPUT = 6,       /* old C, or the new row of a day matrix, is no valid matrix */
    OSTRUBEL_INDEX_OUT_OF_BOUNDS = 7,  /* an index list shorter than 1 or longer than 1,000, or with an index twice;
                                          an index, row or column past A (as transposed) or past the matrix named,
                                          which is C for an assign;
                                          an allowance above 1,000 */
    OSTRUBEL_INVALID_SHAPE = 8,        /* rows or columns outside 1 to 1,000; shapes of inputs, mask, C and result
                                          disagree; no vector (one row) where one is due */
    OSTRUBEL_WORKSPACE_TOO_SHORT = 9,  /* a workspace under 15,315 words, or a formula's stack under 65,000 */
    OSTRUBEL_TOO_MANY_ENTRIES = 10,    /* the final C, or another matrix that is written or is a step of a formula, would
                                          have over 2,048 entries */
    OSTRUBEL_INSUFFICIENT_SPACE = 11,  /* the final C, another matrix, the store or a file does not fit its buffer */
    OSTRUBEL_INVALID_STORE = 12,       /* the length or the words are no store's, or a slot above 7 */
    OSTRUBEL_EMPTY_SLOT = 13,          /* a slot that must have a matrix is empty */
    OSTRUBEL_INVALID_FORMULA = 14,     /* a text that is no formula */
    OSTRUBEL_INVALID_FILE = 15         /* bytes that are no file: of another length than their matrix's, or no matrix */
};

/* Flags; they add up. */
enum {
    OSTRUBEL_REPLACE = 1,          /* outside the mask C loses its entries */
    OSTRUBEL_COMPLEMENT = 2,       /* the mask is complemented; with no mask, no position is inside */
    OSTRUBEL_STRUCTURAL = 4,       /* an entry of the mask counts whatever its value, also 0 */
    OSTRUBEL_TRANSPOSE_FIRST = 8,  /* the first input is transposed (not the vector of vxm) */
    OSTRUBEL_TRANSPOSE_SECOND = 16 /* the second input is transposed */
};

/* Binary operators on x and y, also accumulators (x is old C's value). Sums, differences and products wrap modulo 2^32;
   MIN and MAX are signed. PLUS, TIMES, MIN and MAX are the monoids. */
enum {
    OSTRUBEL_FIRST = 0,
    OSTRUBEL_SECOND = 1,
    OSTRUBEL_ONEB = 2,
    OSTRUBEL_PLUS = 3,
    OSTRUBEL_MINUS = 4,
    OSTRUBEL_TIMES = 5,
    OSTRUBEL_MIN = 6,
    OSTRUBEL_MAX = 7
};

/* Kinds of apply, and the operators of the kinds that are not binary. */
enum {
    OSTRUBEL_UNARY = 0,         /* a unary operator; the scalar is not looked at */
    OSTRUBEL_SCALAR_FIRST = 1,  /* a binary operator with x = scalar */
    OSTRUBEL_SCALAR_SECOND = 2, /* a binary operator with y = scalar */
    OSTRUBEL_INDEX_UNARY = 3    /* an index operator, by the row i and the column j of the matrix as transposed */
};
enum {
    OSTRUBEL_IDENTITY = 0,
    OSTRUBEL_AINV = 1, /* -x */
    OSTRUBEL_ABS = 2,
    OSTRUBEL_LNOT = 3, /* 1 where x is 0, else 0 */
    OSTRUBEL_ONE = 4
};
enum {
    OSTRUBEL_ROWINDEX = 0, /* i + scalar */
    OSTRUBEL_COLINDEX = 1, /* j + scalar */
    OSTRUBEL_DIAGINDEX = 2 /* j - i + scalar */
};

/* Conditions of select on a value x, by the row i and the column j of the matrix as transposed. The order is signed, and the
   sums are exact. */
enum {
    OSTRUBEL_VALUEEQ = 0, /* x is the scalar */
    OSTRUBEL_VALUENE = 1, /* x is not the scalar */
    OSTRUBEL_VALUELT = 2, /* x is less than the scalar */
    OSTRUBEL_VALUELE = 3, /* x is at most the scalar */
    OSTRUBEL_VALUEGT = 4, /* x is greater than the scalar */
    OSTRUBEL_VALUEGE = 5, /* x is at least the scalar */
    OSTRUBEL_TRIL = 6,    /* the lower triangle: j is at most i + scalar */
    OSTRUBEL_TRIU = 7     /* the upper triangle: j is at least i + scalar */
};

/* The code of any answer but a row view's. */
static inline uint32_t ostrubel_code(uint64_t answer) { return (uint32_t)(answer & 255); }

/* The entries of the matrix that was written or checked. */
static inline uint32_t ostrubel_entries(uint64_t answer) { return (uint32_t)(answer >> 32); }

/* Of a text: how many bytes were written. */
static inline uint32_t ostrubel_text_length(uint64_t answer) { return (uint32_t)(answer >> 32); }

/* Of a read: 1 where the cell is present, 0 where it is absent or the read was refused. */
static inline int ostrubel_present(uint64_t answer) { return (int)((answer >> 8) & 1); }

/* Of a read: the word of the cell's value; 0 where the cell is not present. */
static inline uint32_t ostrubel_value(uint64_t answer) { return (uint32_t)(answer >> 32); }

/* Of a read: how many entries of the matrix come before the cell, row by row and from left to right. So it is the position
   of a present cell's entry, counted from 0, and where the entry of an absent cell would be put; 0 where the read was
   refused. It lies in bits 16 to 31 of the answer, which were 0 before it was there: an absent cell's answer need not be 0
   now, so tell it by ostrubel_present. */
static inline uint32_t ostrubel_position(uint64_t answer) { return (uint32_t)((answer >> 16) & 0xFFFF); }

/* Of a reduction to a number: its word; 0 where it was refused. */
static inline uint32_t ostrubel_number(uint64_t answer) { return (uint32_t)(answer >> 32); }

/* Of a look at the revision: the revision; 0 where it was refused. */
static inline uint32_t ostrubel_revision_number(uint64_t answer) { return (uint32_t)(answer >> 32); }

/* Of a row view: 1 where the part lies in the second matrix, 0 where it lies in the first. */
static inline int ostrubel_in_second(uint64_t answer) { return (int)(answer & 1); }

/* Of a row view: the word of that matrix at which the part begins, and how many words it has. */
static inline uint32_t ostrubel_part_from(uint64_t answer) { return (uint32_t)(answer >> 32); }
static inline uint32_t ostrubel_part_count(uint64_t answer) { return (uint32_t)((answer >> 8) & 0xFFFFFF); }

/* ---- Matrices in buffers of their own ---- */

/* Whether the words begin with a valid matrix. Refused by 3. */
uint64_t ostrubel_check(const uint32_t *words, ostrubel_size words_len);

/* An empty matrix at the front of the buffer, whatever was there: rows + 9 words, revision 0. Refused by 8, 11. */
uint64_t ostrubel_new_empty(uint32_t rows, uint32_t cols, uint32_t *buffer, ostrubel_size buffer_len);

/* The cell at row i and column j, and its position. Refused by 3, 7. */
uint64_t ostrubel_read_cell(uint32_t i, uint32_t j, const uint32_t *words, ostrubel_size words_len);

/* The revision of the matrix. Take the answer apart by ostrubel_code and ostrubel_revision_number. Refused by 3. */
uint64_t ostrubel_revision(const uint32_t *words, ostrubel_size words_len);

/*
 * All values of the matrix added up with a monoid. Of a matrix with no entries it is the monoid's identity: 0 for PLUS, 1
 * for TIMES, 2147483647 for MIN, -2147483648 for MAX. Take the answer apart by ostrubel_code and ostrubel_number. Refused by
 * 2, 3.
 */
uint64_t ostrubel_reduce(uint32_t monoid, const uint32_t *words, ostrubel_size words_len);

/*
 * Row i over two matrices of one shape: where the part lies that is shown. It lies in the first matrix where that row has
 * an entry, otherwise in the second. values: 0 for the row's column numbers, else for its values. This answer has no code:
 * take it apart by ostrubel_in_second, ostrubel_part_from and ostrubel_part_count. Where either matrix is not valid, the
 * shapes differ or there is no row i, the answer is 0: no words.
 */
uint64_t ostrubel_row_view(uint32_t i, uint32_t values, const uint32_t *first, ostrubel_size first_len,
                           const uint32_t *second, ostrubel_size second_len);

/*
 * The operations that write C. Each works out a result T and writes it back: with an accumulator Z is the union of old C
 * and T under it, else Z is T; inside the mask C takes Z, outside C keeps its entry, or loses it under OSTRUBEL_REPLACE.
 * A position is inside where the mask has an entry other than 0; with no mask every position is inside.
 *   flags            a sum of flags
 *   has_mask         0: no mask, and its words are not looked at; else there is one
 *   has_accumulator  0: no accumulator, and its number is not looked at; else there is one
 *   accumulator      a binary operator
 *   c                a valid matrix in a buffer that may be longer; at most 5,105 words are needed
 *   work             at least 15,315 words, any words; all zeros after the call
 * The answer's entries are those of the final C. Refused by 1 to 11: 4 only with a second input, 5 only with a mask, 7
 * only by extract and assign.
 */

/* C gets A times B: op multiplies, the monoid adds up. */
uint64_t ostrubel_mxm(uint32_t flags, uint32_t has_mask, uint32_t has_accumulator, uint32_t accumulator,
                      uint32_t monoid, uint32_t op, const uint32_t *a, ostrubel_size a_len, const uint32_t *b,
                      ostrubel_size b_len, const uint32_t *mask, ostrubel_size mask_len, uint32_t *c,
                      ostrubel_size c_len, uint32_t *work, ostrubel_size work_len);

/* C gets u times A, where u has one row. */
uint64_t ostrubel_vxm(uint32_t flags, uint32_t has_mask, uint32_t has_accumulator, uint32_t accumulator,
                      uint32_t monoid, uint32_t op, const uint32_t *u, ostrubel_size u_len, const uint32_t *a,
                      ostrubel_size a_len, const uint32_t *mask, ostrubel_size mask_len, uint32_t *c,
                      ostrubel_size c_len, uint32_t *work, ostrubel_size work_len);

/* ostrubel_mxm and ostrubel_vxm by the first of the library's two engines of the product, for comparison: the same answers
 * and the same words, in more time. */
uint64_t ostrubel_mxm_by_places(uint32_t flags, uint32_t has_mask, uint32_t has_accumulator, uint32_t accumulator,
                                uint32_t monoid, uint32_t op, const uint32_t *a, ostrubel_size a_len, const uint32_t *b,
                                ostrubel_size b_len, const uint32_t *mask, ostrubel_size mask_len, uint32_t *c,
                                ostrubel_size c_len, uint32_t *work, ostrubel_size work_len);

uint64_t ostrubel_vxm_by_places(uint32_t flags, uint32_t has_mask, uint32_t has_accumulator, uint32_t accumulator,
                                uint32_t monoid, uint32_t op, const uint32_t *u, ostrubel_size u_len, const uint32_t *a,
                                ostrubel_size a_len, const uint32_t *mask, ostrubel_size mask_len, uint32_t *c,
                                ostrubel_size c_len, uint32_t *work, ostrubel_size work_len);

/* Where both A and B have an entry: op of the two. */
uint64_t ostrubel_ewise_mult(uint32_t flags, uint32_t has_mask, uint32_t has_accumulator, uint32_t accumulator,
                             uint32_t op, const uint32_t *a, ostrubel_size a_len, const uint32_t *b,
                             ostrubel_size b_len, const uint32_t *mask, ostrubel_size mask_len, uint32_t *c,
                             ostrubel_size c_len, uint32_t *work, ostrubel_size work_len);

/* Where both A and B have an entry: op of the two; where one has: its value. */
uint64_t ostrubel_ewise_add(uint32_t flags, uint32_t has_mask, uint32_t has_accumulator, uint32_t accumulator,
                            uint32_t op, const uint32_t *a, ostrubel_size a_len, const uint32_t *b, ostrubel_size b_len,
                            const uint32_t *mask, ostrubel_size mask_len, uint32_t *c, ostrubel_size c_len,
                            uint32_t *work, ostrubel_size work_len);

/* An operator of a kind, with a scalar, on every entry of A. */
uint64_t ostrubel_apply(uint32_t flags, uint32_t has_mask, uint32_t has_accumulator, uint32_t accumulator,
                        uint32_t kind, uint32_t op, uint32_t scalar, const uint32_t *a, ostrubel_size a_len,
                        const uint32_t *mask, ostrubel_size mask_len, uint32_t *c, ostrubel_size c_len, uint32_t *work,
                        ostrubel_size work_len);

/* At (i, j) the cell of A at row is[i] and column js[j]. The lists have no count in front. No index may occur twice in
   one list; the same index in both is fine. */
uint64_t ostrubel_extract(uint32_t flags, uint32_t has_mask, uint32_t has_accumulator, uint32_t accumulator,
                          const uint32_t *a, ostrubel_size a_len, const uint32_t *is, ostrubel_size is_len,
                          const uint32_t *js, ostrubel_size js_len, const uint32_t *mask, ostrubel_size mask_len,
                          uint32_t *c, ostrubel_size c_len, uint32_t *work, ostrubel_size work_len);

/* The entries of A for which a condition with a scalar holds, as they are. */
uint64_t ostrubel_select(uint32_t flags, uint32_t has_mask, uint32_t has_accumulator, uint32_t accumulator, uint32_t op,
                         uint32_t scalar, const uint32_t *a, ostrubel_size a_len, const uint32_t *mask,
                         ostrubel_size mask_len, uint32_t *c, ostrubel_size c_len, uint32_t *work,
                         ostrubel_size work_len);

/* In one row, at column j, the values of A's row j added up with the monoid; nothing where that row has no entries. C and
   the mask have one row, and a column for each row of A (as transposed). */
uint64_t ostrubel_reduce_rows(uint32_t flags, uint32_t has_mask, uint32_t has_accumulator, uint32_t accumulator,
                              uint32_t monoid, const uint32_t *a, ostrubel_size a_len, const uint32_t *mask,
                              ostrubel_size mask_len, uint32_t *c, ostrubel_size c_len, uint32_t *work,
                              ostrubel_size work_len);

/* A written into C: at row is[k] and column js[l] the cell of A at row k and column l, empty ones too; with an accumulator
   the union of C's and A's. The other cells of C stay, as far as the mask lets them, which has C's shape. A (as transposed)
   has as many rows and columns as the lists have indexes; these are held against C, and none may occur twice in one list. */
uint64_t ostrubel_assign(uint32_t flags, uint32_t has_mask, uint32_t has_accumulator, uint32_t accumulator,
                         const uint32_t *a, ostrubel_size a_len, const uint32_t *is, ostrubel_size is_len,
                         const uint32_t *js, ostrubel_size js_len, const uint32_t *mask, ostrubel_size mask_len,
                         uint32_t *c, ostrubel_size c_len, uint32_t *work, ostrubel_size work_len);

/* The Kronecker product: at (i p + k, j q + l) op of A's value at (i, j) and B's at (k, l), where B (as transposed) has p
   rows and q columns. Refused by 8 where it would have more than 1,000 rows or columns. */
uint64_t ostrubel_kronecker(uint32_t flags, uint32_t has_mask, uint32_t has_accumulator, uint32_t accumulator,
                            uint32_t op, const uint32_t *a, ostrubel_size a_len, const uint32_t *b, ostrubel_size b_len,
                            const uint32_t *mask, ostrubel_size mask_len, uint32_t *c, ostrubel_size c_len,
                            uint32_t *work, ostrubel_size work_len);

/* ---- Matrices in the slots of a store ---- */

/* An empty matrix in a slot, whatever was there. Refused by 12, 8, 11. */
uint64_t ostrubel_store_new_empty(ostrubel_size slot, uint32_t rows, uint32_t cols, uint32_t *store,
                                  ostrubel_size store_len);

/* A slot becomes empty; its words serve others. Answers 0 entries. Refused by 12. */
uint64_t ostrubel_store_drop(ostrubel_size slot, uint32_t *store, ostrubel_size store_len);

/* The cell at row i and column j takes a value. Answers the matrix's entries. Refused by 12, 13, 7, 10, 11. */
uint64_t ostrubel_store_set_cell(ostrubel_size slot, uint32_t i, uint32_t j, uint32_t value, uint32_t *store,
                                 ostrubel_size store_len);

/* The cell becomes absent, or stays so. Answers the matrix's entries. Refused by 12, 13, 7. */
uint64_t ostrubel_store_clear_cell(ostrubel_size slot, uint32_t i, uint32_t j, uint32_t *store,
                                   ostrubel_size store_len);

/* The cell at row i and column j, and its position. Refused by 12, 13, 7. */
uint64_t ostrubel_store_read_cell(ostrubel_size slot, uint32_t i, uint32_t j, const uint32_t *store,
                                  ostrubel_size store_len);

/* All values of a slot's matrix added up with a monoid, as by ostrubel_reduce. Refused by 12, 2, 13. */
uint64_t ostrubel_store_reduce(ostrubel_size slot, uint32_t monoid, const uint32_t *store, ostrubel_size store_len);

/*
 * The value of a formula over the slots takes the place of what the target holds, if anything. The text is `text_len`
 * bytes, at most 64, with no blanks: terms joined by +, a term factors joined by *, a factor a digit 0 to 7, which names
 * a slot, or a formula in round brackets, of which at most three are open at once. * is the product by the monoid and the
 * operator, + the union by the monoid's operator, both from left to right. All slots are read before the target is
 * written. Answers the result's entries. Refused by 12, 2, 14, 13 (a slot that the text names), 9, the first failing
 * step's 8 or 10, and 11. The stack has at least 65,000 words, and is all zeros after every call.
 */
uint64_t ostrubel_store_formula(ostrubel_size target, uint32_t monoid, uint32_t op, const uint8_t *text,
                                ostrubel_size text_len, uint32_t *store, ostrubel_size store_len, uint32_t *stack,
                                ostrubel_size stack_len);

/*
 * The operations by slots, with options, operators and workspace as above. One slot may have several roles: all are
 * read before C is written. The slot of a mask is not looked at where has_mask is 0. Refused by 12, then 1, 2, 13, and 7
 * to 11; 7 only by extract and assign.
 */

uint64_t ostrubel_store_mxm(uint32_t flags, uint32_t has_mask, uint32_t has_accumulator, uint32_t accumulator,
                            uint32_t monoid, uint32_t op, ostrubel_size a, ostrubel_size b, ostrubel_size mask,
                            ostrubel_size c, uint32_t *store, ostrubel_size store_len, uint32_t *work,
                            ostrubel_size work_len);

uint64_t ostrubel_store_vxm(uint32_t flags, uint32_t has_mask, uint32_t has_accumulator, uint32_t accumulator,
                            uint32_t monoid, uint32_t op, ostrubel_size u, ostrubel_size a, ostrubel_size mask,
                            ostrubel_size c, uint32_t *store, ostrubel_size store_len, uint32_t *work,
                            ostrubel_size work_len);

uint64_t ostrubel_store_ewise_mult(uint32_t flags, uint32_t has_mask, uint32_t has_accumulator, uint32_t accumulator,
                                   uint32_t op, ostrubel_size a, ostrubel_size b, ostrubel_size mask, ostrubel_size c,
                                   uint32_t *store, ostrubel_size store_len, uint32_t *work, ostrubel_size work_len);

uint64_t ostrubel_store_ewise_add(uint32_t flags, uint32_t has_mask, uint32_t has_accumulator, uint32_t accumulator,
                                  uint32_t op, ostrubel_size a, ostrubel_size b, ostrubel_size mask, ostrubel_size c,
                                  uint32_t *store, ostrubel_size store_len, uint32_t *work, ostrubel_size work_len);

uint64_t ostrubel_store_apply(uint32_t flags, uint32_t has_mask, uint32_t has_accumulator, uint32_t accumulator,
                              uint32_t kind, uint32_t op, uint32_t scalar, ostrubel_size a, ostrubel_size mask,
                              ostrubel_size c, uint32_t *store, ostrubel_size store_len, uint32_t *work,
                              ostrubel_size work_len);

uint64_t ostrubel_store_extract(uint32_t flags, uint32_t has_mask, uint32_t has_accumulator, uint32_t accumulator,
                                ostrubel_size a, ostrubel_size mask, ostrubel_size c, uint32_t *store,
                                ostrubel_size store_len, const uint32_t *is, ostrubel_size is_len, const uint32_t *js,
                                ostrubel_size js_len, uint32_t *work, ostrubel_size work_len);

uint64_t ostrubel_store_select(uint32_t flags, uint32_t has_mask, uint32_t has_accumulator, uint32_t accumulator,
                               uint32_t op, uint32_t scalar, ostrubel_size a, ostrubel_size mask, ostrubel_size c,
                               uint32_t *store, ostrubel_size store_len, uint32_t *work, ostrubel_size work_len);

uint64_t ostrubel_store_reduce_rows(uint32_t flags, uint32_t has_mask, uint32_t has_accumulator, uint32_t accumulator,
                                    uint32_t monoid, ostrubel_size a, ostrubel_size mask, ostrubel_size c,
                                    uint32_t *store, ostrubel_size store_len, uint32_t *work, ostrubel_size work_len);

uint64_t ostrubel_store_assign(uint32_t flags, uint32_t has_mask, uint32_t has_accumulator, uint32_t accumulator,
                               ostrubel_size a, ostrubel_size mask, ostrubel_size c, uint32_t *store,
                               ostrubel_size store_len, const uint32_t *is, ostrubel_size is_len, const uint32_t *js,
                               ostrubel_size js_len, uint32_t *work, ostrubel_size work_len);

uint64_t ostrubel_store_kronecker(uint32_t flags, uint32_t has_mask, uint32_t has_accumulator, uint32_t accumulator,
                                  uint32_t op, ostrubel_size a, ostrubel_size b, ostrubel_size mask, ostrubel_size c,
                                  uint32_t *store, ostrubel_size store_len, uint32_t *work, ostrubel_size work_len);

/* ---- Files and texts: bytes that the caller owns, passed as a pointer and their number ---- */

/*
 * A file is the words of a valid matrix and nothing more, four bytes each, the lowest byte first. A matrix with its revision
 * has one file, and reading what was written gives the words back. A file of the form before revisions, which begins with 2,
 * is read too: its matrix has revision 0. Any number of bytes may be passed.
 */

/* The matrix of a file at the front of the words. Answers its entries. Refused by 15, 11. */
uint64_t ostrubel_read_file(const uint8_t *bytes, ostrubel_size bytes_len, uint32_t *words, ostrubel_size words_len);

/* The file of a matrix at the front of the bytes; the matrix's spare words are not written. Refused by 3, 11. */
uint64_t ostrubel_write_file(const uint32_t *words, ostrubel_size words_len, uint8_t *bytes, ostrubel_size bytes_len);

/*
 * The matrix as text at the front of the bytes: a line "R C N", then a line "row column value" for each entry, row by row
 * and from left to right, in signed decimals, each line ended by a newline byte. Answers how many bytes were written; take
 * it by ostrubel_text_length. Refused by 3, and by 11 where there are fewer than OSTRUBEL_MAX_TEXT_BYTES bytes.
 */
uint64_t ostrubel_write_text(const uint32_t *words, ostrubel_size words_len, uint8_t *bytes, ostrubel_size bytes_len);

/* ---- Keys behind doors ---- */

/*
 * The doors that open within an allowance of rounds: a new 1 by doors matrix at the front of out, whatever was there,
 * in which each door that opens has the first round it opens in. An entry counts whatever its value, also 0.
 *   allowance  0 to 1,000 rounds; one beyond the number of keys adds nothing
 *   locks      keys by doors: the key opens the door
 *   cabinets   doors by keys: the key is behind the door
 *   hand       1 by keys: the keys in hand
 *   out        2 times the doors that open and 8 words are needed
 *   work       at least 15,315 words, any words; all zeros after the call
 * In round 0 the keys in hand open doors; in each later round those, and the keys behind doors that were open in the
 * round before. The answer's entries are the doors. Refused by 3 (locks), 4 (cabinets), 5 (hand), 7 (an allowance above
 * 1,000), 8, 9, 11.
 */
uint64_t ostrubel_open_doors(uint32_t allowance, const uint32_t *locks, ostrubel_size locks_len,
                             const uint32_t *cabinets, ostrubel_size cabinets_len, const uint32_t *hand,
                             ostrubel_size hand_len, uint32_t *out, ostrubel_size out_len, uint32_t *work,
                             ostrubel_size work_len);

/* ---- A day matrix over a base matrix ---- */

/*
 * During a day whole rows are rewritten. They are kept in a day matrix beside the base matrix, both of one shape R by C,
 * with marks, a 1 by R matrix whose entries, whatever their value, mark the rewritten rows. A row is shown from the day
 * matrix where it is marked, even if it is empty there, otherwise from the base matrix. None of these calls has a
 * workspace, and both matrices that a call writes are looked at before either is written.
 */

/*
 * Row i of the day matrix becomes the row of the 1 by C matrix row, and is marked with 1. The answer's entries are the day
 * matrix's. The day matrix and the marks must fit their buffers afterwards. Refused by 4 (day), 5 (marks), 6 (row), 7 (no
 * row i in the day matrix), 8, 10, 11.
 */
uint64_t ostrubel_day_rewrite(uint32_t i, const uint32_t *row, ostrubel_size row_len, uint32_t *day,
                              ostrubel_size day_len, uint32_t *marks, ostrubel_size marks_len);

/*
 * A rewrite is taken back: row i of the day matrix becomes empty, marked or not, and its mark goes, if there is one. The
 * answer's entries are the day matrix's. Refused by 4 (day), 5 (marks), 7 (no row i in the day matrix), 8.
 */
uint64_t ostrubel_day_back(uint32_t i, uint32_t *day, ostrubel_size day_len, uint32_t *marks, ostrubel_size marks_len);

/*
 * The cell at row i and column j as it is shown. Take the answer apart as that of ostrubel_read_cell; the position is
 * counted in the matrix that the row is shown from. Refused by 3 (base), 4 (day), 5 (marks), 7 (past the base matrix), 8.
 */
uint64_t ostrubel_day_read(uint32_t i, uint32_t j, const uint32_t *base, ostrubel_size base_len, const uint32_t *day,
                           ostrubel_size day_len, const uint32_t *marks, ostrubel_size marks_len);

/*
 * A new matrix at the front of out, whatever was there, with all rows as they are shown. Refused by 3 (base), 4 (day), 5
 * (marks), 8, 10, 11.
 */
uint64_t ostrubel_day_fold(const uint32_t *base, ostrubel_size base_len, const uint32_t *day, ostrubel_size day_len,
                           const uint32_t *marks, ostrubel_size marks_len, uint32_t *out, ostrubel_size out_len);

/*
 * Where row i lies as it is shown: as ostrubel_row_view, with the day matrix as the second. values: 0 for the row's
 * column numbers, else for its values. Where a matrix is not valid, the shapes differ or there is no row i, the answer is
 * 0: no words.
 */
uint64_t ostrubel_day_show(uint32_t i, uint32_t values, const uint32_t *base, ostrubel_size base_len,
                           const uint32_t *day, ostrubel_size day_len, const uint32_t *marks, ostrubel_size marks_len);

#ifdef __cplusplus
}
#endif

#endif
