/*
 * Calls every function of ostrubel.h at least once and compares the answers and the words. Prints "ok", or the line of
 * the first difference. host/c/run.sh builds and runs it.
 */
#include <stdio.h>
#include <stdlib.h>
#include <string.h>

#include "ostrubel.h"

#define WORDS(x) (x), (sizeof(x) / sizeof((x)[0]))
#define NO_MASK none, 0
#define PLAIN 0, 0, 0, 0 /* no flags, no mask, no accumulator */

#define CHECK(condition)                                                \
    do {                                                                \
        if (!(condition)) {                                             \
            printf("failed at line %d: %s\n", __LINE__, #condition);    \
            exit(1);                                                    \
        }                                                               \
    } while (0)

/* The answer, and the words of x from the first on. */
#define ACCEPTED(answer, n) CHECK((answer) == (uint64_t)(n) << 32)
#define REFUSED(answer, code) CHECK((answer) == (uint64_t)(code))
#define SAME(x, ...)                                                    \
    do {                                                                \
        const uint32_t expected[] = {__VA_ARGS__};                      \
        CHECK(memcmp((x), expected, sizeof(expected)) == 0);            \
    } while (0)

static uint32_t work[OSTRUBEL_MIN_WORKSPACE_WORDS];
static const uint32_t none[1] = {0};

/* "The 1 by 4 strip with 10, 20, 40 at columns 0, 1, 3". */
static const uint32_t strip[] = {1, 0, 2, 1, 4, 2, 0, 3, 3, 0, 1, 3, 3, 10, 20, 40};

/* The 4 by 3 matrix of P1. */
static const uint32_t matrix[] = {1, 0, 2, 4, 3, 5, 0, 2, 4, 6, 8, 8, 1, 2, 0, 1, 1, 2, 0, 1, 8, 3, 2, 9, 6, 3, 1, 0, 5};

/* T and the mask of P7 to P12. */
static const uint32_t result[] = {1, 0, 2, 1, 4, 2, 0, 2, 2, 1, 3, 2, 9, 9};
static const uint32_t mask[] = {1, 0, 2, 1, 4, 2, 0, 3, 3, 0, 1, 3, 3, 1, 0, 5};

/* Any words in the workspace, and whether a call left only zeros there. */
static void fill_work(void) { memset(work, 0xa5, sizeof(work)); }

static int work_cleared(void) {
    for (size_t i = 0; i < OSTRUBEL_MIN_WORKSPACE_WORDS; i++) {
        if (work[i] != 0) return 0;
    }
    return 1;
}

static void test_format(void) {
    ACCEPTED(ostrubel_check(WORDS(strip)), 3);
    ACCEPTED(ostrubel_check(WORDS(matrix)), 8);
    REFUSED(ostrubel_check(strip, 15), OSTRUBEL_INVALID_FIRST);
    REFUSED(ostrubel_check(none, 0), OSTRUBEL_INVALID_FIRST);

    uint32_t buffer[12] = {7, 7, 7, 7, 7, 7, 7, 7, 7, 7, 7, 7};
    REFUSED(ostrubel_new_empty(OSTRUBEL_MAX_ROWS + 1, 3, WORDS(buffer)), OSTRUBEL_INVALID_SHAPE);
    REFUSED(ostrubel_new_empty(2, OSTRUBEL_MAX_COLS + 1, WORDS(buffer)), OSTRUBEL_INVALID_SHAPE);
    REFUSED(ostrubel_new_empty(4, 3, WORDS(buffer)), OSTRUBEL_INSUFFICIENT_SPACE);
    SAME(buffer, 7, 7, 7, 7, 7, 7, 7, 7, 7, 7, 7, 7);
    ACCEPTED(ostrubel_new_empty(2, 3, WORDS(buffer)), 0);
    SAME(buffer, 1, 0, 2, 2, 3, 3, 0, 0, 0, 0, 0, 7);

    uint64_t cell = ostrubel_read_cell(0, 1, WORDS(strip));
    CHECK(ostrubel_code(cell) == OSTRUBEL_OK && ostrubel_present(cell) && ostrubel_value(cell) == 20);
    CHECK(ostrubel_position(cell) == 1);
    cell = ostrubel_read_cell(3, 0, WORDS(matrix)); /* an entry 0 */
    CHECK(ostrubel_code(cell) == OSTRUBEL_OK && ostrubel_present(cell) && ostrubel_value(cell) == 0);
    cell = ostrubel_read_cell(0, 2, WORDS(strip)); /* it would be put before the entry of column 3 */
    CHECK(ostrubel_code(cell) == OSTRUBEL_OK && !ostrubel_present(cell) && ostrubel_value(cell) == 0);
    CHECK(ostrubel_position(cell) == 2);
    REFUSED(ostrubel_read_cell(0, 4, WORDS(strip)), OSTRUBEL_INDEX_OUT_OF_BOUNDS);
    REFUSED(ostrubel_read_cell(0, 1, strip, 5), OSTRUBEL_INVALID_FIRST);
}

static void test_row_view(void) {
    /* 2 by 4 each: row 0 is 1:9, 3:9 in the first; row 1 is empty there and 0:5 in the second */
    static const uint32_t first[] = {1, 0, 2, 2, 4, 3, 0, 2, 2, 2, 1, 3, 2, 9, 9};
    static const uint32_t second[] = {1, 0, 2, 2, 4, 3, 0, 1, 2, 2, 2, 0, 2, 7, 5};
    uint64_t part = ostrubel_row_view(0, 0, WORDS(first), WORDS(second));
    CHECK(!ostrubel_in_second(part) && ostrubel_part_from(part) == 10 && ostrubel_part_count(part) == 2);
    part = ostrubel_row_view(0, 1, WORDS(first), WORDS(second));
    CHECK(!ostrubel_in_second(part) && ostrubel_part_from(part) == 13 && ostrubel_part_count(part) == 2);
    part = ostrubel_row_view(1, 4294967295, WORDS(first), WORDS(second));
    CHECK(ostrubel_in_second(part) && ostrubel_part_count(part) == 1 && second[ostrubel_part_from(part)] == 5);
    CHECK(ostrubel_row_view(2, 0, WORDS(first), WORDS(second)) == 0);
    CHECK(ostrubel_row_view(0, 0, WORDS(first), WORDS(strip)) == 0);
    CHECK(ostrubel_row_view(0, 0, WORDS(first), second, 14) == 0);
}

static void test_products(void) {
    uint32_t c[18] = {0};
    ACCEPTED(ostrubel_new_empty(1, 3, WORDS(c)), 0);
    c[16] = 99; /* a spare word */
    fill_work();
    uint64_t answer = ostrubel_vxm(PLAIN, OSTRUBEL_PLUS, OSTRUBEL_PLUS, WORDS(strip), WORDS(matrix), NO_MASK, WORDS(c),
                                   WORDS(work));
    CHECK(ostrubel_code(answer) == OSTRUBEL_OK && ostrubel_entries(answer) == 3);
    SAME(c, 1, 1, 2, 1, 3, 2, 0, 3, 3, 0, 1, 2, 3, 69, 84, 12, 99, 0);
    CHECK(work_cleared());

    /* the first engine of the product: the same answer and the same words */
    uint32_t d[18] = {0};
    ACCEPTED(ostrubel_new_empty(1, 3, WORDS(d)), 0);
    d[16] = 99;
    fill_work();
    CHECK(ostrubel_vxm_by_places(PLAIN, OSTRUBEL_PLUS, OSTRUBEL_PLUS, WORDS(strip), WORDS(matrix), NO_MASK, WORDS(d),
                                 WORDS(work)) == answer);
    SAME(d, 1, 1, 2, 1, 3, 2, 0, 3, 3, 0, 1, 2, 3, 69, 84, 12, 99, 0);
    CHECK(work_cleared());
    CHECK(ostrubel_mxm_by_places(PLAIN, OSTRUBEL_PLUS, OSTRUBEL_PLUS, WORDS(strip), WORDS(matrix), NO_MASK, WORDS(d),
                                 WORDS(work)) == answer);
    SAME(d, 1, 2, 2, 1, 3, 2, 0, 3, 3, 0, 1, 2, 3, 69, 84, 12, 99, 0);

    /* the accumulator: PLUS of old C and the same again */
    ACCEPTED(ostrubel_mxm(0, 0, 1, OSTRUBEL_PLUS, OSTRUBEL_PLUS, OSTRUBEL_PLUS, WORDS(strip), WORDS(matrix), NO_MASK,
                          WORDS(c), WORDS(work)), 3);
    SAME(c, 1, 2, 2, 1, 3, 2, 0, 3, 3, 0, 1, 2, 3, 138, 168, 24, 99, 0);

    /* refusals: the codes in their order, C as it was and the workspace cleared */
    fill_work();
    REFUSED(ostrubel_mxm(32, 0, 1, 8, 4, 9, none, 0, none, 0, NO_MASK, WORDS(c), WORDS(work)),
            OSTRUBEL_FLAGS_OUT_OF_RANGE);
    CHECK(work_cleared());
    REFUSED(ostrubel_mxm(PLAIN, OSTRUBEL_MINUS, OSTRUBEL_PLUS, WORDS(strip), WORDS(matrix), NO_MASK, WORDS(c),
                         WORDS(work)), OSTRUBEL_UNKNOWN_OPERATOR);
    REFUSED(ostrubel_mxm(PLAIN, OSTRUBEL_PLUS, OSTRUBEL_PLUS, WORDS(matrix), WORDS(matrix), NO_MASK, WORDS(c),
                         WORDS(work)), OSTRUBEL_INVALID_SHAPE);
    REFUSED(ostrubel_vxm(PLAIN, OSTRUBEL_PLUS, OSTRUBEL_PLUS, WORDS(strip), WORDS(matrix), NO_MASK, WORDS(c), work,
                         OSTRUBEL_MIN_WORKSPACE_WORDS - 1), OSTRUBEL_WORKSPACE_TOO_SHORT);
    SAME(c, 1, 2, 2, 1, 3, 2, 0, 3, 3, 0, 1, 2, 3, 138, 168, 24, 99, 0);
}

static void test_elementwise(void) {
    uint32_t c[17] = {0};
    const uint32_t lone[] = {1, 0, 2, 1, 4, 2, 0, 1, 1, 2, 1, 7};

    ACCEPTED(ostrubel_new_empty(1, 4, WORDS(c)), 0);
    ACCEPTED(ostrubel_ewise_mult(PLAIN, OSTRUBEL_MINUS, WORDS(strip), WORDS(strip), NO_MASK, WORDS(c), WORDS(work)), 3);
    SAME(c, 1, 1, 2, 1, 4, 2, 0, 3, 3, 0, 1, 3, 3, 0, 0, 0);

    /* four entries need 18 words */
    REFUSED(ostrubel_ewise_add(PLAIN, OSTRUBEL_MINUS, WORDS(strip), WORDS(lone), NO_MASK, WORDS(c), WORDS(work)),
            OSTRUBEL_INSUFFICIENT_SPACE);
    SAME(c, 1, 1, 2, 1, 4, 2, 0, 3, 3, 0, 1, 3, 3, 0, 0, 0);
    uint32_t wide[18] = {0};
    ACCEPTED(ostrubel_new_empty(1, 4, WORDS(wide)), 0);
    ACCEPTED(ostrubel_ewise_add(PLAIN, OSTRUBEL_MINUS, WORDS(strip), WORDS(lone), NO_MASK, WORDS(wide), WORDS(work)),
             4);
    SAME(wide, 1, 1, 2, 1, 4, 2, 0, 4, 4, 0, 1, 2, 3, 4, 10, 20, 7, 40);

    /* P2 and P3 */
    ACCEPTED(ostrubel_apply(PLAIN, OSTRUBEL_SCALAR_SECOND, OSTRUBEL_MINUS, 15, WORDS(strip), NO_MASK, WORDS(c),
                            WORDS(work)), 3);
    SAME(c, 1, 2, 2, 1, 4, 2, 0, 3, 3, 0, 1, 3, 3, 4294967291, 5, 25);
    ACCEPTED(ostrubel_apply(PLAIN, OSTRUBEL_INDEX_UNARY, OSTRUBEL_COLINDEX, 0, WORDS(strip), NO_MASK, WORDS(c),
                            WORDS(work)), 3);
    SAME(c, 1, 3, 2, 1, 4, 2, 0, 3, 3, 0, 1, 3, 3, 0, 1, 3);

    /* an entry stored at (2, 5) of a transposed input has row 5 and column 2 */
    const uint32_t stored[] = {1, 0, 2, 3, 6, 4, 0, 0, 0, 1, 1, 5, 1, 7};
    const uint32_t numbers[] = {5, 2, 4294967293}; /* ROWINDEX, COLINDEX, DIAGINDEX: j - i is -3 */
    uint32_t turned[17];
    for (uint32_t op = OSTRUBEL_ROWINDEX; op <= OSTRUBEL_DIAGINDEX; op++) {
        ACCEPTED(ostrubel_new_empty(6, 3, WORDS(turned)), 0);
        ACCEPTED(ostrubel_apply(OSTRUBEL_TRANSPOSE_FIRST, 0, 0, 0, OSTRUBEL_INDEX_UNARY, op, 0, WORDS(stored), NO_MASK,
                                WORDS(turned), WORDS(work)), 1);
        SAME(turned, 1, 1, 2, 6, 3, 7, 0, 0, 0, 0, 0, 0, 1, 1, 2, 1, numbers[op]);
    }

    /* the columns in another order; an index in both lists is fine, twice in one list it is refused */
    const uint32_t rows[] = {0};
    const uint32_t cols[] = {3, 2, 0, 1};
    const uint32_t twice[] = {3, 2, 3, 0};
    ACCEPTED(ostrubel_extract(PLAIN, WORDS(strip), WORDS(rows), WORDS(cols), NO_MASK, WORDS(c), WORDS(work)), 3);
    SAME(c, 1, 4, 2, 1, 4, 2, 0, 3, 3, 0, 2, 3, 3, 40, 10, 20);
    REFUSED(ostrubel_extract(PLAIN, WORDS(strip), WORDS(rows), WORDS(twice), NO_MASK, WORDS(c), WORDS(work)),
            OSTRUBEL_INDEX_OUT_OF_BOUNDS);
    REFUSED(ostrubel_extract(PLAIN, WORDS(strip), WORDS(cols), WORDS(rows), NO_MASK, WORDS(c), WORDS(work)),
            OSTRUBEL_INDEX_OUT_OF_BOUNDS);
    SAME(c, 1, 4, 2, 1, 4, 2, 0, 3, 3, 0, 2, 3, 3, 40, 10, 20);
}

/* select and reduce */
static void test_select_and_reduce(void) {
    uint32_t c[18] = {0};
    ACCEPTED(ostrubel_new_empty(1, 4, WORDS(c)), 0);
    ACCEPTED(ostrubel_select(PLAIN, OSTRUBEL_VALUEGE, 20, WORDS(strip), NO_MASK, WORDS(c), WORDS(work)), 2);
    SAME(c, 1, 1, 2, 1, 4, 2, 0, 2, 2, 1, 3, 2, 20, 40);
    ACCEPTED(ostrubel_select(PLAIN, OSTRUBEL_VALUELT, 20, WORDS(strip), NO_MASK, WORDS(c), WORDS(work)), 1);
    SAME(c, 1, 2, 2, 1, 4, 2, 0, 1, 1, 0, 1, 10);
    /* -1 is below every value; the largest scalar keeps the whole lower triangle and nothing of the upper */
    ACCEPTED(ostrubel_select(PLAIN, OSTRUBEL_VALUEGT, 4294967295, WORDS(strip), NO_MASK, WORDS(c), WORDS(work)), 3);
    ACCEPTED(ostrubel_select(PLAIN, OSTRUBEL_TRIL, 2147483647, WORDS(strip), NO_MASK, WORDS(c), WORDS(work)), 3);
    ACCEPTED(ostrubel_select(PLAIN, OSTRUBEL_TRIU, 2147483647, WORDS(strip), NO_MASK, WORDS(c), WORDS(work)), 0);
    fill_work();
    REFUSED(ostrubel_select(PLAIN, 8, 0, WORDS(strip), NO_MASK, WORDS(c), WORDS(work)), OSTRUBEL_UNKNOWN_OPERATOR);
    CHECK(work_cleared());

    /* the rows of the 4 by 3 matrix: 3 + 2, 9 + 6, 3 + 1, 0 + 5; one without entries; the columns by flag 8 */
    ACCEPTED(ostrubel_reduce_rows(PLAIN, OSTRUBEL_PLUS, WORDS(matrix), NO_MASK, WORDS(c), WORDS(work)), 4);
    SAME(c, 1, 6, 2, 1, 4, 2, 0, 4, 4, 0, 1, 2, 3, 4, 5, 15, 4, 5);
    const uint32_t lone[] = {1, 0, 2, 4, 2, 5, 0, 0, 2, 2, 2, 2, 0, 1, 2, 5, 4294967291};
    ACCEPTED(ostrubel_reduce_rows(PLAIN, OSTRUBEL_PLUS, WORDS(lone), NO_MASK, WORDS(c), WORDS(work)), 1);
    SAME(c, 1, 7, 2, 1, 4, 2, 0, 1, 1, 1, 1, 0);
    uint32_t columns[18] = {0};
    ACCEPTED(ostrubel_new_empty(1, 3, WORDS(columns)), 0);
    ACCEPTED(ostrubel_reduce_rows(OSTRUBEL_TRANSPOSE_FIRST, 0, 0, 0, OSTRUBEL_MAX, WORDS(matrix), NO_MASK,
                                  WORDS(columns), WORDS(work)), 3);
    SAME(columns, 1, 1, 2, 1, 3, 2, 0, 3, 3, 0, 1, 2, 3, 9, 6, 2);
    REFUSED(ostrubel_reduce_rows(PLAIN, OSTRUBEL_PLUS, WORDS(matrix), NO_MASK, WORDS(columns), WORDS(work)),
            OSTRUBEL_INVALID_SHAPE);

    /* 7 and an empty cell into columns 2 and 0 of row 1: (1,0) becomes empty, and the cells that are not listed stay */
    const uint32_t seven[] = {1, 0, 2, 1, 2, 2, 0, 1, 1, 0, 1, 7};
    const uint32_t row[] = {1};
    const uint32_t turned[] = {2, 0};
    uint32_t into[20] = {1, 0, 2, 2, 3, 3, 0, 1, 4, 4, 2, 0, 1, 2, 4, 2, 10, 11, 12};
    ACCEPTED(ostrubel_assign(PLAIN, WORDS(seven), WORDS(row), WORDS(turned), NO_MASK, WORDS(into), WORDS(work)), 3);
    SAME(into, 1, 1, 2, 2, 3, 3, 0, 1, 3, 3, 2, 1, 2, 3, 2, 11, 7);
    /* the listed places are A again, with a revision of their own */
    uint32_t back[12] = {0};
    ACCEPTED(ostrubel_new_empty(1, 2, WORDS(back)), 0);
    ACCEPTED(ostrubel_extract(PLAIN, WORDS(into), WORDS(row), WORDS(turned), NO_MASK, WORDS(back), WORDS(work)), 1);
    CHECK(memcmp(back + 2, seven + 2, sizeof(seven) - 8) == 0);
    /* with an accumulator an empty cell of A leaves C's; 3 is past C's columns; A must be 1 by 2 */
    ACCEPTED(ostrubel_assign(0, 0, 1, OSTRUBEL_MINUS, WORDS(seven), WORDS(row), WORDS(turned), NO_MASK, WORDS(into),
                             WORDS(work)), 3);
    SAME(into, 1, 2, 2, 2, 3, 3, 0, 1, 3, 3, 2, 1, 2, 3, 2, 11, 0);
    const uint32_t past[] = {3, 0};
    REFUSED(ostrubel_assign(PLAIN, WORDS(seven), WORDS(row), WORDS(past), NO_MASK, WORDS(into), WORDS(work)),
            OSTRUBEL_INDEX_OUT_OF_BOUNDS);
    REFUSED(ostrubel_assign(PLAIN, WORDS(seven), WORDS(turned), WORDS(row), NO_MASK, WORDS(into), WORDS(work)),
            OSTRUBEL_INDEX_OUT_OF_BOUNDS);
    REFUSED(ostrubel_assign(PLAIN, WORDS(seven), WORDS(row), WORDS(row), NO_MASK, WORDS(into), WORDS(work)),
            OSTRUBEL_INVALID_SHAPE);

    /* 7 minus 10, 20 and 40, in a block of one row and four columns of the eight */
    uint32_t blocks[20] = {0};
    ACCEPTED(ostrubel_new_empty(1, 8, WORDS(blocks)), 0);
    ACCEPTED(ostrubel_kronecker(PLAIN, OSTRUBEL_MINUS, WORDS(seven), WORDS(strip), NO_MASK, WORDS(blocks), WORDS(work)),
             3);
    SAME(blocks, 1, 1, 2, 1, 8, 2, 0, 3, 3, 0, 1, 3, 3, 4294967293, 4294967283, 4294967263);
    REFUSED(ostrubel_kronecker(PLAIN, OSTRUBEL_MINUS, WORDS(seven), WORDS(strip), NO_MASK, WORDS(back), WORDS(work)),
            OSTRUBEL_INVALID_SHAPE);
    REFUSED(ostrubel_kronecker(PLAIN, 8, WORDS(seven), WORDS(strip), NO_MASK, WORDS(blocks), WORDS(work)),
            OSTRUBEL_UNKNOWN_OPERATOR);

    ACCEPTED(ostrubel_reduce(OSTRUBEL_PLUS, WORDS(strip)), 70);
    CHECK(ostrubel_number(ostrubel_reduce(OSTRUBEL_TIMES, WORDS(strip))) == 8000);
    const uint32_t empty[] = {1, 0, 2, 1, 1, 2, 0, 0, 0, 0};
    ACCEPTED(ostrubel_reduce(OSTRUBEL_PLUS, WORDS(empty)), 0);
    ACCEPTED(ostrubel_reduce(OSTRUBEL_TIMES, WORDS(empty)), 1);
    ACCEPTED(ostrubel_reduce(OSTRUBEL_MIN, WORDS(empty)), 2147483647);
    ACCEPTED(ostrubel_reduce(OSTRUBEL_MAX, WORDS(empty)), 2147483648);
    REFUSED(ostrubel_reduce(OSTRUBEL_MINUS, none, 0), OSTRUBEL_UNKNOWN_OPERATOR);
    REFUSED(ostrubel_reduce(OSTRUBEL_MIN, none, 0), OSTRUBEL_INVALID_FIRST);
}

/* P7, P8, P9 and P11: has_mask and has_accumulator are any number but 0. After the last revision comes 0. */
static void test_write_back(void) {
    const uint32_t old[18] = {1, 4294967295, 2, 1, 4, 2, 0, 3, 3, 0, 1, 2, 3, 1, 2, 3, 8, 8};
    uint32_t c[18];

    memcpy(c, old, sizeof(old));
    ACCEPTED(ostrubel_apply(0, 1, 0, 77, OSTRUBEL_UNARY, OSTRUBEL_IDENTITY, 0, WORDS(result), WORDS(mask), WORDS(c),
                            WORDS(work)), 3);
    SAME(c, 1, 0, 2, 1, 4, 2, 0, 3, 3, 1, 2, 3, 3, 2, 3, 9, 8, 8);

    memcpy(c, old, sizeof(old));
    ACCEPTED(ostrubel_apply(OSTRUBEL_REPLACE, 256, 0, 0, OSTRUBEL_UNARY, OSTRUBEL_IDENTITY, 0, WORDS(result),
                            WORDS(mask), WORDS(c), WORDS(work)), 1);
    SAME(c, 1, 0, 2, 1, 4, 2, 0, 1, 1, 3, 1, 9, 3, 1, 2, 3, 8, 8);

    memcpy(c, old, sizeof(old));
    ACCEPTED(ostrubel_apply(OSTRUBEL_STRUCTURAL, 1, 0, 0, OSTRUBEL_UNARY, OSTRUBEL_IDENTITY, 0, WORDS(result),
                            WORDS(mask), WORDS(c), WORDS(work)), 3);
    SAME(c, 1, 0, 2, 1, 4, 2, 0, 3, 3, 1, 2, 3, 3, 9, 3, 9, 8, 8);

    memcpy(c, old, sizeof(old));
    ACCEPTED(ostrubel_apply(0, 2, 4294967295, OSTRUBEL_PLUS, OSTRUBEL_UNARY, OSTRUBEL_IDENTITY, 0, WORDS(result),
                            WORDS(mask), WORDS(c), WORDS(work)), 4);
    SAME(c, 1, 0, 2, 1, 4, 2, 0, 4, 4, 0, 1, 2, 3, 4, 1, 2, 3, 9);
}

static void test_store_cells(void) {
    uint32_t store[36] = {0};
    ACCEPTED(ostrubel_store_new_empty(2, 1, 4, WORDS(store)), 0);
    SAME(store, 0, 0, 10, 1, 0, 2, 1, 4, 2, 0, 0, 0, 0, 0, 0, 0, 0, 0, 0);
    ACCEPTED(ostrubel_store_set_cell(2, 0, 3, 40, WORDS(store)), 1);
    ACCEPTED(ostrubel_store_set_cell(2, 0, 0, 10, WORDS(store)), 2);
    ACCEPTED(ostrubel_store_set_cell(2, 0, 1, 20, WORDS(store)), 3);
    SAME(store, 0, 0, 16, 1, 3, 2, 1, 4, 2, 0, 3, 3, 0, 1, 3, 3, 10, 20, 40, 0, 0, 0, 0, 0, 0);

    uint64_t cell = ostrubel_store_read_cell(2, 0, 3, WORDS(store));
    CHECK(ostrubel_code(cell) == OSTRUBEL_OK && ostrubel_present(cell) && ostrubel_value(cell) == 40);
    CHECK(ostrubel_position(cell) == 2);
    cell = ostrubel_store_read_cell(2, 0, 2, WORDS(store));
    CHECK(ostrubel_code(cell) == OSTRUBEL_OK && !ostrubel_present(cell) && ostrubel_position(cell) == 2);
    REFUSED(ostrubel_store_read_cell(8, 0, 0, WORDS(store)), OSTRUBEL_INVALID_STORE);
    REFUSED(ostrubel_store_read_cell(3, 0, 0, WORDS(store)), OSTRUBEL_EMPTY_SLOT);
    REFUSED(ostrubel_store_read_cell(2, 1, 0, WORDS(store)), OSTRUBEL_INDEX_OUT_OF_BOUNDS);

    /* 24 of 36 words are in use: one of 2 rows and no entries fits, one of 4 rows does not */
    REFUSED(ostrubel_store_new_empty(0, 4, 1, WORDS(store)), OSTRUBEL_INSUFFICIENT_SPACE);
    ACCEPTED(ostrubel_store_new_empty(0, 2, 1, WORDS(store)), 0);
    SAME(store, 11, 1, 0, 2, 2, 1, 3, 0, 0, 0, 0, 0, 0, 16, 1, 3, 2, 1, 4, 2, 0, 3, 3, 0, 1, 3, 3, 10, 20, 40, 0, 0, 0, 0,
         0, 0);
    ACCEPTED(ostrubel_store_clear_cell(2, 0, 1, WORDS(store)), 2);
    ACCEPTED(ostrubel_store_clear_cell(2, 0, 1, WORDS(store)), 2);
    ACCEPTED(ostrubel_store_drop(0, WORDS(store)), 0);
    /* both clears added one to the revision, the second too */
    SAME(store, 0, 0, 14, 1, 5, 2, 1, 4, 2, 0, 2, 2, 0, 3, 2, 10, 40, 0, 0, 0, 0, 0, 0, 0, 0, 0, 0, 0, 0, 0, 0, 0, 0, 0,
         0, 0);

    /* words that are no store, and a store that is too short */
    store[35] = 1;
    REFUSED(ostrubel_store_drop(2, WORDS(store)), OSTRUBEL_INVALID_STORE);
    CHECK(store[2] == 14 && store[35] == 1);
    REFUSED(ostrubel_store_set_cell(2, 0, 0, 1, store, 7), OSTRUBEL_INVALID_STORE);
}

/* The operations: slot 0 has the vector of document 01, slot 1 the matrix of P1, slot 2 is C. */
static void test_store_operations(void) {
    static uint32_t store[OSTRUBEL_MAX_STORE_WORDS];
    store[0] = 16;
    memcpy(store + 1, strip, sizeof(strip));
    store[17] = 29;
    memcpy(store + 18, matrix, sizeof(matrix));
    uint32_t *c = store + 47;

    REFUSED(ostrubel_store_vxm(PLAIN, OSTRUBEL_PLUS, OSTRUBEL_PLUS, 0, 1, 9, 2, WORDS(store), WORDS(work)),
            OSTRUBEL_EMPTY_SLOT);
    ACCEPTED(ostrubel_store_new_empty(2, 1, 3, WORDS(store)), 0);
    fill_work();
    ACCEPTED(ostrubel_store_vxm(PLAIN, OSTRUBEL_PLUS, OSTRUBEL_PLUS, 0, 1, 9, 2, WORDS(store), WORDS(work)), 3);
    SAME(c, 16, 1, 1, 2, 1, 3, 2, 0, 3, 3, 0, 1, 2, 3, 69, 84, 12, 0);
    CHECK(work_cleared());
    ACCEPTED(ostrubel_store_mxm(0, 0, 1, OSTRUBEL_MINUS, OSTRUBEL_PLUS, OSTRUBEL_PLUS, 0, 1, 9, 2, WORDS(store),
                                WORDS(work)), 3);
    SAME(c, 16, 1, 2, 2, 1, 3, 2, 0, 3, 3, 0, 1, 2, 3, 0, 0, 0, 0);
    REFUSED(ostrubel_store_mxm(0, 1, 0, 0, OSTRUBEL_PLUS, OSTRUBEL_PLUS, 0, 1, 9, 2, WORDS(store), WORDS(work)),
            OSTRUBEL_INVALID_STORE);

    /* one slot in several roles: each call adds one to its revision, once */
    ACCEPTED(ostrubel_store_ewise_mult(PLAIN, OSTRUBEL_PLUS, 0, 0, 9, 0, WORDS(store), WORDS(work)), 3);
    SAME(store, 16, 1, 1, 2, 1, 4, 2, 0, 3, 3, 0, 1, 3, 3, 20, 40, 80, 29);
    ACCEPTED(ostrubel_store_ewise_add(PLAIN, OSTRUBEL_MINUS, 0, 0, 9, 0, WORDS(store), WORDS(work)), 3);
    SAME(store, 16, 1, 2, 2, 1, 4, 2, 0, 3, 3, 0, 1, 3, 3, 0, 0, 0, 29);
    ACCEPTED(ostrubel_store_apply(PLAIN, OSTRUBEL_INDEX_UNARY, OSTRUBEL_COLINDEX, 5, 0, 9, 0, WORDS(store),
                                  WORDS(work)), 3);
    SAME(store, 16, 1, 3, 2, 1, 4, 2, 0, 3, 3, 0, 1, 3, 3, 5, 6, 8, 29);

    /* columns 2 and 1 of rows 0 and 3, into a C of 2 by 2 */
    const uint32_t rows[] = {0, 3};
    const uint32_t cols[] = {2, 1};
    ACCEPTED(ostrubel_store_new_empty(2, 2, 2, WORDS(store)), 0);
    ACCEPTED(ostrubel_store_extract(PLAIN, 1, 9, 2, WORDS(store), WORDS(rows), WORDS(cols), WORDS(work)), 3);
    SAME(c, 17, 1, 1, 2, 2, 2, 3, 0, 2, 3, 3, 0, 1, 1, 3, 2, 3, 5, 0);

    /* 5, 6, 8 in slot 0; the rows of slot 1 in one row; all of it in one number */
    ACCEPTED(ostrubel_store_select(PLAIN, OSTRUBEL_VALUENE, 6, 0, 9, 0, WORDS(store), WORDS(work)), 2);
    SAME(store, 14, 1, 4, 2, 1, 4, 2, 0, 2, 2, 0, 3, 2, 5, 8, 29);
    ACCEPTED(ostrubel_store_reduce_rows(PLAIN, OSTRUBEL_PLUS, 1, 9, 0, WORDS(store), WORDS(work)), 4);
    SAME(store, 18, 1, 5, 2, 1, 4, 2, 0, 4, 4, 0, 1, 2, 3, 4, 5, 15, 4, 5, 29);
    ACCEPTED(ostrubel_store_reduce(1, OSTRUBEL_PLUS, WORDS(store)), 29);

    /* row 1 of the 2 by 2 slot 2 becomes columns 0 and 1 of a 1 by 2 slot 3; then slot 3 in one block */
    const uint32_t one_row[] = {1};
    const uint32_t two_cols[] = {0, 1};
    ACCEPTED(ostrubel_store_new_empty(3, 1, 2, WORDS(store)), 0);
    ACCEPTED(ostrubel_store_set_cell(3, 0, 0, 6, WORDS(store)), 1);
    ACCEPTED(ostrubel_store_assign(PLAIN, 3, 9, 2, WORDS(store), WORDS(one_row), WORDS(two_cols), WORDS(work)), 3);
    REFUSED(ostrubel_store_assign(PLAIN, 3, 9, 3, WORDS(store), WORDS(one_row), WORDS(two_cols), WORDS(work)),
            OSTRUBEL_INDEX_OUT_OF_BOUNDS);
    ACCEPTED(ostrubel_store_new_empty(4, 2, 4, WORDS(store)), 0);
    ACCEPTED(ostrubel_store_kronecker(PLAIN, OSTRUBEL_TIMES, 2, 3, 9, 4, WORDS(store), WORDS(work)), 3);
    ACCEPTED(ostrubel_store_reduce(4, OSTRUBEL_PLUS, WORDS(store)), 66);
    REFUSED(ostrubel_store_reduce(8, OSTRUBEL_MINUS, WORDS(store)), OSTRUBEL_INVALID_STORE);
    REFUSED(ostrubel_store_reduce(7, OSTRUBEL_MINUS, WORDS(store)), OSTRUBEL_UNKNOWN_OPERATOR);
    REFUSED(ostrubel_store_reduce(7, OSTRUBEL_MAX, WORDS(store)), OSTRUBEL_EMPTY_SLOT);
}

/* Formulas over the slots. */
static void test_formulas(void) {
    static uint32_t stack[OSTRUBEL_MIN_FORMULA_WORDS];
    uint32_t store[60] = {0};
    ACCEPTED(ostrubel_store_new_empty(0, 1, 1, WORDS(store)), 0);
    ACCEPTED(ostrubel_store_set_cell(0, 0, 0, 2, WORDS(store)), 1);
    ACCEPTED(ostrubel_store_new_empty(1, 1, 1, WORDS(store)), 0);
    ACCEPTED(ostrubel_store_set_cell(1, 0, 0, 3, WORDS(store)), 1);
    ACCEPTED(ostrubel_store_new_empty(2, 1, 2, WORDS(store)), 0);
    stack[0] = stack[OSTRUBEL_MIN_FORMULA_WORDS - 1] = 9;

    /* 2 + 3 * 3, and (2 + 3) * 3 */
#define FORMULA(target, op, text, words) \
    ostrubel_store_formula(target, OSTRUBEL_PLUS, op, (const uint8_t *)text, strlen(text), WORDS(store), stack, words)
    ACCEPTED(FORMULA(5, OSTRUBEL_TIMES, "0+1*1", OSTRUBEL_MIN_FORMULA_WORDS), 1);
    CHECK(ostrubel_store_read_cell(5, 0, 0, WORDS(store)) >> 32 == 11);
    CHECK(stack[0] == 0 && stack[OSTRUBEL_MIN_FORMULA_WORDS - 1] == 0);
    ACCEPTED(FORMULA(5, OSTRUBEL_TIMES, "(0+1)*1", OSTRUBEL_MIN_FORMULA_WORDS), 1);
    CHECK(ostrubel_store_read_cell(5, 0, 0, WORDS(store)) >> 32 == 15);
    /* 3 - 2 - 2, from left to right */
    ACCEPTED(FORMULA(5, OSTRUBEL_MINUS, "1*0*0", OSTRUBEL_MIN_FORMULA_WORDS), 1);
    CHECK((int32_t)(ostrubel_store_read_cell(5, 0, 0, WORDS(store)) >> 32) == -1);
    REFUSED(FORMULA(8, 9, "", 0), OSTRUBEL_INVALID_STORE);
    REFUSED(FORMULA(5, 9, "", 0), OSTRUBEL_UNKNOWN_OPERATOR);
    REFUSED(FORMULA(5, OSTRUBEL_TIMES, "0+7*", 0), OSTRUBEL_INVALID_FORMULA);
    REFUSED(FORMULA(5, OSTRUBEL_TIMES, "((((0))))", 0), OSTRUBEL_INVALID_FORMULA);
    REFUSED(FORMULA(5, OSTRUBEL_TIMES, "0+7", 0), OSTRUBEL_EMPTY_SLOT);
    REFUSED(FORMULA(5, OSTRUBEL_TIMES, "0+2", OSTRUBEL_MIN_FORMULA_WORDS - 1), OSTRUBEL_WORKSPACE_TOO_SHORT);
    REFUSED(FORMULA(5, OSTRUBEL_TIMES, "0+2", OSTRUBEL_MIN_FORMULA_WORDS), OSTRUBEL_INVALID_SHAPE);
    REFUSED(FORMULA(6, OSTRUBEL_TIMES, "0", OSTRUBEL_MIN_FORMULA_WORDS), OSTRUBEL_INSUFFICIENT_SPACE);
#undef FORMULA
}

/* What adds one to a revision, and what does not. */
static void test_revisions(void) {
    uint32_t c[16];
    memcpy(c, strip, sizeof(strip));
    ACCEPTED(ostrubel_revision(WORDS(c)), 0);
    ACCEPTED(ostrubel_apply(OSTRUBEL_COMPLEMENT, 0, 0, 0, OSTRUBEL_UNARY, OSTRUBEL_AINV, 0, WORDS(strip), NO_MASK, WORDS(c),
                            WORDS(work)), 3); /* no cell changes */
    CHECK(ostrubel_revision_number(ostrubel_revision(WORDS(c))) == 1);
    REFUSED(ostrubel_apply(PLAIN, OSTRUBEL_UNARY, 5, 0, WORDS(strip), NO_MASK, WORDS(c), WORDS(work)),
            OSTRUBEL_UNKNOWN_OPERATOR);
    ACCEPTED(ostrubel_check(WORDS(c)), 3);
    ACCEPTED(ostrubel_reduce(OSTRUBEL_PLUS, WORDS(c)), 70);
    ACCEPTED(ostrubel_revision(WORDS(c)), 1);
    c[1] = 4294967295;
    ACCEPTED(ostrubel_revision(WORDS(c)), 4294967295);
    ACCEPTED(ostrubel_new_empty(1, 4, WORDS(c)), 0);
    ACCEPTED(ostrubel_revision(WORDS(c)), 0);
    REFUSED(ostrubel_revision(strip + 2, 14), OSTRUBEL_INVALID_FIRST); /* words of the old form */
    REFUSED(ostrubel_revision(none, 0), OSTRUBEL_INVALID_FIRST);
}

/* Files, both ways, and the text. */
static void test_files(void) {
    static uint8_t text[OSTRUBEL_MAX_TEXT_BYTES];
    const char lines[] = "1 4 3\n0 0 10\n0 1 20\n0 3 40\n";
    uint8_t file[65];
    uint32_t words[17];
    memset(file, 9, sizeof(file));
    memset(words, 0, sizeof(words));
    words[16] = 7;
    CHECK(OSTRUBEL_MAX_FILE_BYTES == 4 * OSTRUBEL_MAX_MATRIX_WORDS);

    REFUSED(ostrubel_write_file(words, 16, file, 0), OSTRUBEL_INVALID_FIRST);
    REFUSED(ostrubel_write_file(WORDS(strip), file, 63), OSTRUBEL_INSUFFICIENT_SPACE);
    CHECK(file[0] == 9);
    ACCEPTED(ostrubel_write_file(WORDS(strip), file, sizeof(file)), 3);
    CHECK(file[0] == 1 && file[1] == 0 && file[8] == 2 && file[60] == 40 && file[63] == 0 && file[64] == 9);

    REFUSED(ostrubel_read_file(file, 65, words, 0), OSTRUBEL_INVALID_FILE);
    REFUSED(ostrubel_read_file(file, 63, WORDS(words)), OSTRUBEL_INVALID_FILE);
    REFUSED(ostrubel_read_file(file, 0, WORDS(words)), OSTRUBEL_INVALID_FILE);
    REFUSED(ostrubel_read_file(file, 64, words, 15), OSTRUBEL_INSUFFICIENT_SPACE);
    SAME(words, 0, 0);
    file[4] = 5; /* the revision */
    ACCEPTED(ostrubel_read_file(file, 64, WORDS(words)), 3);
    SAME(words, 1, 5, 2, 1, 4, 2, 0, 3, 3, 0, 1, 3, 3, 10, 20, 40, 7);

    /* a file of the old form has no revision: it is 0, and needs room for the new form */
    words[1] = 9;
    REFUSED(ostrubel_read_file(file + 8, 56, words, 15), OSTRUBEL_INSUFFICIENT_SPACE);
    CHECK(words[1] == 9);
    ACCEPTED(ostrubel_read_file(file + 8, 56, WORDS(words)), 3);
    SAME(words, 1, 0, 2, 1, 4, 2, 0, 3, 3, 0, 1, 3, 3, 10, 20, 40, 7);

    REFUSED(ostrubel_write_text(words, 15, text, sizeof(text)), OSTRUBEL_INVALID_FIRST);
    REFUSED(ostrubel_write_text(WORDS(words), text, sizeof(text) - 1), OSTRUBEL_INSUFFICIENT_SPACE);
    const uint64_t answer = ostrubel_write_text(WORDS(words), text, sizeof(text));
    CHECK(ostrubel_code(answer) == 0 && ostrubel_text_length(answer) == strlen(lines));
    CHECK(memcmp(text, lines, strlen(lines)) == 0 && text[strlen(lines)] == 0);
}

/* Both sides of the limits. */
static void test_limits(void) {
    static uint32_t a[OSTRUBEL_MAX_ROWS + 9];
    static uint32_t c[OSTRUBEL_MAX_MATRIX_WORDS];
    static uint32_t list[OSTRUBEL_MAX_INDEXES + 1];
    const size_t most = OSTRUBEL_MAX_INDEXES;
    CHECK(OSTRUBEL_MAX_MATRIX_WORDS == OSTRUBEL_MAX_ROWS + 2 * OSTRUBEL_MAX_ENTRIES + 9);
    CHECK(OSTRUBEL_MIN_WORKSPACE_WORDS == 3 * OSTRUBEL_MAX_MATRIX_WORDS);
    for (uint32_t k = 0; k <= most; k++) list[k] = k % most;

    REFUSED(ostrubel_new_empty(OSTRUBEL_MAX_ROWS, OSTRUBEL_MAX_COLS, a, OSTRUBEL_MAX_ROWS + 8),
            OSTRUBEL_INSUFFICIENT_SPACE);
    ACCEPTED(ostrubel_new_empty(OSTRUBEL_MAX_ROWS, OSTRUBEL_MAX_COLS, WORDS(a)), 0);
    ACCEPTED(ostrubel_new_empty(OSTRUBEL_MAX_ROWS, OSTRUBEL_MAX_COLS, WORDS(c)), 0);
    ACCEPTED(ostrubel_extract(PLAIN, WORDS(a), list, most, list + 1, most, NO_MASK, WORDS(c), WORDS(work)), 0);
    REFUSED(ostrubel_extract(PLAIN, WORDS(a), list, most + 1, list, most, NO_MASK, WORDS(c), WORDS(work)),
            OSTRUBEL_INDEX_OUT_OF_BOUNDS);
    REFUSED(ostrubel_extract(PLAIN, WORDS(a), list, most, list, most + 1, NO_MASK, WORDS(c), WORDS(work)),
            OSTRUBEL_INDEX_OUT_OF_BOUNDS);
    REFUSED(ostrubel_extract(PLAIN, WORDS(a), list, most, list, most, NO_MASK, WORDS(c), work,
                             OSTRUBEL_MIN_WORKSPACE_WORDS - 1), OSTRUBEL_WORKSPACE_TOO_SHORT);
}

/* Key 0 is in hand and opens door 1; behind that is key 1, which opens the doors 0 and 1. No key opens door 2. */
static void test_doors(void) {
    static const uint32_t locks[] = {1, 0, 2, 2, 3, 3, 0, 1, 3, 3, 1, 0, 1, 3, 0, 5, 0};
    static const uint32_t cabinets[] = {1, 0, 2, 3, 2, 4, 0, 0, 1, 1, 1, 1, 1, 0};
    static const uint32_t hand[] = {1, 0, 2, 1, 2, 2, 0, 1, 1, 0, 1, 0};
    uint32_t out[15];
    memset(out, 0x77, sizeof(out));
    fill_work();
    ACCEPTED(ostrubel_open_doors(0, WORDS(locks), WORDS(cabinets), WORDS(hand), WORDS(out), WORDS(work)), 1);
    SAME(out, 1, 0, 2, 1, 3, 2, 0, 1, 1, 1, 1, 0, 0x77777777);
    CHECK(work_cleared());
    ACCEPTED(ostrubel_open_doors(OSTRUBEL_MAX_ALLOWANCE, WORDS(locks), WORDS(cabinets), WORDS(hand), WORDS(out),
                                 WORDS(work)), 2);
    SAME(out, 1, 0, 2, 1, 3, 2, 0, 2, 2, 0, 1, 2, 1, 0, 0x77777777);

    fill_work();
    REFUSED(ostrubel_open_doors(1001, WORDS(locks), WORDS(cabinets), hand, 11, WORDS(out), WORDS(work)),
            OSTRUBEL_INVALID_MASK);
    CHECK(work_cleared());
    REFUSED(ostrubel_open_doors(1, locks, 16, cabinets, 13, WORDS(hand), WORDS(out), WORDS(work)),
            OSTRUBEL_INVALID_FIRST);
    REFUSED(ostrubel_open_doors(1, WORDS(locks), cabinets, 13, hand, 11, WORDS(out), WORDS(work)),
            OSTRUBEL_INVALID_SECOND);
    REFUSED(ostrubel_open_doors(1001, WORDS(locks), WORDS(locks), WORDS(hand), WORDS(out), WORDS(work)),
            OSTRUBEL_INDEX_OUT_OF_BOUNDS);
    REFUSED(ostrubel_open_doors(1, WORDS(locks), WORDS(locks), WORDS(hand), WORDS(out), work, 1),
            OSTRUBEL_INVALID_SHAPE);
    REFUSED(ostrubel_open_doors(1, WORDS(locks), WORDS(cabinets), WORDS(cabinets), WORDS(out), work, 1),
            OSTRUBEL_INVALID_SHAPE);
    REFUSED(ostrubel_open_doors(1, WORDS(locks), WORDS(cabinets), WORDS(hand), out, 13, work,
                                OSTRUBEL_MIN_WORKSPACE_WORDS - 1), OSTRUBEL_WORKSPACE_TOO_SHORT);
    REFUSED(ostrubel_open_doors(1, WORDS(locks), WORDS(cabinets), WORDS(hand), out, 13, WORDS(work)),
            OSTRUBEL_INSUFFICIENT_SPACE);
    SAME(out, 1, 0, 2, 1, 3, 2, 0, 2, 2, 0, 1, 2, 1, 0, 0x77777777);
}

/* 2 by 2: the base has (0,0)=1 and (1,1)=2, row 1 is rewritten by (1,0)=7, and then taken back. */
static void test_days(void) {
    static const uint32_t base[] = {1, 5, 2, 2, 2, 3, 0, 1, 2, 2, 0, 1, 2, 1, 2};
    static const uint32_t row[] = {1, 0, 2, 1, 2, 2, 0, 1, 1, 0, 1, 7};
    uint32_t day[14] = {1, 0, 2, 2, 2, 3, 0, 0, 0, 0, 0, 0x77, 0x77, 0x77};
    uint32_t marks[14] = {1, 4294967295u, 2, 1, 2, 2, 0, 0, 0, 0, 0x77, 0x77, 0x77, 0x77};
    uint32_t out[16];
    memset(out, 0x77, sizeof(out));
    REFUSED(ostrubel_day_rewrite(2, WORDS(row), WORDS(day), WORDS(marks)), OSTRUBEL_INDEX_OUT_OF_BOUNDS);
    REFUSED(ostrubel_day_rewrite(1, WORDS(base), WORDS(day), WORDS(marks)), OSTRUBEL_INVALID_SHAPE);
    REFUSED(ostrubel_day_rewrite(1, row, 11, WORDS(day), WORDS(marks)), OSTRUBEL_INVALID_OUTPUT);
    REFUSED(ostrubel_day_rewrite(1, WORDS(row), day, 12, WORDS(marks)), OSTRUBEL_INSUFFICIENT_SPACE);
    REFUSED(ostrubel_day_rewrite(1, WORDS(row), WORDS(day), marks, 11), OSTRUBEL_INSUFFICIENT_SPACE);
    SAME(day, 1, 0, 2, 2, 2, 3, 0, 0, 0, 0, 0, 0x77, 0x77, 0x77);
    ACCEPTED(ostrubel_day_rewrite(1, WORDS(row), WORDS(day), WORDS(marks)), 1);
    SAME(day, 1, 1, 2, 2, 2, 3, 0, 0, 1, 1, 0, 1, 7, 0x77);
    SAME(marks, 1, 0, 2, 1, 2, 2, 0, 1, 1, 1, 1, 1, 0x77, 0x77);
    CHECK(ostrubel_present(ostrubel_day_read(1, 0, WORDS(base), WORDS(day), WORDS(marks))));
    CHECK(ostrubel_value(ostrubel_day_read(1, 0, WORDS(base), WORDS(day), WORDS(marks))) == 7);
    CHECK(!ostrubel_present(ostrubel_day_read(1, 1, WORDS(base), WORDS(day), WORDS(marks))));
    CHECK(ostrubel_value(ostrubel_day_read(0, 0, WORDS(base), WORDS(day), WORDS(marks))) == 1);
    REFUSED(ostrubel_day_read(0, 2, WORDS(base), WORDS(day), WORDS(marks)), OSTRUBEL_INDEX_OUT_OF_BOUNDS);
    CHECK(ostrubel_in_second(ostrubel_day_show(1, 1, WORDS(base), WORDS(day), WORDS(marks))));
    CHECK(ostrubel_part_from(ostrubel_day_show(1, 1, WORDS(base), WORDS(day), WORDS(marks))) == 12);
    CHECK(ostrubel_day_show(2, 1, WORDS(base), WORDS(day), WORDS(marks)) == 0);
    REFUSED(ostrubel_day_fold(WORDS(base), WORDS(day), WORDS(marks), out, 14), OSTRUBEL_INSUFFICIENT_SPACE);
    ACCEPTED(ostrubel_day_fold(WORDS(base), WORDS(day), WORDS(marks), WORDS(out)), 2);
    SAME(out, 1, 0, 2, 2, 2, 3, 0, 1, 2, 2, 0, 0, 2, 1, 7, 0x77777777);
    ACCEPTED(ostrubel_day_back(1, WORDS(day), WORDS(marks)), 0);
    CHECK(day[1] == 2 && marks[1] == 1);
    CHECK(ostrubel_value(ostrubel_day_read(1, 1, WORDS(base), WORDS(day), WORDS(marks))) == 2);
}

int main(void) {
    test_format();
    test_row_view();
    test_products();
    test_elementwise();
    test_select_and_reduce();
    test_write_back();
    test_store_cells();
    test_store_operations();
    test_formulas();
    test_revisions();
    test_files();
    test_limits();
    test_days();
    test_doors();
    printf("ok\n");
    return 0;
}
