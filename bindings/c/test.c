/* The header and the library, from C: document 01's x^4, filled too, a few refusals, and how a call answers. */
#include "atzunelca.h"

#include <stdio.h>
#include <string.h>

static int failed;

#define EXPECT(condition)                                                     \
    do {                                                                      \
        if (!(condition)) {                                                   \
            printf("line %d: not %s\n", __LINE__, #condition);                \
            failed = 1;                                                       \
        }                                                                     \
    } while (0)

enum { PLACES = 64, WORDS = 2 + 6 * PLACES };

int main(void) {
    uint64_t m[WORDS], out[6], main_list[PLACES], aux_list[PLACES];
    EXPECT(WORDS == ATZ_WORDS(PLACES));
    EXPECT(atz_start(m, WORDS, ATZ_SINGLE) == ATZ_OK);

    /* x, x², x⁴ */
    uint64_t id[3];
    EXPECT(atz_input(m, WORDS, ATZ_MAIN, 0, &id[0], 1) == ATZ_OK);
    EXPECT(atz_multiply(m, WORDS, id[0], id[0], &id[1], 1) == ATZ_OK);
    EXPECT(atz_multiply(m, WORDS, id[1], id[1], &id[2], 1) == ATZ_OK);
    EXPECT(id[0] == 0 && id[1] == 1 && id[2] == 2);
    EXPECT(atz_degree(m, WORDS, id[2], out, 1) == ATZ_OK && out[0] == 4);

    /* lowered to 2: one main constraint, its id 6 */
    uint64_t root = id[2];
    EXPECT(atz_lower(m, WORDS, &root, 1, 2, 1, 0, main_list, PLACES, aux_list, PLACES, out, 2) == ATZ_OK);
    EXPECT(out[0] == 1 && out[1] == 0 && main_list[0] == 6 && root == 2);
    EXPECT(atz_read(m, WORDS, 3, out, 6) == ATZ_OK);
    EXPECT(out[0] == ATZ_KIND_MAIN && out[1] == 1 && out[4] == 1);
    EXPECT(atz_read(m, WORDS, id[1], out, 6) == ATZ_OK && out[4] == 0);

    /* x = 3, the new column 9: the root is 81, the constraint 0 */
    uint64_t row[2] = {3, ATZ_P}, none[1] = {0};
    EXPECT(atz_fill(m, WORDS, main_list, 1, aux_list, 0, 1, 0, row, 2, none, 0, none, 0) == ATZ_OK);
    EXPECT(row[0] == 3 && row[1] == 9);
    EXPECT(atz_evaluate(m, WORDS, root, row, 2, row, 0, row, 0, out, 3) == ATZ_OK);
    EXPECT(out[0] == 81 && out[1] == 0 && out[2] == 0);
    EXPECT(atz_evaluate(m, WORDS, 6, row, 2, row, 0, row, 0, out, 3) == ATZ_OK && out[0] == 0);

    /* rows: each as one; a node that is no new column's; no room */
    uint64_t rows[6] = {3, 0, 4, 0, 5, 0};
    EXPECT(atz_fill_rows(m, WORDS, id, 1, aux_list, 0, 1, 0, 3, rows, 6, none, 0, none, 0) == ATZ_NOT_LOWERED);
    EXPECT(atz_fill_rows(m, WORDS, main_list, 1, aux_list, 0, 1, 0, 6, rows, 6, none, 0, none, 0) == ATZ_TABLE);
    EXPECT(rows[1] == 0 && rows[3] == 0 && rows[5] == 0);
    EXPECT(atz_fill_rows(m, WORDS, main_list, 1, aux_list, 0, 1, 0, 3, rows, 6, none, 0, none, 0) == ATZ_OK);
    EXPECT(rows[1] == 9 && rows[3] == 16 && rows[5] == 25);

    /* a refusal answers zeros, and changes no other word */
    uint64_t before[WORDS];
    memcpy(before, m, sizeof m);
    out[0] = out[1] = 7;
    EXPECT(atz_subtract(m, WORDS, 0, 99, out, 1) == ATZ_BAD_ID);
    EXPECT(out[0] == 0 && out[1] == 7);
    EXPECT(!memcmp(before, m, sizeof m));

    /* a place too few in `out`, or none: nothing is written beyond */
    out[0] = out[1] = out[2] = 7;
    EXPECT(atz_evaluate(m, WORDS, root, row, 2, row, 0, row, 0, out, 1) == ATZ_OK);
    EXPECT(out[0] == 81 && out[1] == 7 && out[2] == 7);
    EXPECT(atz_used(m, WORDS, out, 0) == ATZ_OK && out[0] == 81);

    /* numbers that are none */
    EXPECT(atz_start(m, WORDS, 3) == ATZ_NOT_CIRCUIT);
    EXPECT(atz_start(m, 1, ATZ_DUAL) == ATZ_NOT_CIRCUIT);
    EXPECT(atz_input(m, WORDS, 4, 65536, out, 1) == ATZ_BAD_ROW);
    EXPECT(atz_input(m, WORDS, ATZ_NEXT_MAIN, 0, out, 1) == ATZ_BAD_ROW);
    EXPECT(atz_zero(m, WORDS, &id[0], 1) == ATZ_OK);
    EXPECT(atz_degree(m, WORDS, id[0], out, 1) == ATZ_OK && (int64_t)out[0] == -1);
    m[0] = 9;
    EXPECT(atz_is_circuit(m, WORDS) == ATZ_NOT_CIRCUIT);
    EXPECT(atz_input(m, WORDS, 4, 0, out, 1) == ATZ_NOT_CIRCUIT);

    printf("%s\n", failed ? "C: failed" : "C: ok");
    return failed;
}
