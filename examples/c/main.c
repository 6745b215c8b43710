/* Folds a strand both ways, edits it, and shows a refusal. `examples/c/run` builds and runs it. */
#include "yukemasop.h"

#include <stdio.h>

enum { MOST = 80, CELLS = MOST * (MOST + 1) / 2 };

/* The brackets of the first n entries of a pair table. */
static void show(const uint16_t *pairs, size_t n) {
    uint8_t text[MOST];
    if (ykm_to_dot_bracket(pairs, n, text, MOST).number == 0) {
        printf(" %.*s\n", (int)n, (const char *)text);
    }
}

int main(void) {
    static const uint8_t strand[] = "gggaaaaccc";
    size_t n = sizeof strand - 1;
    uint8_t bases[MOST];
    uint16_t cells[CELLS], pairs[MOST];
    int32_t paired[CELLS], any[CELLS], arms[CELLS];

    ykm_least least = ykm_zuker_mfe(strand, n, bases, MOST, paired, CELLS, any, CELLS, arms, CELLS, pairs, MOST);
    printf("%.*s\nleast energy %d thousandths of kcal/mol,", (int)n, (const char *)bases, (int)least.energy);
    show(pairs, n);

    ykm_counted fold = ykm_nussinov(strand, n, 3, bases, MOST, cells, CELLS, pairs, MOST);
    printf("most pairs %zu,", fold.count);
    show(pairs, n);

    /* The last base becomes an A: only the cells over it are written. */
    ykm_counted edited = ykm_replace(fold.record, bases, MOST, cells, CELLS, n - 1, 'A');
    ykm_traceback(edited.record, bases, MOST, cells, CELLS, pairs, MOST);
    printf("with an A at the end %zu,", edited.count);
    show(pairs, n);

    ykm_counted refused = ykm_nussinov((const uint8_t *)"GGXCC", 5, 3, bases, MOST, cells, CELLS, pairs, MOST);
    printf("GGXCC is refused by number %u at place %zu\n", (unsigned)refused.number, refused.place);
    return 0;
}
