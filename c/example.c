/* The repeated hour of README.md: the cheapest account, then what keeping the guard's word, stamp 3 in the first pass, is known to cost. */
#include "olikumpasho.h"
#include <inttypes.h>
#include <stdio.h>

int main(void)
{
    /* 1 weighs 5; -2 weighs 5; 2 -3 weighs 4; 3 weighs 2; none is hard */
    uint64_t table[] = {1, 0, 5, 0, 0, 2, 5, 0, 2, 4, 4, 0, 4, 0, 2, 0}, desk[OLIKUMPASHO_DESK_WORDS(8)], found[OLIKUMPASHO_FOUND_WORDS], least[OLIKUMPASHO_LOSSES_WORDS];
    const size_t words = OLIKUMPASHO_DESK_WORDS(8);
    uint64_t no = olikumpasho_load(3, table, OLIKUMPASHO_TABLE_WORDS(4), 8, desk, words);
    if (no == 0) no = olikumpasho_search(desk, words, OLIKUMPASHO_UNITS, 100, found);
    if (no == 0) no = olikumpasho_decide(desk, words, 3);
    if (no == 0) no = olikumpasho_bound(desk, words, OLIKUMPASHO_UNITS, least);
    if (no != 0) return printf("refused: number %u, place %" PRIu64 "\n", OLIKUMPASHO_NUMBER(no), OLIKUMPASHO_PLACE(no)), 1;
    printf("%s: weight %" PRIu64 ", reading %" PRIu64 ", %" PRIu64 " nodes\n", (const char *[]){"done", "stopped", "impossible"}[found[OLIKUMPASHO_FOUND_STATUS]],
           found[OLIKUMPASHO_FOUND_WEIGHT], found[OLIKUMPASHO_FOUND_READING], found[OLIKUMPASHO_FOUND_NODES]);
    printf("with 3 true, %" PRIu64 " lost and %" PRIu64 " foreseen\n", least[OLIKUMPASHO_LOSSES_LOST], least[OLIKUMPASHO_LOSSES_FORESEEN]);
}
