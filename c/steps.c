/* The pictures of docs/STEPS.md: a desk before and after each step, by the functions of olikumpasho.h. Afterwards every step is taken back,
   and each picture checks that the load stands again, word for word, and that no step changed the weight of a reading that keeps it. */
#include "olikumpasho.h"
#include <inttypes.h>
#include <stdio.h>
#include <stdlib.h>
#include <string.h>

enum { CAPACITY = 8, WORDS = OLIKUMPASHO_DESK_WORDS(CAPACITY) };
static uint64_t desk[WORDS], before[WORDS], loaded[WORDS];

static void accepted(uint64_t answer)
{
    if (answer == OLIKUMPASHO_ACCEPTED) return;
    printf("refused: number %u, place %" PRIu64 "\n", OLIKUMPASHO_NUMBER(answer), OLIKUMPASHO_PLACE(answer));
    exit(1);
}

/* The literals of two masks, on the variables of a third, in a column so wide. */
static void literals(uint64_t positive, uint64_t negative, uint64_t of, int width)
{
    char text[40] = "";
    int n = 0;
    for (int v = 1; v <= OLIKUMPASHO_MOST_VARIABLES; v++) {
        uint64_t bit = (uint64_t)1 << (v - 1);
        if ((positive | negative) & of & bit) n += snprintf(text + n, sizeof text - (size_t)n, "%s%d", n ? " " : "", negative & bit ? -v : v);
    }
    printf("%-*s", width, text);
}

static void show(void)
{
    uint64_t decided = desk[OLIKUMPASHO_DESK_DECIDED], truths = desk[OLIKUMPASHO_DESK_TRUE];
    const uint64_t *entry = desk + OLIKUMPASHO_DESK_ENTRY(CAPACITY, desk[OLIKUMPASHO_DESK_STEPS] - 1);
    printf("row       literals   remnant    before  after\n");
    for (uint64_t row = 0; row < desk[OLIKUMPASHO_DESK_ROWS]; row++) {
        const uint64_t *now = desk + OLIKUMPASHO_DESK_ROW(row), *then = before + OLIKUMPASHO_DESK_ROW(row);
        printf("%-10" PRIu64, row);
        literals(now[0], now[1], ~(uint64_t)0, 11);
        if ((now[0] & truths) | (now[1] & decided & ~truths)) printf("%-11s", "satisfied");
        else literals(now[0], now[1], ~decided, 11);
        if (row < before[OLIKUMPASHO_DESK_ROWS]) printf("%6" PRIu64 "%7" PRIu64 "\n", then[OLIKUMPASHO_ROW_WEIGHT], now[OLIKUMPASHO_ROW_WEIGHT]);
        else printf("%6s%7" PRIu64 "\n", "new", now[OLIKUMPASHO_ROW_WEIGHT]);
    }
    printf("conceded%30" PRIu64 "%7" PRIu64 "\n", before[OLIKUMPASHO_DESK_CONCEDED], desk[OLIKUMPASHO_DESK_CONCEDED]);
    printf("words 0 to 7 ");
    for (int i = 0; i < 8; i++) printf(" %" PRIu64, desk[i]);
    printf("\nthe entry    ");
    for (size_t i = 0; i < OLIKUMPASHO_ENTRY_WORDS; i++) printf(" %" PRIu64, entry[i]);
    printf("\n");
}

/* What a reading weighs on a desk: with every variable decided the bound is the weight. */
static uint64_t weight_on(const uint64_t *from, uint64_t reading)
{
    static uint64_t copy[WORDS];
    uint64_t losses[OLIKUMPASHO_LOSSES_WORDS];
    memcpy(copy, from, sizeof copy);
    for (int v = 1; v <= (int)copy[OLIKUMPASHO_DESK_VARIABLES]; v++)
        if (!(copy[OLIKUMPASHO_DESK_DECIDED] >> (v - 1) & 1)) accepted(olikumpasho_decide(copy, WORDS, reading >> (v - 1) & 1 ? v : -v));
    accepted(olikumpasho_bound(copy, WORDS, OLIKUMPASHO_UNITS, losses));
    return losses[OLIKUMPASHO_LOSSES_CONCEDED] + losses[OLIKUMPASHO_LOSSES_LOST] + losses[OLIKUMPASHO_LOSSES_FORESEEN];
}

static void same_weights(void)
{
    for (uint64_t reading = 0; reading >> desk[OLIKUMPASHO_DESK_VARIABLES] == 0; reading++) {
        if ((reading & desk[OLIKUMPASHO_DESK_DECIDED]) != desk[OLIKUMPASHO_DESK_TRUE]) continue;
        if (weight_on(desk, reading) == weight_on(loaded, reading)) continue;
        printf("the reading %" PRIu64 " weighs otherwise than on the load\n", reading);
        exit(1);
    }
}

static void load(uint64_t variables, const uint64_t *table, size_t rows)
{
    accepted(olikumpasho_load(variables, table, OLIKUMPASHO_TABLE_WORDS(rows), CAPACITY, desk, WORDS));
    memcpy(loaded, desk, sizeof desk);
}

static void shown(uint64_t answer)
{
    accepted(answer);
    same_weights();
    show();
}

static void decide(int64_t literal)
{
    memcpy(before, desk, sizeof desk);
    printf("decide %d\n", (int)literal);
    shown(olikumpasho_decide(desk, WORDS, literal));
}

static void rewrite(const char *name, uint64_t kind, const uint64_t *named, size_t count)
{
    memcpy(before, desk, sizeof desk);
    printf("%s", name);
    for (size_t i = 0; i < count; i++) printf(" %" PRIu64, named[i]);
    printf("\n");
    shown(olikumpasho_rewrite(desk, WORDS, kind, named, count));
}

static void all_back(void)
{
    while (desk[OLIKUMPASHO_DESK_STEPS] > 0) accepted(olikumpasho_take_back(desk, WORDS));
    if (memcmp(desk, loaded, sizeof desk) != 0) printf("taken back, the load does not stand again\n"), exit(1);
}

int main(void)
{
    /* a row is: mask of positive literals, mask of negative ones, weight, mark; all are soft, as rows that a rewriting names have to be */
    const uint64_t p5[] = {1, 0, 3, 0, 2, 0, 5, 0, 0, 3, 2, 0}, p6[] = {1, 0, 1, 0, 2, 1, 1, 0, 4, 1, 1, 0, 0, 6, 1, 0}, p7[] = {3, 0, 4, 0, 2, 1, 1, 0};
    const uint64_t p8[] = {3, 0, 1, 0, 0, 2, 1, 0}, shifted[] = {1, 0, 3, 0, 2, 1, 2, 0}, twice[] = {1, 0, 2, 0, 2, 1, 3, 0, 4, 2, 2, 0, 0, 4, 4, 0};
    const uint64_t two[] = {0, 1}, chain[] = {0, 2, 1}, four[] = {0, 1, 2, 3};
    load(2, p8, 2), decide(-1), rewrite("merge", OLIKUMPASHO_MERGE, two, 2), all_back();
    load(2, p7, 2), rewrite("merge", OLIKUMPASHO_MERGE, two, 2), all_back();
    load(2, shifted, 2), rewrite("shift", OLIKUMPASHO_SHIFT, two, 2), all_back();
    load(2, p5, 3), rewrite("chain", OLIKUMPASHO_CHAIN, chain, 3), all_back();
    load(3, twice, 4), rewrite("chain", OLIKUMPASHO_CHAIN, four, 4), all_back();
    load(3, p6, 4), rewrite("fork", OLIKUMPASHO_FORK, four, 4), all_back();
    return 0;
}
