// One function for C, called again and again on a random table: called NAME ROWS TIMES. C is twice the rows. Steps are made 64 at a time, each time
// on a copy of the desk, so that a step costs a 64th of that copy beside its own. A search visits TIMES nodes; one that ends before is status 3.
#include "../c/olikumpasho.h"
#include <stdio.h>
#include <stdlib.h>
#include <string.h>

enum { ROWS = OLIKUMPASHO_MOST_ROWS, WORDS = OLIKUMPASHO_DESK_WORDS(OLIKUMPASHO_MOST_CAPACITY), STEPS = 64 };

static uint64_t table[OLIKUMPASHO_TABLE_WORDS(ROWS)], desk[WORDS], clean[WORDS], decided[WORDS], shifted[WORDS];
static uint64_t rows, words, state = 20261116;

static void asked(uint64_t no)
{
    if (no == 0) return;
    printf("refused with %u\n", OLIKUMPASHO_NUMBER(no));
    exit(1);
}

static uint64_t draw(void)
{
    state ^= state << 13, state ^= state >> 7, state ^= state << 17;
    return state;
}

// Soft rows of two literals, but for the first two, x1 and (not x1, x2), which can be shifted there and back.
static void make_table(void)
{
    for (uint64_t i = 0; i < rows; i++) {
        uint64_t *row = table + OLIKUMPASHO_TABLE_WORDS(i), first = draw() % 64, second = (first + 1 + draw() % 63) % 64;
        row[draw() % 2] |= (uint64_t)1 << first;
        row[draw() % 2] |= (uint64_t)1 << second;
        row[OLIKUMPASHO_ROW_WEIGHT] = 1 + draw() % 9;
    }
    static const uint64_t shifts[] = {1, 0, 9, OLIKUMPASHO_SOFT, 2, 1, 9, OLIKUMPASHO_SOFT};
    memcpy(table, shifts, sizeof shifts);
}

static void load(void)
{
    asked(olikumpasho_load(64, table, OLIKUMPASHO_TABLE_WORDS(rows), 2 * rows, desk, words));
}

static void decide_all(void)
{
    for (int64_t v = 1; v <= STEPS; v++) asked(olikumpasho_decide(desk, words, v % 2 ? v : -v));
}

static void shift_all(void)
{
    uint64_t named[2] = {0, 1};
    for (uint64_t i = 0; i < STEPS; i++) {
        asked(olikumpasho_rewrite(desk, words, OLIKUMPASHO_SHIFT, named, 2));
        named[0] = rows + 2 * i + 1, named[1] = rows + 2 * i;
    }
}

static void take_all_back(void)
{
    for (int i = 0; i < STEPS; i++) asked(olikumpasho_take_back(desk, words));
}

static void start(const uint64_t *from)
{
    memcpy(desk, from, 8 * words);
}

static void prepare(void)
{
    words = OLIKUMPASHO_DESK_WORDS(2 * rows);
    make_table();
    load();
    memcpy(clean, desk, sizeof clean);
    decide_all();
    memcpy(decided, desk, sizeof decided);
    start(clean);
    shift_all();
    memcpy(shifted, desk, sizeof shifted);
    start(clean);
}

static void search(uint64_t choice, uint64_t nodes)
{
    uint64_t found[OLIKUMPASHO_FOUND_WORDS];
    asked(olikumpasho_search(desk, words, choice, (uint32_t)nodes, found));
    if (found[OLIKUMPASHO_FOUND_NODES] != nodes) exit(3);
}

static void call(const char *name)
{
    uint64_t losses[OLIKUMPASHO_LOSSES_WORDS];
    if (strcmp(name, "load") == 0) load();
    else if (strcmp(name, "bound") == 0) asked(olikumpasho_bound(desk, words, OLIKUMPASHO_UNITS, losses));
    else if (strcmp(name, "bound-by-groups") == 0) asked(olikumpasho_bound(desk, words, OLIKUMPASHO_GROUPS, losses));
    else if (strcmp(name, "decide") == 0) start(clean), decide_all();
    else if (strcmp(name, "rewrite") == 0) start(clean), shift_all();
    else if (strcmp(name, "take-back-decision") == 0) start(decided), take_all_back();
    else if (strcmp(name, "take-back-rewriting") == 0) start(shifted), take_all_back();
    else exit(2);
}

int main(int count, char **given)
{
    if (count < 4) return 2;
    rows = strtoull(given[2], NULL, 10);
    uint64_t times = strtoull(given[3], NULL, 10);
    prepare();
    if (strcmp(given[1], "search") == 0) search(OLIKUMPASHO_UNITS, times);
    else if (strcmp(given[1], "search-by-groups") == 0) search(OLIKUMPASHO_GROUPS, times);
    else
        for (uint64_t i = 0; i < times; i++) call(given[1]);
    return 0;
}
