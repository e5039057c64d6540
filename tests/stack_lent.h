/* What a call of stack.c is lent, the calls on it, and the tables that take them their longest ways. */
#include "../c/olikumpasho.h"

enum { ROWS = OLIKUMPASHO_MOST_ROWS, VARIABLES = OLIKUMPASHO_MOST_VARIABLES, CAPACITY = OLIKUMPASHO_MOST_CAPACITY };

/* What the next call is lent, and what it answered. */
static struct {
    uint64_t table[OLIKUMPASHO_TABLE_WORDS(ROWS)], desk[OLIKUMPASHO_DESK_WORDS(CAPACITY)], named[12], result[5], variables, reading, capacity, kind, choice, answer;
    uint8_t text[OLIKUMPASHO_MOST_WRITTEN], output[OLIKUMPASHO_MOST_WRITTEN];
    size_t words, desk_words, count, text_size, room, size;
    int64_t literal;
    uint32_t budget;
} *at;

static void weight_of(void) { at->answer = olikumpasho_weight_of(at->variables, at->table, at->words, at->reading, at->result); }
static void load(void) { at->answer = olikumpasho_load(at->variables, at->table, at->words, at->capacity, at->desk, at->desk_words); }
static void well_formed(void) { at->answer = olikumpasho_well_formed(at->desk, at->desk_words); }
static void decide(void) { at->answer = olikumpasho_decide(at->desk, at->desk_words, at->literal); }
static void rewrite(void) { at->answer = olikumpasho_rewrite(at->desk, at->desk_words, at->kind, at->named, at->count); }
static void take_back(void) { at->answer = olikumpasho_take_back(at->desk, at->desk_words); }
static void bound(void) { at->answer = olikumpasho_bound(at->desk, at->desk_words, at->choice, at->result); }
static void search(void) { at->answer = olikumpasho_search(at->desk, at->desk_words, at->choice, at->budget, at->result); }
static void read_text(void) { at->answer = olikumpasho_read(at->text, at->text_size, at->table, at->words, at->result); }
static void write_text(void)
{
    at->answer = olikumpasho_write(at->variables, at->budget, at->table, at->words, at->output, at->room, &at->size);
}
static void read_file(void) { at->answer = olikumpasho_read_wcnf(at->text, at->text_size, at->table, at->words, at->result); }
static void write_file(void) { at->answer = olikumpasho_write_wcnf(at->variables, at->table, at->words, at->output, at->room, &at->size); }
static void answer_text(void) { at->answer = olikumpasho_answer(at->text, at->text_size, at->output, at->room, &at->size); }

/* By hand: memcpy is left to be found by the call that is looked at. */
static void copy(volatile void *to, const volatile void *from, size_t bytes)
{
    for (size_t i = 0; i < bytes; i++) ((volatile unsigned char *)to)[i] = ((const volatile unsigned char *)from)[i];
}

/* ---- tables */

static void marked_row(uint64_t positive, uint64_t negative, uint64_t weight, uint64_t mark)
{
    at->table[at->words++] = positive;
    at->table[at->words++] = negative;
    at->table[at->words++] = weight;
    at->table[at->words++] = mark;
}

static void row(uint64_t positive, uint64_t negative, uint64_t weight) { marked_row(positive, negative, weight, OLIKUMPASHO_SOFT); }
static void hard_row(uint64_t positive, uint64_t negative) { marked_row(positive, negative, 0, OLIKUMPASHO_HARD); }

/* The weight of the last row. */
static uint64_t *last_weight(void) { return at->table + at->words - OLIKUMPASHO_ROW_WORDS + OLIKUMPASHO_ROW_WEIGHT; }

static void no_rows(uint64_t of)
{
    at->variables = of;
    at->words = 0;
    at->capacity = CAPACITY;
}

static uint64_t all(void) { return ~(uint64_t)0 >> (64 - VARIABLES); }

/* The longest text of an admissible table: every literal negative, the weights as many figures each as the sum allows to all of them, one
   figure more to as many as it then allows, and the sum at its limit. */
static void longest_table(void)
{
    uint64_t weight = 1;
    while (10 * weight * ROWS <= OLIKUMPASHO_MOST_WEIGHT) weight *= 10;
    const uint64_t spare = OLIKUMPASHO_MOST_WEIGHT - weight * ROWS, longer = spare / (9 * weight);
    no_rows(VARIABLES);
    at->budget = OLIKUMPASHO_MOST_BUDGET;
    for (uint64_t i = 0; i < ROWS; i++) row(0, all(), i < longer ? 10 * weight : weight);
    *last_weight() += spare % (9 * weight);
}

/* The longest competition file of one: a row of the largest weight, so that top has ten figures, and hard rows, which have them too. */
static void longest_file(void)
{
    no_rows(VARIABLES);
    row(0, all(), OLIKUMPASHO_MOST_WEIGHT);
    for (int i = 1; i < ROWS; i++) hard_row(0, all());
}

/* The walk goes down once, to the last variable, and cuts each second branch. */
static void deep_table(void)
{
    no_rows(VARIABLES);
    for (int v = 0; v < VARIABLES; v++) row((uint64_t)1 << v, 0, 1);
    row(all(), 0, OLIKUMPASHO_MOST_WEIGHT - VARIABLES);
}

/* Hard rows leave the walk one way down, to the last variable, where two clash. */
static void clashing_table(void)
{
    no_rows(VARIABLES);
    for (int v = 0; v < VARIABLES; v++) hard_row((uint64_t)1 << v, 0);
    hard_row(0, (uint64_t)1 << (VARIABLES - 1));
}

/* 1, and (-1, 2), (-2, 3), .. (-8, 9); then -9; (-9, 10), (-9, 11), (-10, -11); and (1, 2), which merges with row 1. */
static void chained_table(void)
{
    no_rows(11);
    row(1, 0, 4);
    for (int i = 0; i < OLIKUMPASHO_MOST_CHAIN; i++) row((uint64_t)2 << i, (uint64_t)1 << i, 4);
    row(0, 1 << 8, 4);
    row(1 << 9, 1 << 8, 4);
    row(1 << 10, 1 << 8, 4);
    row(0, 3 << 9, 4);
    row(3, 0, 4);
}

/* The rows that a rewriting names, and those of that table which one can. */
static void name(uint64_t of, const uint64_t *rows, size_t how_many)
{
    at->kind = of;
    at->count = how_many;
    copy(at->named, rows, how_many * sizeof *rows);
}

static const uint64_t a_pair[] = {1, 13};
static const uint64_t a_chain[] = {0, 1, 2, 3, 4, 5, 6, 7, 8, 9};
static const uint64_t a_fork[] = {0, 1, 2, 3, 4, 5, 6, 7, 8, 10, 11, 12};
