/* Tables and desk of document 01. Steps, bound and walk, the text, and competition files are in files of their own, included at the end. */
#include "model.h"

#include <stdlib.h>
#include <string.h>

static struct refusal accepted(void) { return (struct refusal){0, 0}; }
static struct refusal refused(unsigned number) { return (struct refusal){number, 0}; }
static struct refusal refused_at(unsigned number, word place) { return (struct refusal){number, place}; }

/* --- literals, clauses, partial readings --- */

static bool has_bit(word mask, int variable) { return mask >> (variable - 1) & 1; }
static word bit(int variable) { return (word)1 << (variable - 1); }

static void add_literal(struct clause *c, int literal) { c->literals[c->count++] = (signed char)literal; }

struct clause clause_of(const word *row)
{
    struct clause c = {0};
    for (int v = 1; v <= MOST_VARIABLES && (row[0] | row[1]) != 0; v++) {
        if (has_bit(row[0], v)) add_literal(&c, v);
        if (has_bit(row[1], v)) add_literal(&c, -v);
    }
    return c;
}

static bool holds(const struct clause *c, int literal)
{
    for (int i = 0; i < c->count; i++)
        if (c->literals[i] == literal) return true;
    return false;
}

static bool clause_fits(const struct clause *c, word variables)
{
    for (int i = 0; i < c->count; i++) {
        if ((word)abs(c->literals[i]) > variables) return false;
        if (holds(c, -c->literals[i])) return false;
    }
    return true;
}

static void put_row(word *row, const struct clause *c, word weight, word mark)
{
    row[0] = row[1] = 0;
    for (int i = 0; i < c->count; i++) {
        int l = c->literals[i];
        row[l > 0 ? 0 : 1] |= bit(abs(l));
    }
    row[WEIGHT] = weight;
    row[MARK] = mark;
}

void put_clause(word *row, const struct clause *c, word weight) { put_row(row, c, weight, SOFT); }
void put_hard(word *row, const struct clause *c) { put_row(row, c, 0, HARD); }
bool is_hard(const word *row) { return row[MARK] == HARD; }

/* 1 decided true, -1 decided false, 0 undecided. */
static int state_of(int literal, const struct partial *p)
{
    return literal > 0 ? p->value[literal] : -p->value[-literal];
}

bool is_satisfied(const struct clause *c, const struct partial *p)
{
    for (int i = 0; i < c->count; i++)
        if (state_of(c->literals[i], p) == 1) return true;
    return false;
}

struct clause remnant_of(const struct clause *c, const struct partial *p)
{
    struct clause r;
    r.count = 0;
    for (int i = 0; i < c->count; i++)
        if (state_of(c->literals[i], p) == 0) add_literal(&r, c->literals[i]);
    return r;
}

static struct partial full_reading(word reading)
{
    struct partial p = {{0}};
    for (int v = 1; v <= MOST_VARIABLES; v++) p.value[v] = has_bit(reading, v) ? 1 : -1;
    return p;
}

/* --- the table --- */

static struct refusal judge_size(struct table t)
{
    if (t.variables > MOST_VARIABLES) return refused(1);
    if (t.count % ROW_WORDS != 0 || t.count / ROW_WORDS > MOST_LOADED) return refused(2);
    return accepted();
}

/* Another fourth word than the two, or a hard row with a weight. */
static bool mark_is_bad(const word *row) { return row[MARK] > HARD || (is_hard(row) && row[WEIGHT] != 0); }

static bool weight_is_bad(const word *row) { return !is_hard(row) && (row[WEIGHT] == 0 || row[WEIGHT] > MOST_WEIGHT); }

static struct refusal judge_rows(struct table t)
{
    sum all = 0;
    for (word r = 0; r < t.count / ROW_WORDS; r++) {
        const word *row = t.words + ROW_WORDS * r;
        struct clause c = clause_of(row);
        if (!clause_fits(&c, t.variables)) return refused_at(5, r);
        if (mark_is_bad(row) || weight_is_bad(row)) return refused_at(6, r);
        all += row[WEIGHT];
    }
    return all > MOST_WEIGHT ? refused(7) : accepted();
}

static word unsatisfied_weight(const word *rows, word count, word reading)
{
    struct partial p = full_reading(reading);
    word weight = 0;
    for (word r = 0; r < count; r++) {
        struct clause c = clause_of(rows + ROW_WORDS * r);
        if (!is_satisfied(&c, &p)) weight += rows[ROW_WORDS * r + WEIGHT];
    }
    return weight;
}

static bool hard_rows_hold(const word *rows, word count, word reading)
{
    struct partial p = full_reading(reading);
    for (word r = 0; r < count; r++) {
        struct clause c = clause_of(rows + ROW_WORDS * r);
        if (is_hard(rows + ROW_WORDS * r) && !is_satisfied(&c, &p)) return false;
    }
    return true;
}

static bool names_above(word mask, word variables)
{
    for (int v = 1; v <= MOST_VARIABLES; v++)
        if (has_bit(mask, v) && (word)v > variables) return true;
    return false;
}

struct refusal weigh(struct table t, word reading, struct weighed *answer)
{
    struct refusal no = judge_size(t);
    if (no.number == 0) no = judge_rows(t);
    if (no.number != 0) return no;
    if (names_above(reading, t.variables)) return refused(8);
    word rows = t.count / ROW_WORDS;
    *answer = (struct weighed){unsatisfied_weight(t.words, rows, reading), hard_rows_hold(t.words, rows, reading)};
    return accepted();
}

/* --- the desk --- */

word desk_size(word capacity) { return HEAD_WORDS + ROW_WORDS * capacity + ENTRIES_WORDS; }

const word *desk_row(const word *desk, word number) { return desk + HEAD_WORDS + ROW_WORDS * number; }
static word *row_at(word *desk, word number) { return desk + HEAD_WORDS + ROW_WORDS * number; }

static word *entry_at(word *desk, word step)
{
    return desk + HEAD_WORDS + ROW_WORDS * desk[CAPACITY] + ENTRY_WORDS * step;
}

struct refusal load(struct lent out, struct table t, word capacity)
{
    struct refusal no = judge_size(t);
    if (no.number != 0) return no;
    word rows = t.count / ROW_WORDS;
    if (capacity < rows || capacity > MOST_CAPACITY) return refused(3);
    if (out.count < desk_size(capacity)) return refused(4);
    no = judge_rows(t);
    if (no.number != 0) return no;
    for (word i = 0; i < desk_size(capacity); i++) out.words[i] = 0;
    out.words[VARIABLES] = t.variables;
    out.words[IN_USE] = rows;
    out.words[CAPACITY] = capacity;
    out.words[LOADED] = rows;
    for (word i = 0; i < t.count; i++) out.words[HEAD_WORDS + i] = t.words[i];
    return accepted();
}

/* Conceded plus the weights of the first so many rows. */
static sum conceded_and_weights(const word *desk, word rows)
{
    sum all = desk[CONCEDED];
    for (word r = 0; r < rows; r++) all += desk_row(desk, r)[WEIGHT];
    return all;
}

static bool rows_fit(const word *desk)
{
    for (word r = 0; r < desk[IN_USE]; r++) {
        const word *row = desk_row(desk, r);
        struct clause c = clause_of(row);
        if (!clause_fits(&c, desk[VARIABLES]) || mark_is_bad(row)) return false;
    }
    return true;
}

bool well_formed(struct lent desk)
{
    const word *d = desk.words;
    if (desk.count < HEAD_WORDS || d[CAPACITY] > MOST_CAPACITY) return false;
    if (desk.count < desk_size(d[CAPACITY])) return false;
    if (d[VARIABLES] > MOST_VARIABLES || d[LOADED] > MOST_LOADED || d[LOADED] > d[IN_USE]) return false;
    if (d[IN_USE] > d[CAPACITY] || d[STEPS] > MOST_STEPS) return false;
    if (!rows_fit(d)) return false;
    if (conceded_and_weights(d, d[IN_USE]) > MOST_WEIGHT) return false;
    for (int v = 1; v <= MOST_VARIABLES; v++)
        if (has_bit(d[DECIDED_TRUE], v) && !has_bit(d[DECIDED], v)) return false;
    return !names_above(d[DECIDED], d[VARIABLES]);
}

struct partial standing(const word *desk)
{
    struct partial p = {{0}};
    for (int v = 1; v <= MOST_VARIABLES; v++)
        if (has_bit(desk[DECIDED], v)) p.value[v] = has_bit(desk[DECIDED_TRUE], v) ? 1 : -1;
    return p;
}

word desk_weight(const word *desk, word reading)
{
    return desk[CONCEDED] + unsatisfied_weight(desk_row(desk, 0), desk[IN_USE], reading);
}

bool desk_holds(const word *desk, word reading) { return hard_rows_hold(desk_row(desk, 0), desk[IN_USE], reading); }

#include "steps.c"
#include "walk.c"
#include "text.c"
#include "wcnf.c"
