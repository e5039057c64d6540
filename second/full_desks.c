/* Part of full_runs.c: desks filled to C. Of all steps the longest fork adds the most rows, and a shift can be taken on and on: forks and
   then shifts fill the largest desk with as many steps as may stand, more forks with fewer. */

enum {
    FORK_ROWS = MOST_LINKS + 2, /* that the longest fork adds */
    SHIFT_ROWS = 2,
    LEAST_FORKS = (MOST_CAPACITY - MOST_LOADED - SHIFT_ROWS * MOST_STEPS) / (FORK_ROWS - SHIFT_ROWS),
    APART = 40 /* forks with rows of their own */
};
_Static_assert(LEAST_FORKS >= APART && LEAST_FORKS * FORK_ROWS + (MOST_STEPS - LEAST_FORKS) * SHIFT_ROWS == MOST_CAPACITY - MOST_LOADED,
               "so many forks, and shifts for all other steps, do not fill the largest desk");

/* The rows of one of the longest forks, which can be taken so many times: a unit for each, and all other rows weigh as much as these
   together. The result is the first row, which the first fork names; the other units come behind the fork's rows. */
static word add_spring(struct chance *c, struct draft *d, word times)
{
    word first = d->rows;
    add_fork(c, d, MOST_LINKS, 3);
    for (word i = 1; i < MOST_NAMED; i++) d->words[ROW_WORDS * (first + i) + WEIGHT] = 3 * times;
    for (word i = 1; i < times; i++) add_row(d, clause_of(d->words + ROW_WORDS * first), between(c, 1, 3));
    return first;
}

static void take_spring(struct run *r, word first, word times)
{
    word named[MOST_NAMED];
    for (word i = 0; i < MOST_NAMED; i++) named[i] = first + i;
    for (word i = 0; i < times; i++) {
        if (i > 0) named[0] = first + MOST_NAMED - 1 + i;
        emit_rewrite(r, FORK, named, MOST_NAMED);
    }
}

/* Shifts a unit and a pair until so many rows are in use. Of the new rows the first of two holds (l1, not l2), the second l2. */
static void shift_until(struct run *r, word unit, word rows)
{
    word row = lent_words(r)[IN_USE];
    emit(r, "rewrite 2 %" PRIu64 " %" PRIu64, unit, unit + 1);
    for (; row + 2 * SHIFT_ROWS <= rows; row += SHIFT_ROWS) emit(r, "rewrite 2 %" PRIu64 " %" PRIu64, row + 1, row);
}

/* Of two rows that hold not 1 and not 2 the one that is opposed to a unit of a shift, which is 1 or 2. */
static word opposed_to(struct run *r, word unit, word not_one) { return lent_words(r)[row_word(unit, 0)] == 1 ? not_one : not_one + 1; }

/* Rows 0 and 1 are shifted there and back; behind them rows for one of each kind, then a spring; as many in all as may be loaded. */
enum { FORKED = 2, CHAINED = FORKED + MOST_NAMED, MERGED = CHAINED + MOST_LINKS + 2, SPRING = MERGED + 2, NOT_ONE = MOST_LOADED - 3 };
static void full_desk_draft(struct chance *c, struct draft *d, word forks)
{
    *d = (struct draft){.variables = between(c, 20, MOST_VARIABLES)};
    add_row(d, unit_row(1), 5);
    add_row(d, pair_row(-1, 2), 5);
    add_fork(c, d, MOST_LINKS, 3);
    add_chain(c, d, MOST_LINKS, 3);
    add_row(d, pair_row(3, -4), 2);
    add_row(d, pair_row(3, 4), 2);
    add_spring(c, d, forks);
    while (d->rows < NOT_ONE) {
        word length = between(c, 0, 3), weight = between(c, 1, 9);
        add_row(d, draw_clause(c, d->variables, length), weight);
        if (length > 0 && one_in(c, 9)) make_hard(d, d->rows - 1);
    }
    add_row(d, unit_row(-1), 4);
    add_row(d, unit_row(-2), 4);
    add_row(d, unit_row(7), 2);
}

static void run_full_desk(struct run *r)
{
    struct chance *c = &r->chance;
    static struct draft d;
    word forks = LEAST_FORKS + draw(c) % 11;
    full_desk_draft(c, &d, forks);
    start_desk(r, &d, MOST_CAPACITY, draw(c) % 4);
    word rows = MOST_CAPACITY - (one_in(c, 2) ? FORK_ROWS : MOST_LINKS);
    take_spring(r, SPRING, forks);
    shift_until(r, 0, rows);
    if (rows == MOST_CAPACITY - FORK_ROWS) emit_rows_from(r, FORK, FORKED, MOST_NAMED);
    else emit_rows_from(r, CHAIN, CHAINED, MOST_LINKS + 2);
    meets(r, "C full at its most");
    emit(r, "wellformed");
    meets(r, "one row more than C has");
    emit_rows_from(r, MERGE, MERGED, 2);
    emit_bounds(r);
    emit_searches(r, between(c, 0, 2));
    emit(r, "search %d %" PRIu64, UNITS, between(c, 0, 60));
    word last = rows - 1, opposed = opposed_to(r, last, NOT_ONE);
    meets(r, "a high row named");
    emit(r, "rewrite 3 %" PRIu64 " %" PRIu64, last, opposed);
    meets(r, "a high row named");
    emit(r, "rewrite 1 %" PRIu64 " %d", opposed, MOST_CAPACITY);
    break_desk(r);
    call_many(r, 4);
    if (one_in(c, 3)) take_all_back(r);
}

/* The last step that may stand takes the last row: then two units that would concede, and rows taken back. */
static void run_last_row(struct run *r)
{
    struct chance *c = &r->chance;
    static struct draft d;
    full_desk_draft(c, &d, LEAST_FORKS);
    start_desk(r, &d, MOST_CAPACITY, draw(c) % 2);
    take_spring(r, SPRING, LEAST_FORKS);
    shift_until(r, 0, MOST_CAPACITY - SHIFT_ROWS);
    word unit = MOST_CAPACITY - SHIFT_ROWS - 1, opposed = opposed_to(r, unit, NOT_ONE);
    /* one step is left, and two rows */
    emit(r, "rewrite 2 %" PRIu64 " %" PRIu64, unit, unit - 1);
    meets(r, "most steps and C full");
    emit(r, "rewrite 3 %" PRIu64 " %" PRIu64, unit + 2, opposed);
    emit(r, "back");
    emit(r, "back");
    emit(r, "back");
    /* the last six rows are free again, and three steps */
    emit(r, "rewrite 3 %" PRIu64 " %" PRIu64, unit - 4, opposed_to(r, unit - 4, NOT_ONE));
    emit(r, "back");
    call_many(r, 3);
    emit(r, "back");
}

/* As full as it can be with steps to spare: forks, some with rows of their own, and a few shifts. So the last row is named while steps are
   left. */
static void run_last_named(struct run *r)
{
    struct chance *c = &r->chance;
    static struct draft d;
    word forks = LEAST_FORKS + between(c, 4, 10) - APART, unit = APART * MOST_NAMED, not_one = unit + 2;
    d = (struct draft){.variables = MOST_VARIABLES};
    for (int i = 0; i < APART; i++) add_fork(c, &d, MOST_LINKS, 4);
    add_row(&d, unit_row(1), 30);
    add_row(&d, pair_row(-1, 2), 30);
    add_row(&d, unit_row(-1), 9);
    add_row(&d, unit_row(-2), 9);
    word spring = add_spring(c, &d, forks);
    while (d.rows < MOST_LOADED) add_row(&d, draw_clause(c, d.variables, 3), 1);
    start_desk(r, &d, MOST_CAPACITY, 0);
    for (word i = 0; i < APART; i++) emit_rows_from(r, FORK, MOST_NAMED * i, MOST_NAMED);
    take_spring(r, spring, forks);
    shift_until(r, unit, MOST_CAPACITY);
    meets(r, "C full at its most");
    emit(r, "wellformed");
    word last = lent_words(r)[IN_USE] - 1, opposed = opposed_to(r, last, not_one);
    meets(r, "the last row named");
    emit(r, one_in(c, 2) ? "rewrite 1 %" PRIu64 " %" PRIu64 : "rewrite 3 %" PRIu64 " %" PRIu64, last, opposed);
    meets(r, "the last row named");
    emit(r, "back");
    meets(r, "a row past the last named");
    emit(r, "rewrite 1 %" PRIu64 " %" PRIu64, opposed, last + 1);
    meets(r, "one row more than C has");
    emit(r, "rewrite 2 %" PRIu64 " %" PRIu64, last, last - 1);
    emit(r, "decide -5");
    emit_bounds(r);
    emit_searches(r, between(c, 0, 2));
    emit(r, "search %d %" PRIu64, UNITS, between(c, 0, 40));
    call_many(r, 3);
    for (int i = 0; i < 12; i++) emit(r, "back");
}
