/* Part of second.c: scripts of bounds and searches where groups are many, long or at the limits. */

/* Every call that names a bound, on the desk as it stands. */
static void emit_both(struct run *r, word budget)
{
    emit_bounds(r);
    emit_searches(r, budget);
}

/* Units, and rows that lead on from them; few variables, so that groups share rows. */
static void run_few(struct run *r)
{
    struct chance *c = &r->chance;
    struct draft d = {.variables = between(c, 1, 9)};
    word most = one_in(c, 3) ? 1 : between(c, 2, 9), units = between(c, 1, 6);
    add_random_rows(c, &d, units, 1, most);
    for (word i = between(c, 0, 3); i > 0; i--) add_links(c, &d, between(c, 0, 5), most);
    add_random_rows(c, &d, between(c, 0, 16), 2, most);
    add_random_rows(c, &d, between(c, 0, 8), 3, most);
    harden(c, &d);
    start_desk(r, &d, 20, 0);
    emit_both(r, MOST_BUDGET);
    for (int i = 0; i < 6; i++) {
        if (one_in(c, 2)) call_decide(r);
        else call_fitting_rewrite(r, between(c, MERGE, FORK));
        emit_both(r, one_in(c, 2) ? MOST_BUDGET : between(c, 0, 40));
    }
}

/* So many variables in an order drawn, as literals. */
static void draw_order(struct chance *c, int *literals, int count)
{
    for (int v = 1; v <= count; v++) literals[v - 1] = one_in(c, 2) ? v : -v;
    for (int i = count - 1; i > 0; i--) {
        int j = (int)(draw(c) % (word)(i + 1)), held = literals[i];
        literals[i] = literals[j], literals[j] = held;
    }
}

static void shuffle_rows(struct chance *c, struct draft *d)
{
    for (word i = d->rows; i-- > 1;) swap_rows(d, i, draw(c) % (i + 1));
}

/* A chain through all variables, up to 64 of them: a group of one row more than they are. */
static void run_through_all(struct run *r)
{
    struct chance *c = &r->chance;
    struct draft d = {.variables = one_in(c, 2) ? (word)MOST_VARIABLES : between(c, 2, MOST_VARIABLES)};
    int order[MOST_VARIABLES], count = (int)d.variables;
    draw_order(c, order, count);
    add_row(&d, unit_row(order[0]), between(c, 1, 9));
    for (int i = 1; i < count; i++) add_row(&d, pair_row(-order[i - 1], order[i]), between(c, 1, 9));
    add_row(&d, unit_row(-order[count - 1]), between(c, 1, 9));
    if (one_in(c, 2)) add_random_rows(c, &d, between(c, 1, 40), between(c, 2, 4), 9);
    harden(c, &d);
    if (!one_in(c, 3)) shuffle_rows(c, &d);
    start_desk(r, &d, 3, 0);
    emit_both(r, between(c, 0, 60));
    for (int i = 0; i < 4; i++) {
        call_decide(r);
        emit_both(r, between(c, 0, 20));
    }
}

/* Makes one unit lighter than the others: the first of them, which joins a group last, that of the highest variable, or any. */
static void lighten(struct chance *c, struct draft *d)
{
    word which = draw(c) % 3, row = draw(c) % d->rows;
    while (ones(d->words[ROW_WORDS * row] | d->words[ROW_WORDS * row + 1]) != 1) row = (row + 1) % d->rows;
    for (word i = d->rows; i-- > 0 && which < 2;) {
        word names = d->words[ROW_WORDS * i] | d->words[ROW_WORDS * i + 1];
        if (ones(names) == 1 && (which == 0 || names == (word)1 << (d->variables - 1))) row = i;
    }
    d->words[ROW_WORDS * row + WEIGHT] = between(c, 1, 40);
}

/* One row or two that need every variable, and units for them: groups of up to 65 rows, the conflict first, last or between. */
static void run_one_needs_all(struct run *r)
{
    struct chance *c = &r->chance;
    struct draft d = {.variables = MOST_VARIABLES - draw(c) % 3};
    struct clause all = {0};
    int order[MOST_VARIABLES], count = (int)d.variables;
    draw_order(c, order, count);
    for (int i = 0; i < count; i++) all.literals[all.count++] = (signed char)-order[i];
    for (int i = 0; i < count; i++) add_row(&d, unit_row(order[i]), between(c, 60, 90));
    add_row(&d, all, between(c, 1, 30));
    if (!one_in(c, 4)) add_row(&d, all, between(c, 1, 30));
    shuffle_rows(c, &d);
    lighten(c, &d);
    start_desk(r, &d, 0, 0);
    emit_bounds(r);
    for (int i = 0; i < 5; i++) {
        emit(r, "decide %d", order[draw(c) % (word)count]);
        emit_bounds(r);
    }
    emit_searches(r, between(c, 0, 70));
}

/* Many rows, now and then as many as may be loaded, among which groups are many. */
static void run_many_groups(struct run *r)
{
    struct chance *c = &r->chance;
    static struct draft d;
    bool full = one_in(c, 8);
    d = (struct draft){.variables = between(c, 20, MOST_VARIABLES)};
    word most = one_in(c, 2) ? 9 : MOST_WEIGHT / MOST_LOADED;
    add_random_rows(c, &d, between(c, 40, 90), 1, most);
    add_random_rows(c, &d, between(c, 100, 300), 2, most);
    add_random_rows(c, &d, (full ? MOST_LOADED : MOST_INPUT_ROWS) - d.rows, 3, most);
    harden(c, &d);
    start_desk(r, &d, 0, 0);
    emit_both(r, between(c, 0, full ? 2 : 12));
    for (int i = 0; i < 3; i++) call_decide(r);
    emit_both(r, between(c, 0, full ? 2 : 6));
}

static const struct run_family group_families[] = {
    {"few", run_few}, {"through-all", run_through_all}, {"few", run_few}, {"one-needs-all", run_one_needs_all},
    {"few", run_few}, {"many-groups", run_many_groups},
};
enum { GROUP_FAMILIES = sizeof group_families / sizeof *group_families };
