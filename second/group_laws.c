/* Part of selftest.c: the bound by groups on its examples, and against document 01's bound and enumeration on random small tables. */

/* The eight clauses of document 001. */
static const char eight_clauses[] = "1: 1; 1: -1 2; 1: -1 3; 1: -2 -3 4; 1: 5; 1: -5 6; 1: -5 7; 1: -6 -7 -4";

static void check_group_examples(struct tally *t)
{
    struct lent d = load_rows(7, eight_clauses, 8);
    check(t, bound_is(d, UNITS, 0) && bound_is(d, GROUPS, 1), "the eight clauses: 1, where document 01's bound is 0");
    check(t, bound_is(d, 2, 1) && bound_is(d, ~(word)0, 1), "any number but 0 is the bound by groups");
    d = load_rows(1, "3: 1; 2: -1", 2);
    check(t, bound_is(d, GROUPS, 2), "P2");
    d = load_rows(3, p4_rows, 5);
    check(t, bound_is(d, GROUPS, 1), "P4: one group, and nothing left to start from");
    decide(d, 1);
    check(t, bound_is(d, GROUPS, 2), "P4, with x1 true 2");
    d = load_rows(2, "5: 1; 2: -1 2; 4: -2; 1: -1", 4);
    check(t, bound_is(d, GROUPS, 3), "1 for the clash, then 2 for the chain");
    d = load_rows(2, "1: 1; 1: 1; 2: -1 2; 3: -2", 4);
    check(t, bound_is(d, GROUPS, 2), "two groups share the rows that weigh more");
    d = load_rows(1, "7:", 1);
    check(t, bound_is(d, GROUPS, 7), "P9: lost, not foreseen");
}

/* Where the order tells one group from another. */
static void check_group_order(struct tally *t)
{
    struct lent d = load_rows(3, "1: 1; 1: 2; 1: 1; 1: -2 3; 1: -1 3; 1: -3", 6);
    check(t, groups_are(d.words, "0 4 5"), "x3 is false from the first scan on, and the oldest unit, x1, is looked at first");
    d = load_rows(4, "1: 1; 1: -1 2; 1: -1 3; 1: -2 4; 1: -3 4; 1: -4 -1", 6);
    check(t, groups_are(d.words, "0 1 3 5"), "x4's reason is the row met first, and x3 is not needed");
    d = load_rows(4, "1: 1; 1: 4; 1: -1 2; 1: -1 -2; 1: -1 -4", 5);
    check(t, groups_are(d.words, "0 2 3"), "a literal is true at once, within the scan that makes it so");
    d = load_rows(3, "1: 2; 1: 1; 1: -1 -3; 1: -2 3; 1: -1 3", 5);
    check(t, groups_are(d.words, "0 1 2 3"), "the trail by rising row, not by rising variable");
    d = load_rows(2, "2: 1; 1: -1 2; 1: -1 -2; 1: -1; 1: -1", 5);
    check(t, groups_are(d.words, "0 3, 0 4"), "units that clash come before all else");
    d = load_rows(4, "1: 1 2; 1: -1 2; 1: 3 -4; 1: -3 -4; 1: 4", 5);
    decide(d, -2);
    check(t, groups_are(d.words, "0 1, 2 3 4"), "decided variables are not needed");
    decide(d, -4);
    check(t, groups_are(d.words, "0 1"), "satisfied rows are not looked at");
    decide(d, 1);
    check(t, groups_are(d.words, ""), "nor are those that are lost");
}

/* --- what a group is --- */

/* No reading that keeps the standing decisions satisfies all rows of the group. */
static bool cannot_all_hold(const word *desk, const struct group *g)
{
    for (word reading = 0; reading < (word)1 << desk[VARIABLES]; reading++) {
        int broken = 0;
        if ((reading & desk[DECIDED]) != desk[DECIDED_TRUE]) continue;
        for (int i = 0; i < g->count; i++) {
            const word *row = desk_row(desk, (word)g->rows[i]);
            if ((row[0] & reading) == 0 && (row[1] & ~reading) == 0) broken++;
        }
        if (broken == 0) return false;
    }
    return true;
}

/* Takes the cost from what is left of each row's weight; false if a row has less, or is named twice, or if none is emptied. */
static bool is_paid(word *left, const struct group *g)
{
    bool emptied = false;
    for (int i = 0; i < g->count; i++) {
        for (int j = 0; j < i; j++)
            if (g->rows[i] == g->rows[j]) return false;
        if (left[g->rows[i]] < g->cost) return false;
        left[g->rows[i]] -= g->cost;
        if (left[g->rows[i]] == 0) emptied = true;
    }
    return emptied && g->cost > 0;
}

/* What the random tables must meet. */
struct groups_met {
    int above, fewer;      /* bounds above document 01's, walks of fewer nodes */
    int longer, heavier;   /* groups of over three rows, groups that cost over 1 */
};

static void check_groups(struct tally *t, struct lent d, word foreseen, struct groups_met *met)
{
    static struct group groups[MOST_CAPACITY + 1];
    word left[MOST_CAPACITY], sum = 0;
    for (word r = 0; r < d.words[IN_USE]; r++) left[r] = desk_row(d.words, r)[WEIGHT];
    int count = groups_found(d.words, groups, MOST_CAPACITY + 1);
    check(t, (word)count <= d.words[IN_USE], "no more groups than rows in use");
    for (int i = 0; i < count; i++) {
        check(t, cannot_all_hold(d.words, &groups[i]), "the rows of a group cannot all hold");
        check(t, is_paid(left, &groups[i]), "each row of a group has the cost to give, and one gives its last");
        sum += groups[i].cost;
        if (groups[i].count > 3) met->longer++;
        if (groups[i].cost > 1) met->heavier++;
    }
    check(t, sum == foreseen, "foreseen is what the groups cost");
}

/* --- what it is as a bound --- */

static void check_bound_law(struct tally *t, struct lent d, struct groups_met *met)
{
    struct losses units, groups;
    word weight, reading;
    bound(d, UNITS, &units);
    bound(d, GROUPS, &groups);
    bool any = least_by_enumeration(d.words, &weight, &reading);
    word by_units = units.conceded + units.lost + units.foreseen, by_groups = groups.conceded + groups.lost + groups.foreseen;
    check(t, !any || by_groups <= weight, "no more than the least weight of a reading below the node");
    check(t, by_groups >= by_units, "no less than document 01's bound");
    check(t, groups.conceded == units.conceded && groups.lost == units.lost, "conceded and lost are the same");
    check_groups(t, d, groups.foreseen, met);
    if (by_groups > by_units) met->above++;
}

/* Decides all that is undecided, looking at each node on the way. */
static void check_down_to_leaf(struct tally *t, struct chance *c, struct lent d, struct groups_met *met)
{
    for (int v = 1; v <= (int)d.words[VARIABLES]; v++) {
        check_bound_law(t, d, met);
        decide(d, one_in(c, 2) ? v : -v);
    }
    check(t, bound_is(d, GROUPS, desk_weight(d.words, d.words[DECIDED_TRUE])), "at a leaf, the weight of its reading");
}

static void check_walk_law(struct tally *t, struct chance *c, struct lent d, struct groups_met *met)
{
    struct found units, groups, stopped;
    word choice = one_in(c, 3) ? (word)GROUPS : between(c, 1, ~(word)0 - 1);
    search(d, UNITS, MOST_BUDGET, &units);
    search(d, choice, MOST_BUDGET, &groups);
    check(t, groups.done && groups.kept == units.kept && groups.weight == units.weight, "the same least weight");
    check(t, groups.reading == units.reading, "the same first reading");
    check(t, groups.kept ? groups.nodes <= units.nodes : groups.nodes == units.nodes, "no more nodes, and as many where it is impossible");
    if (groups.nodes < units.nodes) met->fewer++;
    uint32_t budget = (uint32_t)between(c, 0, groups.nodes - 1);
    search(d, choice, budget, &stopped);
    check(t, !stopped.done && stopped.nodes == budget && (!stopped.kept || (groups.kept && stopped.weight >= groups.weight)), "a smaller budget stops");
    check(t, !stopped.kept || desk_weight(d.words, stopped.reading) == stopped.weight, "a stopped reading weighs what is said");
    search(d, choice, (uint32_t)groups.nodes, &stopped);
    check(t, stopped.done && stopped.nodes == groups.nodes, "the full count is enough");
}

static void draft_for_groups(struct chance *c, struct draft *d)
{
    word most = between(c, 1, 9);
    draft_for_steps(c, d, between(c, 0, 7), most);
    if (one_in(c, 3)) add_random_rows(c, d, between(c, 1, 20), between(c, 1, 3), most);
    if (d->rows > 0 && one_in(c, 9)) make_hard(d, draw(c) % d->rows);
}

static void check_grouped_tables(struct tally *t, struct chance *c, struct groups_met *met)
{
    struct steps_done done = {0};
    for (int i = 0; i < 1500; i++) {
        struct draft d = {0};
        draft_for_groups(c, &d);
        struct lent desk = load_draft(&d, d.rows + 20);
        for (word steps = d.variables == 0 ? 0 : draw(c) % 4; steps > 0; steps--) try_step(c, desk, &done);
        check_walk_law(t, c, desk, met);
        check_down_to_leaf(t, c, desk, met);
    }
}

static void check_group_laws(struct tally *t)
{
    struct chance c = {20260014};
    struct groups_met met = {0};
    begin_family(t, "the bound by groups, its examples");
    check_group_examples(t);
    check_group_order(t);
    end_family(t);
    begin_family(t, "the bound by groups, on random tables");
    check_grouped_tables(t, &c, &met);
    check(t, met.above >= 500 && met.fewer >= 300 && met.longer >= 500 && met.heavier >= 500, "groups were met too seldom");
    end_family(t);
    printf("  above document 01's: %d bounds, %d walks shorter; groups of over three rows %d, that cost over 1 %d\n", met.above, met.fewer,
           met.longer, met.heavier);
}
