/* Part of selftest.c: hard rows, document 02's C-16: by hand, and how a walk finds that hard rows clash. */

static bool is_impossible(struct lent desk, word choice, word nodes)
{
    struct found f;
    return search(desk, choice, MOST_BUDGET, &f).number == 0 && f.done && !f.kept && f.nodes == nodes;
}

static struct refusal load_marked(word weight, word mark)
{
    word row[ROW_WORDS] = {1, 0, weight, mark};
    return load((struct lent){test_words, desk_size(1)}, (struct table){1, row, ROW_WORDS}, 1);
}

static void check_marks(struct tally *t)
{
    check(t, is(load_marked(0, HARD), 0, 0) && is(load_marked(1, SOFT), 0, 0), "a hard row and a soft one");
    check(t, is(load_marked(0, SOFT), 6, 0) && is(load_marked(1, HARD), 6, 0), "no weight if soft, one if hard");
    check(t, is(load_marked(MOST_WEIGHT, HARD), 6, 0) && is(load_marked(~(word)0, HARD), 6, 0), "nor any other");
    static const word marks[] = {2, 3, 256, 4294967296, 4294967297, (word)1 << 63, ~(word)0};
    for (int i = 0; i < 7; i++) check(t, is(load_marked(0, marks[i]), 6, 0) && is(load_marked(1, marks[i]), 6, 0), "another fourth word");
    word three[] = {1, 0, 1}, eight[] = {1, 0, 1, 0, 2, 0, 0, 2};
    check(t, is(load((struct lent){test_words, MOST_DESK}, (struct table){1, three, 3}, 1), 2, 0), "three words");
    check(t, is(load((struct lent){test_words, MOST_DESK}, (struct table){1, eight, 8}, 2), 5, 1), "5 before 6");
    check(t, is(load((struct lent){test_words, MOST_DESK}, (struct table){2, eight, 8}, 2), 6, 1), "6 at the second row");
    check(t, is(load((struct lent){test_words, desk_size(2) - 1}, (struct table){2, eight, 8}, 2), 4, 0) && desk_size(2) == 8 + 4 * 2 + 4096,
          "4 before 6, and the words of a desk");
    struct lent d = load_rows(1, "h: 1", 1);
    d.words[HEAD_WORDS + WEIGHT] = 1;
    check(t, !well_formed(d) && is(take_back(d), 10, 0), "a hard row with a weight on a desk");
    d.words[HEAD_WORDS + WEIGHT] = 0;
    check(t, well_formed(d) && is(take_back(d), 16, 0), "and without");
    d.words[HEAD_WORDS + MARK] = 2;
    check(t, !well_formed(d) && is(take_back(d), 10, 0), "another fourth word on a desk");
}

static void check_hard_searches(struct tally *t)
{
    struct lent d = load_rows(1, "h: 1; h: -1", 2);
    check(t, is_impossible(d, UNITS, 3) && is_impossible(d, GROUPS, 3), "two that clash");
    check(t, stops_with_none(d, 0) && stops_with_none(d, 1) && stops_with_none(d, 2), "two that clash, with a smaller budget");
    check(t, losses_are(d, 0, 0, 0), "bounds pass over them");
    d = load_rows(1, "500000000: 1; 500000000: -1", 2);
    check(t, search_gives(d, 100, true, 500000000, 1, 3), "of two large weights one is given up");
    d = load_rows(1, "7: 1; h: -1; 2: 1", 3);
    check(t, search_gives(d, 100, true, 9, 0, 3) && losses_are(d, 0, 0, 0), "a hard row against heavier ones");
    d = load_rows(0, "h:", 1);
    check(t, is_impossible(d, UNITS, 1) && losses_are(d, 0, 0, 0) && stops_with_none(d, 0), "an empty hard row");
    d = load_rows(3, "h: 3; h: -3", 2);
    check(t, is_impossible(d, UNITS, 15) && is_impossible(d, GROUPS, 15), "a clash on the last variable");
    d = load_rows(2, "3: 1; h: -1 2; h: -1 -2; 4: 1", 4);
    check(t, search_gives(d, 100, true, 7, 2, 7), "the cut is met at the leaves");
    decide(d, 1);
    check(t, is_impossible(d, UNITS, 3) && losses_are(d, 0, 0, 0), "a decision that leaves none");
    take_back(d);
    decide(d, -1);
    check(t, search_gives(d, 100, true, 7, 2, 3) && losses_are(d, 0, 7, 0), "and the other");
    d = load_rows(1, "2: 1; h: -1", 2);
    decide(d, 1);
    check(t, is_impossible(d, GROUPS, 1) && losses_are(d, 0, 0, 0), "nothing to decide, and a hard row broken");
    d = load_rows(2, "1: 1; h: -1 2; 1: -2", 3);
    check(t, bound_is(d, UNITS, 0) && bound_is(d, GROUPS, 0) && search_gives(d, 9, true, 1, 3, 5), "a group has no hard row");
}

/* A hard row is written weight=0 and hard=1; what else is read is for load to judge. */
static void check_hard_texts(struct tally *t)
{
    static const char p2[] = "vars=1\nbudget=100\nrows=2\nweight=0\nhard=1\nlits=1\nweight=0\nhard=1\nlits=-1\n";
    struct draft d = draft_from(1, "h: 1; h: -1");
    static char out[MOST_ANSWER];
    size_t length = 0;
    check(t, is(write_text(table_of(&d), 100, out, sizeof out, &length), 0, 0) && length == strlen(p2) && memcmp(out, p2, length) == 0, "as written");
    check(t, answers(p2, "status=impossible\nweight=none\nnodes=3\nreading=none\n" NO_LOSSES), "impossible");
    check(t, answers("vars=1\nbudget=2\nrows=2\nweight=0\nhard=1\nlits=1\nweight=0\nhard=1\nlits=-1\n",
                     "status=stopped\nweight=none\nnodes=2\nreading=none\n" NO_LOSSES), "budget 2");
    check(t, answers("vars=0\nbudget=1\nrows=2\nweight=3\nhard=0\nlits=\nweight=0\nhard=1\nlits=\n",
                     "status=impossible\nweight=none\nnodes=1\nreading=none\nconceded=0\nlost=3\nforeseen=0\n"), "the losses are written");
    check(t, answers_refusal("vars=1\nbudget=1\nrows=1\nweight=5\nhard=1\nlits=1\n", 6, 0), "a hard row with a weight is load's");
    check(t, is(read_into("vars=1\nbudget=1\nrows=1\nweight=5\nhard=1\nlits=1\n", ROW_WORDS), 0, 0), "and the reader's to read");
    check(t, answers_refusal("vars=1\nbudget=1\nrows=1\nweight=0\nhard=0\nlits=1\n", 6, 0), "a soft one without");
    check(t, answers_refusal("vars=1\nbudget=1\nrows=1\nweight=1\nhard=2\nlits=2\n", 20, 5), "20 before 5");
    check(t, answers_refusal("vars=1\nbudget=1\nrows=1\nweight=1\nhard=0\n", 20, 6), "no literals");
}

/* --- how it is found --- */

struct clashes_met {
    int impossible, at_root, deep, hard_broken; /* deep: over 20 nodes; hard rows broken by the reading that would weigh least without them */
};

static bool soft_least_breaks(const struct draft *d)
{
    struct draft soft = *d;
    word weight, reading;
    struct weighed w;
    for (word row = 0; row < soft.rows; row++)
        if (is_hard(soft.words + ROW_WORDS * row)) soft.rows--, swap_rows(&soft, row--, soft.rows);
    struct lent desk = load_draft(&soft, soft.rows);
    least_by_enumeration(desk.words, &weight, &reading);
    return weigh(table_of(d), reading, &w).number == 0 && !w.holds;
}

static void count_clash(const struct draft *d, struct clashes_met *met)
{
    struct found f;
    if (soft_least_breaks(d)) met->hard_broken++;
    search(load_draft(d, d->rows), UNITS, MOST_BUDGET, &f);
    if (f.kept) return;
    met->impossible++;
    if (f.nodes == 1) met->at_root++;
    if (f.nodes > 20) met->deep++;
}

/* The generators reach what they are there for. */
static void check_clashes(struct tally *t, struct chance *c, struct clashes_met *met)
{
    for (int i = 0; i < 1500; i++) {
        struct draft d = {.variables = between(c, 0, 7)};
        add_mixed_rows(c, &d, between(c, 1, 16), 9);
        harden(c, &d);
        count_clash(&d, met);
    }
    check(t, met->impossible >= 150 && met->at_root >= 30 && met->deep >= 30 && met->hard_broken >= 200, "clashes were met too seldom");
}

/* One path leads to the clash, with a node aside at each variable. */
static void check_paths(struct tally *t)
{
    for (int last = 1; last <= MOST_VARIABLES; last++) {
        struct draft d = {.variables = MOST_VARIABLES};
        for (int v = 1; v <= last; v++) add_hard(&d, unit_row(v % 3 == 0 ? -v : v));
        add_hard(&d, unit_row(last % 3 == 0 ? last : -last));
        struct lent desk = load_draft(&d, d.rows);
        check(t, is_impossible(desk, UNITS, 1 + 2 * (word)last), "two nodes for each variable");
    }
}

static void check_hard_rows(struct tally *t)
{
    struct chance c = {20260016};
    struct clashes_met met = {0};
    begin_family(t, "hard rows, by hand");
    check_marks(t);
    check_hard_searches(t);
    check_hard_texts(t);
    end_family(t);
    begin_family(t, "hard rows that clash");
    check_clashes(t, &c, &met);
    check_paths(t);
    end_family(t);
    printf("  impossible: %d, of which %d at the root and %d after over 20 nodes; %d least readings without hard rows break one\n", met.impossible,
           met.at_root, met.deep, met.hard_broken);
}
