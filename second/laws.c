/* Part of selftest.c: what must hold on every table, tried on random small ones. */

/* --- a finished search is the enumeration, and a stopped one its beginning --- */

static void check_search_law(struct tally *t, struct chance *c, struct lent d)
{
    struct found f, g;
    struct losses b;
    word weight, reading;
    search(d, UNITS, MOST_BUDGET, &f);
    bool any = least_by_enumeration(d.words, &weight, &reading);
    check(t, f.done && f.kept == any, "impossible exactly where no reading satisfies every hard row");
    check(t, !any || (f.weight == weight && f.reading == reading), "finished search is the enumeration");
    check(t, bound(d, UNITS, &b).number == 0 && (!any || b.conceded + b.lost + b.foreseen <= weight), "the bound is no more than the least weight");
    check(t, b.conceded == d.words[CONCEDED] && b.conceded + b.lost == lost(d.words), "conceded and lost are what is lost");
    check(t, !any || (desk_weight(d.words, f.reading) == f.weight && desk_holds(d.words, f.reading)), "the reading weighs what is said");
    uint32_t budget = (uint32_t)between(c, 0, f.nodes - 1);
    search(d, UNITS, budget, &g);
    check(t, !g.done && g.nodes == budget && (!g.kept || (any && g.weight >= f.weight)), "a smaller budget stops");
    check(t, !g.kept || (desk_weight(d.words, g.reading) == g.weight && desk_holds(d.words, g.reading)), "a stopped reading weighs what is said");
    search(d, UNITS, (uint32_t)f.nodes, &g);
    check(t, g.done && g.kept == f.kept && g.weight == f.weight && g.nodes == f.nodes, "the full count is enough");
}

static void check_searches(struct tally *t, struct chance *c)
{
    for (int i = 0; i < 1500; i++) {
        struct draft d = {.variables = between(c, 0, 7)};
        word most = between(c, 1, 9);
        add_mixed_rows(c, &d, between(c, 0, 20), most);
        if (one_in(c, 3)) add_random_rows(c, &d, 12, 3, 3);
        harden(c, &d);
        struct lent desk = load_draft(&d, d.rows);
        check_search_law(t, c, desk);
        if (d.variables > 0 && decide(desk, draw_literal(c, d.variables)).number == 0) check_search_law(t, c, desk);
    }
}

/* --- rewritings keep weights, taking back restores words --- */

struct steps_done {
    int accepted[FORK + 1];
    int links[FORK + 1][MOST_LINKS + 1];
    int refused[21];
};

/* The weights of all readings that keep the standing decisions; others are passed over. */
static bool same_weights(const word *before, const word *after)
{
    for (word reading = 0; reading < (word)1 << before[VARIABLES]; reading++) {
        if ((reading & before[DECIDED]) != before[DECIDED_TRUE]) continue;
        if (desk_weight(before, reading) != desk_weight(after, reading)) return false;
        if (desk_holds(before, reading) != desk_holds(after, reading)) return false;
    }
    return true;
}

/* So that a reading breaks the same ones in either. */
static bool same_hard_rows(const word *before, const word *after)
{
    for (word row = 0; row < after[IN_USE]; row++) {
        const word *was = desk_row(before, row), *now = desk_row(after, row);
        bool any = is_hard(now) || (row < before[IN_USE] && is_hard(was));
        if (any && (row >= before[IN_USE] || memcmp(was, now, ROW_WORDS * sizeof(word)) != 0)) return false;
    }
    return true;
}

static struct refusal try_step(struct chance *c, struct lent d, struct steps_done *done)
{
    word kind = between(c, DECIDE, FORK), named[16], count = 0;
    struct refusal no;
    if (kind == DECIDE) {
        no = decide(d, draw_literal(c, d.words[VARIABLES]));
    } else {
        if (!find_fitting(d.words, c, kind, named, &count)) return (struct refusal){14, 0};
        if (one_in(c, 8)) spoil(c, &kind, named, &count);
        no = rewrite(d, kind, named, count);
    }
    done->refused[no.number]++;
    if (no.number == 0) done->accepted[kind]++;
    if (no.number == 0 && kind >= CHAIN) done->links[kind][count - (kind == CHAIN ? 2 : 4)]++;
    return no;
}

/* One step and what must hold of it. Whether it stands afterwards is left to chance. */
static void check_step(struct tally *t, struct chance *c, struct lent d, struct steps_done *done)
{
    static word before[MOST_DESK], after[MOST_DESK];
    size_t bytes = d.count * sizeof(word);
    memcpy(before, d.words, bytes);
    struct refusal no = try_step(c, d, done);
    if (no.number != 0) {
        check(t, memcmp(before, d.words, bytes) == 0, "a refusal changes nothing");
        return;
    }
    check(t, well_formed(d), "a step keeps the desk well formed");
    bool decision = before[DECIDED] != d.words[DECIDED];
    check(t, decision || same_weights(before, d.words), "a rewriting keeps weights");
    check(t, same_hard_rows(before, d.words), "a step keeps the hard rows, and makes none");
    memcpy(after, d.words, bytes);
    check(t, is(take_back(d), 0, 0) && memcmp(before, d.words, bytes) == 0, "taking back restores the words");
    memcpy(d.words, after, bytes);
    if (one_in(c, 5)) take_back(d);
}

static void check_all_taken_back(struct tally *t, struct lent d, const word *loaded)
{
    while (d.words[STEPS] > 0 && is(take_back(d), 0, 0)) continue;
    check(t, memcmp(loaded, d.words, d.count * sizeof(word)) == 0, "taking all back restores the load");
    check(t, is(take_back(d), 16, 0), "then there is nothing to take back");
}

static void check_steps(struct tally *t, struct chance *c, struct steps_done *done)
{
    static word loaded[MOST_DESK];
    for (int i = 0; i < 500; i++) {
        struct draft d = {0};
        word most = between(c, 1, 6);
        draft_for_steps(c, &d, between(c, 1, 6), most);
        struct lent desk = load_draft(&d, d.rows + between(c, 0, 60));
        memcpy(loaded, desk.words, desk.count * sizeof(word));
        for (int step = 0; step < 14; step++) check_step(t, c, desk, done);
        check_all_taken_back(t, desk, loaded);
    }
}

static void check_every_kind_met(struct tally *t, const struct steps_done *done)
{
    for (int kind = DECIDE; kind <= FORK; kind++) check(t, done->accepted[kind] >= 20, "a kind was met too seldom");
    for (int k = 0; k <= MOST_LINKS; k++)
        check(t, done->links[CHAIN][k] > 0 && done->links[FORK][k] > 0, "a count of links was not met");
    for (int number = 12; number <= 15; number++) check(t, done->refused[number] > 0, "a refusal was not met");
}

/* --- writing and reading --- */

static void check_round_trip(struct tally *t, struct chance *c)
{
    static char text[MOST_TEXT];
    static word words[ROW_WORDS * MOST_LOADED + 1];
    for (int i = 0; i < 1000; i++) {
        struct draft d = {.variables = one_in(c, 9) ? MOST_VARIABLES : between(c, 0, 9)};
        struct header head;
        size_t length;
        uint32_t budget = (uint32_t)draw(c);
        word most = one_in(c, 2) ? 9 : MOST_WEIGHT / MOST_LOADED;
        add_mixed_rows(c, &d, one_in(c, 30) ? MOST_LOADED : between(c, 0, 12), most);
        harden(c, &d);
        word count = ROW_WORDS * d.rows;
        check(t, is(write_text(table_of(&d), budget, text, MOST_TEXT, &length), 0, 0), "the writer takes the table");
        check(t, is(write_text(table_of(&d), budget, text, length - 1, &length), 4, 0), "one byte less is 4");
        words[count] = 77;
        struct refusal no = read_text((unsigned char *)text, length, (struct lent){words, count}, &head);
        check(t, is(no, 0, 0) && memcmp(words, d.words, count * sizeof(word)) == 0 && words[count] == 77, "the same rows");
        check(t, head.variables == d.variables && head.budget == budget && head.rows == d.rows, "the same heads");
        if (count == 0) continue;
        no = read_text((unsigned char *)text, length, (struct lent){words, count - 1}, &head);
        check(t, is(no, 4, 0), "one word less is 4");
    }
}

/* --- the weight of a reading, counted from the table a second way --- */

static void check_weighings(struct tally *t, struct chance *c)
{
    for (int i = 0; i < 1000; i++) {
        struct draft d = {.variables = between(c, 0, 7)};
        struct weighed w;
        add_mixed_rows(c, &d, between(c, 0, 20), 9);
        harden(c, &d);
        word reading = draw(c) % ((word)1 << d.variables), by_masks = 0, hard_broken = 0;
        for (word r = 0; r < d.rows; r++) {
            const word *row = d.words + ROW_WORDS * r;
            if ((row[0] & reading) != 0 || (row[1] & ~reading) != 0) continue;
            by_masks += row[WEIGHT];
            hard_broken += row[MARK];
        }
        check(t, is(weigh(table_of(&d), reading, &w), 0, 0) && w.weight == by_masks, "the sum of broken rows");
        check(t, w.holds == (hard_broken == 0), "whether every hard row holds");
        struct lent desk = load_draft(&d, d.rows);
        check(t, desk_weight(desk.words, reading) == w.weight, "a desk as loaded weighs what its table does");
        check(t, is(weigh(table_of(&d), (word)1 << d.variables, &w), 8, 0), "a reading above the count");
    }
}

static void check_laws(struct tally *t)
{
    struct chance c = {20240101};
    struct steps_done done = {0};
    begin_family(t, "search is enumeration, bound is below");
    check_searches(t, &c);
    end_family(t);
    begin_family(t, "steps keep weights, taking back restores");
    check_steps(t, &c, &done);
    check_every_kind_met(t, &done);
    end_family(t);
    printf("  accepted: decide %d, merge %d, shift %d, chain %d, fork %d\n", done.accepted[0], done.accepted[1],
           done.accepted[2], done.accepted[3], done.accepted[4]);
    begin_family(t, "writing, then reading");
    check_round_trip(t, &c);
    end_family(t);
    begin_family(t, "the weight of a reading");
    check_weighings(t, &c);
    end_family(t);
}
