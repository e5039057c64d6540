/* Part of selftest.c: near misses and edges, each with the number that document 01 gives. */

struct near_miss {
    word variables;
    const char *rows;
    int decided; /* before the rewriting; 0 for none */
    word kind;
    const char *named;
    word spare; /* C less the rows loaded */
    unsigned number;
    const char *what;
};

static const struct near_miss near_misses[] = {
    {2, "1: 1 2; 1: -1 -2", 0, MERGE, "0 1", 9, 14, "two variables opposed"},
    {2, "1: 1 2; 1: 1 2", 0, MERGE, "0 1", 9, 14, "none opposed"},
    {2, "1: 1 2; 1: -1", 0, MERGE, "0 1", 9, 14, "a literal more"},
    {3, "1: 1 2; 1: -1 3", 0, MERGE, "0 1", 9, 14, "another variable"},
    {1, "1:; 1:", 0, MERGE, "0 1", 9, 14, "empty rows have none opposed"},
    {2, "1: 1 2; 1: -1 2", 0, MERGE, "1 0", 1, 0, "either order"},
    {2, "1: 1 2; 1: -1 2", 0, MERGE, "0 1", 0, 15, "no room"},
    {3, "1: 1 2; 1: -1 3", 0, MERGE, "0 1", 0, 14, "14 before 15"},
    {1, "1: 1; 1: -1", 0, MERGE, "0 1", 0, 0, "an empty rest needs no room"},
    {3, "1: 1 3; 1: -1 -2", -3, MERGE, "0 1", 9, 14, "the remnants count"},
    {3, "1: 1 3; 1: -1", -3, MERGE, "0 1", 0, 0, "decided literals may differ"},
    {3, "1: 1 3; 1: -1", 3, MERGE, "0 1", 9, 14, "a satisfied row"},
    {2, "1: 1; 1: -1 2", 0, SHIFT, "0 1", 2, 0, "a shift"},
    {2, "1: 1; 1: -1 2", 0, SHIFT, "0 1", 1, 15, "a shift needs two"},
    {2, "1: 1; 1: -1 2", 0, SHIFT, "1 0", 2, 14, "a shift the wrong way round"},
    {2, "1: 1; 1: 1 2", 0, SHIFT, "0 1", 2, 14, "the same sign"},
    {3, "1: 1; 1: -1 2 3", 0, SHIFT, "0 1", 2, 14, "a literal too many"},
    {1, "1: 1; 1: -1", 0, SHIFT, "0 1", 2, 14, "a literal too few"},
    {1, "1: 1; 1: -1", 0, CHAIN, "0 1", 0, 0, "no links"},
    {1, "1: 1; 1: 1", 0, CHAIN, "0 1", 0, 14, "no clash"},
    {2, "1: 1; 1: -1 2; 1: -2", 0, CHAIN, "0 1 2", 1, 0, "one link"},
    {2, "1: 1; 1: -1 2; 1: -2", 0, CHAIN, "0 1 2", 0, 15, "one link needs one"},
    {2, "1: 1; 1: -1 2; 1: -2", 0, CHAIN, "2 1 0", 1, 0, "and back"},
    {2, "1: 1; 1: -1 2; 1: -2", 0, CHAIN, "1 0 2", 1, 14, "l1 must be a unit"},
    {2, "1: 1; 1: -1 2; 1: -2 -1; 1: 1", 0, CHAIN, "0 1 2 3", 2, 0, "a variable may repeat"},
    {2, "1: 1; 1: -1 2; 1: -2 1; 1: -1", 0, CHAIN, "0 1 2 3", 2, 0, "with the same sign too"},
    {2, "1: 1; 1: -1 2; 1: -2 1; 1: -1", 0, CHAIN, "0 1 2 1", 2, 13, "a row may not"},
    {3, "1: 1; 1: -1 2; 1: -1 3; 1: -2 -3", 0, FORK, "0 1 2 3", 2, 0, "a fork"},
    {3, "1: 1; 1: -1 2; 1: -1 3; 1: -2 -3", 0, FORK, "0 2 1 3", 2, 0, "b and c either way"},
    {3, "1: 1; 1: -1 2; 1: -1 3; 1: -2 -3", 0, FORK, "0 1 2 3", 1, 15, "a fork needs two"},
    {3, "1: 1; 1: -1 2; 1: -1 3; 1: -2 -3", 0, FORK, "0 1 3 2", 2, 14, "the last row elsewhere"},
    {3, "1: 1; 1: -1 2; 1: -1 2; 1: -2 -3", 0, FORK, "0 1 2 3", 2, 14, "b is c"},
    {3, "1: 1; 1: -1 2; 1: -1 -2; 1: -2 3", 0, FORK, "0 1 2 3", 2, 14, "b is not c"},
    {3, "1: 1; 1: -1 2; 1: -2 1; 1: -2 3; 1: -1 -3", 0, FORK, "0 1 2 3 4", 9, 0, "b a variable of the chain"},
    {2, "1: 1 2; h: -1 2", 0, MERGE, "0 1", 9, 14, "a hard row in a merge"},
    {2, "h: 1 2; 1: -1 2", 0, MERGE, "0 1", 0, 14, "either, and before 15"},
    {2, "h: 1; 1: -1 2", 0, SHIFT, "0 1", 2, 14, "a hard unit in a shift"},
    {2, "1: 1; h: -1 2", 0, SHIFT, "0 1", 2, 14, "a hard pair in a shift"},
    {2, "1: 1; 1: -1 2; h: -2", 0, CHAIN, "0 1 2", 1, 14, "the last row of a chain hard"},
    {3, "1: 1; 1: -1 2; 1: -1 3; h: -2 -3", 0, FORK, "0 1 2 3", 2, 14, "the last row of a fork hard"},
    {2, "h: 1; 1: -1 2", 0, SHIFT, "0 0", 2, 13, "13 before a hard row"},
    {2, "1: 1; h: 2; 1: -1 2; h: -2", 0, SHIFT, "0 2", 2, 0, "hard rows that are not named"},
    {1, "1: 1; 1: -1", 0, 0, "0 1", 2, 13, "kind 0"},
    {1, "1: 1; 1: -1", 0, 5, "0 1", 2, 13, "kind 5"},
    {1, "1: 1; 1: -1", 0, MERGE, "", 2, 13, "no rows"},
    {1, "1: 1; 1: -1", 0, MERGE, "0", 2, 13, "one row"},
    {1, "1: 1; 1: -1", 0, MERGE, "0 0", 2, 13, "a row twice"},
    {1, "1: 1; 1: -1", 0, MERGE, "0 2", 2, 13, "a row not in use"},
    {1, "1: 1; 1: -1", 0, MERGE, "0 18446744073709551615", 2, 13, "a row far out"},
    {1, "1: 1; 1: -1", 0, FORK, "0 1 0", 2, 13, "three rows for a fork"},
    {1, "1: 1; 1: -1", 0, CHAIN, "0 1 2 3 4 5 6 7 8 9 10", 2, 13, "nine links"},
    {1, "1: 1; 1: -1", 0, FORK, "0 1 2 3 4 5 6 7 8 9 10 11 12", 2, 13, "nine links and a fork"},
};

static word numbers_from(const char *text, word *numbers)
{
    struct line l = {text, false};
    word count = 0;
    while (!at_end(&l)) numbers[count++] = next_number(&l);
    return count;
}

static void check_near_misses(struct tally *t)
{
    for (size_t i = 0; i < sizeof near_misses / sizeof *near_misses; i++) {
        const struct near_miss *m = &near_misses[i];
        struct draft d = draft_from(m->variables, m->rows);
        struct lent desk = load_draft(&d, d.rows + m->spare);
        word named[16], count = numbers_from(m->named, named);
        if (m->decided != 0) decide(desk, m->decided);
        check(t, is(rewrite(desk, m->kind, named, count), m->number, 0), m->what);
        if (m->number == 0) check(t, is(rewrite(desk, m->kind, named, count), 14, 0), "a spent row");
    }
}

/* --- words poked in, which calls alone do not reach --- */

static void check_poked_rewriting(struct tally *t)
{
    word merge[] = {0, 1}, shift[] = {0, 1};
    struct lent d = load_rows(2, "1: 1; 1: -1; 1: 2", 4);
    rewrite(d, MERGE, merge, 2);
    word *entry = d.words + HEAD_WORDS + ROW_WORDS * 4;
    d.words[CONCEDED] = ~(word)0;
    check(t, is(take_back(d), 10, 0) && !well_formed(d), "conceded may not wrap");
    d.words[CONCEDED] = 1;
    entry[ENTRY_WEIGHT] = 2;
    check(t, is(take_back(d), 10, 0), "conceded less than the step added");
    entry[ENTRY_WEIGHT] = 1;
    entry[ENTRY_FIRST_NEW] = 2;
    check(t, is(take_back(d), 10, 0), "first new row below those loaded");
    entry[ENTRY_FIRST_NEW] = 4;
    check(t, is(take_back(d), 10, 0), "first new row past those in use");
    entry[ENTRY_FIRST_NEW] = 3;
    entry[ENTRY_KIND] = 5;
    check(t, is(take_back(d), 10, 0), "kind 5");
    entry[ENTRY_KIND] = SHIFT;
    check(t, is(take_back(d), 10, 0), "a shift adds two rows");
    entry[ENTRY_KIND] = MERGE;
    entry[ENTRY_ROWS] = 1;
    check(t, is(take_back(d), 10, 0), "a row repeated");
    entry[ENTRY_ROWS] = 3;
    check(t, is(take_back(d), 10, 0), "a row not below the first new one");
    entry[ENTRY_ROWS] = 0;
    d.words[HEAD_WORDS + MARK] = HARD;
    check(t, is(take_back(d), 10, 0) && well_formed(d), "a hard row named");
    d.words[HEAD_WORDS + MARK] = SOFT;
    entry[ENTRY_ROWS + 5] = 99;
    check(t, is(take_back(d), 0, 0) && entry[ENTRY_ROWS + 5] == 0, "places not needed are not judged");
    d = load_rows(2, "1: 1; 1: -1 2", 4);
    rewrite(d, SHIFT, shift, 2);
    entry[ENTRY_WEIGHT] = (word)1 << 63;
    check(t, is(take_back(d), 10, 0), "twice 2^63 does not wrap");
    entry[ENTRY_WEIGHT] = 500000001;
    check(t, is(take_back(d), 10, 0), "(d) broken afterwards");
    entry[ENTRY_WEIGHT] = 500000000;
    check(t, is(take_back(d), 0, 0) && d.words[HEAD_WORDS + WEIGHT] == 500000000, "(d) just kept");
}

static void check_poked_decision(struct tally *t)
{
    struct lent d = load_rows(2, "1: 1; 1: -1; 1: 2", 4);
    word *entry = d.words + HEAD_WORDS + ROW_WORDS * 4;
    decide(d, 2);
    static const word undecided[] = {0, 1, 3, 64, 65, 66, ~(word)0};
    for (int i = 0; i < 7; i++) {
        entry[ENTRY_VARIABLE] = undecided[i];
        check(t, is(take_back(d), 10, 0), "a decision on a variable that is not decided");
    }
    entry[ENTRY_VARIABLE] = 2;
    entry[ENTRY_VALUE] = 7;
    check(t, is(take_back(d), 0, 0) && d.words[DECIDED] == 0 && d.words[DECIDED_TRUE] == 0, "a value of 7 is taken");
    static const int64_t bad[] = {0, 3, -3, 64, -64, 65, -65, 4294967297, INT64_MIN, INT64_MAX};
    for (int i = 0; i < 10; i++) check(t, is(decide(d, bad[i]), 12, 0), "a literal that cannot be decided");
    check(t, is(decide((struct lent){d.words, 7}, 1), 10, 0), "under 8 words is 10");
    check(t, is(decide((struct lent){d.words, d.count - 1}, 1), 10, 0), "one word short is 10");
}

/* --- damaged lines, where the place is known --- */

static bool faulted_at(const struct lines *l, word place)
{
    char output[80];
    static char text[4000];
    size_t at = 0;
    for (int i = 0; i < l->count; i++) at += (size_t)sprintf(text + at, "%s\n", l->text[i]);
    sprintf(output, "status=refused\nnumber=20\nplace=%" PRIu64 "\n", place);
    return answers(text, output);
}

/* The line after is the one at fault where the damaged one is right and something stands behind it. */
static int lines_later(const struct damage *n)
{
    return strcmp(n->name, "blank-after") == 0 || strcmp(n->name, "twice") == 0;
}

/* The line of each row that is so many behind its first becomes the damage. */
static void check_damaged_rows(struct tally *t, const struct draft *d, const struct damage *how, int behind)
{
    static struct lines l;
    for (word row = 0; row < d->rows; row++) {
        int line = row_line(row) + behind;
        lines_of(&l, d, 30);
        strcpy(l.text[line], how->template);
        check(t, faulted_at(&l, (word)(line + 1 + lines_later(how))), how->name);
    }
}

static void check_damaged_lines(struct tally *t)
{
    static struct lines l;
    struct draft d = draft_from(2, "1: 1; h: -1 2; 3:");
    for (int i = 0; i < NUMBER_DAMAGES; i++) {
        static const int places[] = {0, 1, 2, 3, 4, 6, 7, 9, 10};
        for (int p = 0; p < 9; p++) {
            lines_of(&l, &d, 30);
            fill_template(l.text[places[p]], number_damages[i].template);
            check(t, faulted_at(&l, (word)(places[p] + 1 + lines_later(&number_damages[i]))), number_damages[i].name);
        }
    }
    for (int i = 0; i < MARK_DAMAGES; i++) check_damaged_rows(t, &d, &mark_damages[i], MARK_LINE);
    for (int i = 0; i < LITERAL_DAMAGES; i++) check_damaged_rows(t, &d, &literal_damages[i], LITERALS_LINE);
    for (word row = 0; row < d.rows; row++) {
        lines_of(&l, &d, 30);
        damage_marks("mark-missing", &l, row_line(row));
        check(t, faulted_at(&l, (word)(row_line(row) + 2)), "a mark missing");
        lines_of(&l, &d, 30);
        damage_marks("mark-after-lits", &l, row_line(row));
        check(t, faulted_at(&l, (word)(row_line(row) + 2)), "a mark after the literals");
        lines_of(&l, &d, 30);
        damage_marks("mark-before-weight", &l, row_line(row));
        check(t, faulted_at(&l, (word)(row_line(row) + 1)), "a mark before the weight");
    }
}

static void check_refusals(struct tally *t)
{
    begin_family(t, "near misses of rewriting");
    check_near_misses(t);
    end_family(t);
    begin_family(t, "poked words");
    check_poked_rewriting(t);
    check_poked_decision(t);
    end_family(t);
    begin_family(t, "damaged lines and their places");
    check_damaged_lines(t);
    end_family(t);
}
