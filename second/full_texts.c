/* Part of texts.c: texts at document 01's limits, good and damaged. Each kind's name begins with full- */

/* 64 variables whose best reading has all of them false. Rows of one negative literal, their weights not falling, let every other branch
   be cut at once; the last few fall, which makes the count of nodes long. The empty row makes the weight long. */
static void draft_long_answer(struct chance *c, struct draft *d)
{
    word units = 0, falling = between(c, 0, 6);
    *d = (struct draft){.variables = MOST_VARIABLES};
    for (int v = 1; v <= MOST_VARIABLES; v++) {
        word weight = v > MOST_VARIABLES - (int)falling ? 60 - 8 * (word)(v + (int)falling - MOST_VARIABLES) : 100;
        add_row(d, unit_row(-v), weight);
        units += weight;
    }
    add_row(d, (struct clause){0}, MOST_WEIGHT - units);
}

/* So many rows on so many variables, few literals to a row. */
static void draft_many(struct chance *c, struct draft *d, word rows)
{
    *d = (struct draft){.variables = one_in(c, 2) ? (word)MOST_VARIABLES : between(c, 1, 63)};
    for (word i = 0; i < rows; i++) {
        word length = between(c, 0, 4), weight = between(c, 1, 999);
        add_row(d, draw_clause(c, d->variables, length), weight);
    }
    harden(c, d);
}

/* Rows of three literals that clash: thousands of nodes. Where all are hard, as many to find that it is impossible. */
static void draft_long_search(struct chance *c, struct draft *d)
{
    *d = (struct draft){.variables = between(c, 17, 21)};
    add_random_rows(c, d, 7 * d->variables, 3, 2);
    if (!one_in(c, 3)) return;
    word hard = one_in(c, 4) ? between(c, 1, d->rows) : d->rows;
    for (word row = 0; row < hard; row++) make_hard(d, row);
}

static void text_long_answer(struct chance *c, struct lines *l)
{
    static struct draft d;
    static const word budgets[] = {4200, 20000, MOST_BUDGET};
    draft_long_answer(c, &d);
    lines_of(l, &d, budgets[draw(c) % 3]);
}

/* One of the last five rows is broken. */
static void damage_late(struct chance *c, struct lines *l)
{
    int row = l->count - ROW_LINES * (int)between(c, 1, 5);
    int numbered = row + (one_in(c, 3) ? MARK_LINE : 0);
    if (one_in(c, 2)) fill_template(l->text[numbered], number_damages[draw(c) % NUMBER_DAMAGES].template);
    else if (one_in(c, 3)) strcpy(l->text[row + MARK_LINE], mark_damages[draw(c) % MARK_DAMAGES].template);
    else strcpy(l->text[row + LITERALS_LINE], literal_damages[draw(c) % LITERAL_DAMAGES].template);
}

static void text_late_damage(struct chance *c, struct lines *l)
{
    static struct draft d;
    draft_many(c, &d, MOST_INPUT_ROWS);
    lines_of(l, &d, between(c, 0, 9));
    damage_late(c, l);
}

/* Something behind the last row that may be, or its end missing. */
static void text_surplus(struct chance *c, struct lines *l)
{
    static struct draft d;
    static const char *const ends[] = {"blank-at-end", "byte-at-end", "space-at-end", "nul-at-end", "row-too-many", "half-row-more",
                                       "row-too-few", "last-line-open"};
    draft_many(c, &d, MOST_INPUT_ROWS);
    lines_of(l, &d, between(c, 0, 9));
    damage_end(ends[draw(c) % 8], l);
}

/* One of the heads at its limit, the rows at the program's or the reader's; of too many rows one of the last may be broken besides. The
   largest budgets stand over texts that end soon. */
static void text_heads(struct chance *c, struct lines *l)
{
    static struct draft d;
    static const word rows[] = {MOST_INPUT_ROWS - 2, MOST_INPUT_ROWS - 1, MOST_INPUT_ROWS, MOST_INPUT_ROWS + 1, MOST_INPUT_ROWS + 2,
                                MOST_LOADED - 1, MOST_LOADED, MOST_LOADED + 1}, variables[] = {63, 64, 65, 66};
    static const word budgets[] = {4294967294, 4294967295, 4294967296, 4294967297};
    word which = draw(c) % 3;
    if (which == 0) {
        draft_many(c, &d, rows[draw(c) % 8]);
        lines_of(l, &d, between(c, 0, 9));
        if (d.rows > MOST_INPUT_ROWS && one_in(c, 3)) damage_late(c, l);
    } else if (which == 1) {
        draft_many(c, &d, between(c, 0, 3));
        lines_of(l, &d, between(c, 0, 99));
        sprintf(l->text[0], "vars=%" PRIu64, variables[draw(c) % 4]);
    } else {
        d = (struct draft){.variables = between(c, 0, 3)};
        add_mixed_rows(c, &d, between(c, 0, 5), 9);
        lines_of(l, &d, budgets[draw(c) % 4]);
    }
}

/* A row that load refuses, the last or the first among them, or a sum over the limit in some row. */
static void text_bad_row(struct chance *c, struct lines *l)
{
    static struct draft d;
    draft_many(c, &d, one_in(c, 4) ? between(c, 12, 40) : (word)MOST_INPUT_ROWS);
    word places[] = {0, 11, d.rows - 1, d.rows - 1, draw(c) % d.rows}, place = places[draw(c) % 5], all = 0;
    for (word i = 0; i < d.rows; i++) all += i == place ? 0 : d.words[ROW_WORDS * i + WEIGHT];
    word *row = d.words + ROW_WORDS * place, how = draw(c) % 5;
    row[MARK] = how == 4 ? HARD : SOFT;
    if (how == 0) row[WEIGHT] = one_in(c, 2) ? 0 : (word)MOST_WEIGHT + 1;
    if (how == 1) row[WEIGHT] = MOST_WEIGHT - all;
    if (how == 2) row[WEIGHT] = MOST_WEIGHT - all + 1;
    if (how == 3) {
        if (d.variables == MOST_VARIABLES) d.variables = 63;
        word above = (word)1 << (one_in(c, 2) ? 63 : d.variables);
        row[draw(c) % 2] |= above;
        if (row[WEIGHT] == 0) row[WEIGHT] = 1;
    }
    if (how == 4) row[WEIGHT] = one_in(c, 2) ? 1 : (word)MOST_WEIGHT;
    lines_of(l, &d, between(c, 0, 9));
}

/* Every literal from -64 to 64 in a row of its own, and a few longer rows. */
static void text_all_literals(struct chance *c, struct lines *l)
{
    static struct draft d;
    d = (struct draft){.variables = one_in(c, 3) ? 63 : MOST_VARIABLES};
    for (int v = 1; v <= MOST_VARIABLES; v++) {
        add_row(&d, unit_row(v), between(c, 1, 99));
        add_row(&d, unit_row(-v), between(c, 1, 99));
    }
    add_random_rows(c, &d, 9, between(c, 2, 40), 9);
    harden(c, &d);
    lines_of(l, &d, between(c, 0, 300));
}

static void text_long_search(struct chance *c, struct lines *l)
{
    static struct draft d;
    static const word budgets[] = {255, 256, 257, 999, 1000, 1001, 1023, 1024, 1025, 4095, 4096, 9999, MOST_BUDGET - 1, MOST_BUDGET};
    draft_long_search(c, &d);
    lines_of(l, &d, budgets[draw(c) % 14]);
}

static const struct {
    const char *name;
    void (*make)(struct chance *c, struct lines *l);
} full_texts[] = {
    {"full-long-answer", text_long_answer}, {"full-late-damage", text_late_damage}, {"full-surplus", text_surplus},
    {"full-heads", text_heads},             {"full-bad-row", text_bad_row},         {"full-all-literals", text_all_literals},
    {"full-long-search", text_long_search},
};
enum { FULL_TEXTS = sizeof full_texts / sizeof *full_texts };

static void make_full_text(struct chance *c, int number, struct lines *l, char *kind)
{
    full_texts[number % FULL_TEXTS].make(c, l);
    strcpy(kind, full_texts[number % FULL_TEXTS].name);
}
