/* Part of second.c: hard rows in tables that are drawn, document 02's C-16: a few among the others, many, and such that no reading satisfies
   them all, which a walk finds at once, near its root or only far down. */

static void make_hard(struct draft *d, word row)
{
    d->words[ROW_WORDS * row + WEIGHT] = 0;
    d->words[ROW_WORDS * row + MARK] = HARD;
}

static void swap_rows(struct draft *d, word i, word j)
{
    for (int k = 0; k < ROW_WORDS; k++) {
        word held = d->words[ROW_WORDS * i + k];
        d->words[ROW_WORDS * i + k] = d->words[ROW_WORDS * j + k];
        d->words[ROW_WORDS * j + k] = held;
    }
}

/* Anywhere in a table of few rows, which has one more then; in place of a row in one of many, whose count may be what it is drawn for. */
enum { FEW_ROWS = 64 };
static void place_hard(struct chance *c, struct draft *d, struct clause hard)
{
    word row = d->rows;
    if (row < FEW_ROWS) add_hard(d, hard), swap_rows(d, row, draw(c) % (row + 1));
    else put_hard(d->words + ROW_WORDS * (draw(c) % row), &hard);
}

static void harden_rows(struct chance *c, struct draft *d, word count)
{
    for (; count > 0 && d->rows > 0; count--) make_hard(d, draw(c) % d->rows);
}

static void place_hard_rows(struct chance *c, struct draft *d, word count, word length)
{
    for (; count > 0; count--) place_hard(c, d, draw_clause(c, d->variables, length));
}

/* A literal and its negation: found where its variable is fixed. */
static void place_clash(struct chance *c, struct draft *d)
{
    int l = draw_literal(c, d->variables);
    place_hard(c, d, unit_row(l));
    place_hard(c, d, unit_row(-l));
}

/* A row for every way of signing the last few variables: found where the last is fixed, on every path. */
static void place_deep_clash(struct chance *c, struct draft *d, word last)
{
    word few = between(c, 1, last < 3 ? last : 3);
    for (word signs = 0; signs < (word)1 << few; signs++) {
        struct clause hard = {0};
        for (word i = 0; i < few; i++) hard.literals[hard.count++] = (signed char)((signs >> i & 1 ? -1 : 1) * (int)(last - i));
        place_hard(c, d, hard);
    }
}

/* Hard rows that no reading satisfies. */
static void place_impossible(struct chance *c, struct draft *d)
{
    word last = d->variables;
    if (last == 0 || one_in(c, 6)) place_hard(c, d, (struct clause){0});
    else if (one_in(c, 3)) place_clash(c, d);
    else place_deep_clash(c, d, last);
}

/* In a third of the tables. */
static void harden(struct chance *c, struct draft *d)
{
    if (d->variables > MOST_VARIABLES || !one_in(c, 3)) return;
    switch (draw(c) % 7) {
    case 0: case 1: harden_rows(c, d, between(c, 1, 3)); break;
    case 2: harden_rows(c, d, d->rows / 2 + 1); break;
    case 3: place_hard_rows(c, d, between(c, 1, 4), 2); break;
    case 4: place_hard_rows(c, d, between(c, 1, 9), 3); break;
    default: place_impossible(c, d); break;
    }
}

/* Of a table of one literal for each variable, in their order: the first so many rows become hard, and at times the last of them clashes with
   one more. Each leaves one way to go on, so that a walk comes to the clash soon, however far down it is. */
static void harden_path(struct chance *c, struct draft *d)
{
    word hard = between(c, 1, d->rows);
    for (word row = 0; row < hard; row++) make_hard(d, row);
    struct clause last = clause_of(d->words + ROW_WORDS * (hard - 1));
    if (one_in(c, 2)) add_hard(d, unit_row(-last.literals[0]));
}
