/* Part of second.c: competition files (document 02, C-11 and C-16): good ones of many families, each in one of the manners in which one table may be
   written, those that reader or load refuse by their figures, and damaged ones of named kinds. */

/* The lines of texts.c, and before them so many comment lines of one byte each. The header is the line of this index. */
struct competition {
    word bare;
    int header;
    struct lines l;
};
enum { MOST_COMPETITION = MOST_LINES * MOST_LINE + 2 * MOST_INPUT };
#define MOST_TOP 9999999999u

/* The manners; each but the first keeps the table, and so do all of them together. In a heavy one hard rows weigh more than top, at times. */
enum { PLAIN, SHUFFLED = 1, REPEATED = 2, COMMENTED = 4, SPACED = 8, HEAVY = 16, ALL_MANNERS = 31 };

static size_t competition_bytes(const struct competition *w, unsigned char *out)
{
    size_t length = 0;
    for (word i = 0; i < w->bare; i++) {
        out[length++] = 'c';
        out[length++] = '\n';
    }
    for (int i = 0; i < w->l.count; i++) {
        for (const char *p = w->l.text[i]; *p != 0; p++) out[length++] = *p == 1 ? 0 : (unsigned char)*p;
        out[length++] = '\n';
    }
    for (const char *p = w->l.tail; *p != 0; p++) out[length++] = *p == 1 ? 0 : (unsigned char)*p;
    return length;
}

/* --- lines in a manner --- */

/* Any bytes but LF, 0 as 1. */
static void comment_line(struct chance *c, char *line, word length)
{
    for (word i = 0; i < length; i++) {
        line[i] = (char)(unsigned char)between(c, 1, 255);
        if (i == 0 || line[i] == '\n') line[i] = 'c';
    }
    line[length] = 0;
}

static void add_comments(struct chance *c, struct competition *w, word count)
{
    static const char *const remarks[] = {"c", "c a remark", "c p wcnf 1 1 2", "cnf", "c ", "c\r", "c\tc", "c\1", "c -1 0", "c\xff\xfe"};
    for (; count > 0; count--) {
        char *line = w->l.text[w->l.count++];
        if (one_in(c, 3)) comment_line(c, line, between(c, 1, 90));
        else strcpy(line, remarks[draw(c) % 10]);
    }
}

static int gap(struct chance *c, unsigned manner) { return manner & SPACED ? (int)between(c, 1, 4) : 1; }

static size_t put_spaced(struct chance *c, unsigned manner, char *line, word number)
{
    return (size_t)sprintf(line, "%*s%" PRIu64, gap(c, manner), "", number);
}

static void header_line(struct chance *c, unsigned manner, const struct draft *d, word top, char *line)
{
    size_t at = (size_t)sprintf(line, "p%*swcnf", gap(c, manner), "");
    at += put_spaced(c, manner, line + at, d->variables);
    at += put_spaced(c, manner, line + at, d->rows);
    put_spaced(c, manner, line + at, top);
}

static void shuffle(struct chance *c, signed char *literals, int count)
{
    for (int i = count - 1; i > 0; i--) {
        int j = (int)between(c, 0, (word)i);
        signed char held = literals[i];
        literals[i] = literals[j];
        literals[j] = held;
    }
}

static word hard_weight(struct chance *c, unsigned manner, word top)
{
    word weights[] = {top, top + 1, MOST_TOP}, weight = manner & HEAVY ? weights[draw(c) % 3] : top;
    return weight > MOST_TOP ? MOST_TOP : weight;
}

static void clause_line(struct chance *c, unsigned manner, const word *row, word top, char *line)
{
    signed char literals[6 * MOST_VARIABLES];
    int count = 0;
    struct clause rising = clause_of(row);
    for (int i = 0; i < rising.count; i++)
        for (word times = manner & REPEATED ? between(c, 1, 3) : 1; times > 0; times--) literals[count++] = rising.literals[i];
    if (manner & SHUFFLED) shuffle(c, literals, count);
    size_t at = (size_t)sprintf(line, "%" PRIu64, is_hard(row) ? hard_weight(c, manner, top) : row[WEIGHT]);
    for (int i = 0; i < count; i++) at += (size_t)sprintf(line + at, "%*s%d", gap(c, manner), "", literals[i]);
    put_spaced(c, manner, line + at, 0);
}

static void competition_of(struct chance *c, struct competition *w, const struct draft *d, word top, unsigned manner)
{
    w->bare = 0;
    w->l.count = 0;
    w->l.tail[0] = 0;
    if (manner & COMMENTED) add_comments(c, w, between(c, 1, 6));
    w->header = w->l.count;
    header_line(c, manner, d, top, w->l.text[w->l.count++]);
    for (word r = 0; r < d->rows; r++) clause_line(c, manner, d->words + ROW_WORDS * r, top, w->l.text[w->l.count++]);
}

/* --- families. A search has the largest budget, so each is one that ends soon --- */

static word largest_weight(const struct draft *d)
{
    word most = 0;
    for (word r = 0; r < d->rows; r++)
        if (d->words[ROW_WORDS * r + WEIGHT] > most) most = d->words[ROW_WORDS * r + WEIGHT];
    return most;
}

static word sum_of_weights(const struct draft *d)
{
    word all = 0;
    for (word r = 0; r < d->rows; r++) all += d->words[ROW_WORDS * r + WEIGHT];
    return all;
}

/* Above all weights, often just above; where 10 digits do not reach that, at the largest. */
static word draw_top(struct chance *c, const struct draft *d)
{
    word tops[] = {largest_weight(d) + 1, sum_of_weights(d) + 1, MOST_TOP}, top = tops[draw(c) % 3];
    return top > MOST_TOP ? MOST_TOP : top;
}

static word low_top(struct chance *c, const struct draft *d)
{
    word tops[] = {0, 1, largest_weight(d), largest_weight(d) / 2}, top = tops[draw(c) % 4];
    return top > MOST_TOP ? MOST_TOP : top;
}

static word draft_no_rows(struct chance *c, struct draft *d)
{
    d->variables = one_in(c, 3) ? (word)MOST_VARIABLES : between(c, 0, 63);
    return 0;
}

static word draft_empty_rows(struct chance *c, struct draft *d)
{
    d->variables = between(c, 0, 5);
    add_random_rows(c, d, between(c, 1, 30), 0, 1000);
    if (one_in(c, 3)) harden_rows(c, d, 1);
    return 0;
}

/* Up to as many variables and rows as may be: whatever its other rows are, a variable has a sign in a row that weighs more than all of them. */
static word draft_steady(struct chance *c, struct draft *d)
{
    d->variables = one_in(c, 2) ? (word)MOST_VARIABLES : between(c, 1, 63);
    word rows = one_in(c, 2) ? (word)MOST_INPUT_ROWS : between(c, d->variables, MOST_INPUT_ROWS - 1);
    for (int v = 1; (word)v <= d->variables; v++) add_row(d, unit_row(one_in(c, 2) ? v : -v), MOST_INPUT_ROWS * (word)v);
    if (one_in(c, 3)) harden_path(c, d);
    while (d->rows < rows) add_random_rows(c, d, 1, one_in(c, 50) ? (word)MOST_VARIABLES : between(c, 0, 6), 1);
    return 0;
}

static word draft_both_ways(struct chance *c, struct draft *d)
{
    d->variables = between(c, 1, 9);
    add_mixed_rows(c, d, between(c, 1, 12), 9);
    harden(c, d);
    for (word i = between(c, 1, 2); i > 0; i--) {
        word *row = d->words + ROW_WORDS * (draw(c) % d->rows), one = (word)1 << draw(c) % d->variables;
        row[0] |= one;
        row[1] |= one;
    }
    return 0;
}

/* As many clauses as the front door takes, or as the reader does, of which one of the last is 5, or 6, or weighs as much as top. */
static word draft_late(struct chance *c, struct draft *d)
{
    d->variables = between(c, 2, 6);
    add_mixed_rows(c, d, one_in(c, 4) ? MOST_LOADED : MOST_INPUT_ROWS, 9);
    word *row = d->words + ROW_WORDS * (d->rows - between(c, 1, 5)), how = draw(c) % 3;
    if (how == 0) row[draw(c) % 2] |= (word)1 << d->variables;
    if (how == 1) row[WEIGHT] = 0;
    if (how == 2) row[WEIGHT] = 10;
    return 0;
}

static word late_top(struct chance *c, const struct draft *d)
{
    (void)c;
    (void)d;
    return 10;
}

/* Figures at the limits and past them, the front door's and the reader's: 1 and 2, and what is just right. */
static word draft_figures(struct chance *c, struct draft *d)
{
    static const word variables[] = {63, 64, 65, 66, 4294967296, 9999999999};
    static const word rows[] = {MOST_INPUT_ROWS - 1, MOST_INPUT_ROWS, MOST_INPUT_ROWS + 1, MOST_INPUT_ROWS + 2, MOST_LOADED - 1,
                                MOST_LOADED, MOST_LOADED + 1, MOST_LOADED + 2};
    d->variables = between(c, 1, 6);
    add_mixed_rows(c, d, one_in(c, 3) ? between(c, 0, 9) : rows[draw(c) % 8], 9);
    harden(c, d);
    if (one_in(c, 3)) d->variables = variables[draw(c) % 6];
    return 0;
}

static const struct competition_family {
    const char *name;
    word (*draft)(struct chance *c, struct draft *d);
    word (*top)(struct chance *c, const struct draft *d);
} competition_families[] = {
    {"max2", draft_max2, draw_top},             {"max3", draft_max3, draw_top},     {"mixed", draft_mixed, draw_top},
    {"clashing", draft_clashing, draw_top},     {"linked", draft_repeated, draw_top}, {"limits", draft_limits, draw_top},
    {"no-rows", draft_no_rows, draw_top},       {"empty-rows", draft_empty_rows, draw_top}, {"steady", draft_steady, draw_top},
    {"odd-weight", draft_odd_weight, draw_top}, {"above", draft_above, draw_top},   {"both-ways", draft_both_ways, draw_top},
    {"figures", draft_figures, draw_top},       {"low-top", draft_mixed, low_top},   {"late", draft_late, late_top},
};
enum { COMPETITION_FAMILIES = sizeof competition_families / sizeof *competition_families };

static const struct {
    const char *name;
    unsigned manner;
} manners[] = {{"plain", PLAIN}, {"shuffled", SHUFFLED}, {"repeated", REPEATED}, {"commented", COMMENTED}, {"spaced", SPACED}, {"heavy", HEAVY}, {"all", ALL_MANNERS}};
enum { MANNERS = sizeof manners / sizeof *manners };

#include "wcnf_damage.c"

/* Comments before all else bring the text to so many bytes: long ones, or one byte each. The text is a few hundred bytes shorter, or more. */
static void lengthen(struct chance *c, struct competition *w, size_t length)
{
    size_t more = length - length_of(&w->l);
    bool bare = one_in(c, 2);
    while (more > 0) {
        size_t line = bare ? 2 + more % 2 : more <= 1000 ? more : 999;
        insert_line(&w->l, 0, "");
        comment_line(c, w->l.text[0], line - 1);
        w->header++;
        more -= line;
        if (bare) w->bare = more / 2, more = 0;
    }
}

static void make_long(struct chance *c, int turn, struct competition *w, char *kind)
{
    struct draft d = {.variables = between(c, 1, 6)};
    size_t length = MOST_INPUT - 2 + (size_t)(turn % 4);
    add_mixed_rows(c, &d, between(c, 0, 30), 9);
    harden(c, &d);
    competition_of(c, w, &d, draw_top(c, &d), ALL_MANNERS);
    lengthen(c, w, length);
    if (one_in(c, 4)) w->l.text[w->header][0] = 'P';
    sprintf(kind, "long-%zu", length);
}

/* Of 20 texts, 9 are of a family, 10 damaged and 1 about as long as the front door takes. */
static void make_competition(struct chance *c, int number, struct competition *w, char *kind)
{
    if (number % 20 == 19) {
        make_long(c, number / 20, w, kind);
    } else if (number % 2 == 0) {
        damage_competition(c, number / 2, w, kind);
    } else {
        static struct draft d;
        int turn = number / 20 * 9 + number % 20 / 2;
        const struct competition_family *f = &competition_families[turn % COMPETITION_FAMILIES];
        int manner = (int)(draw(c) % MANNERS);
        d = (struct draft){0};
        f->draft(c, &d);
        competition_of(c, w, &d, f->top(c, &d), manners[manner].manner);
        sprintf(kind, "%s-%s", manners[manner].name, f->name);
    }
}

static int generate_competitions(word seed, int count, const char *dir)
{
    static struct competition w;
    static unsigned char bytes[MOST_COMPETITION];
    struct chance c = {seed};
    char kind[100];
    for (int i = 0; i < count; i++) {
        make_competition(&c, i, &w, kind);
        FILE *out = open_case(dir, i, kind, "wcnf");
        if (out == NULL) return 2;
        size_t length = competition_bytes(&w, bytes);
        bool whole = fwrite(bytes, 1, length, out) == length;
        if (fclose(out) != 0 || !whole) return 2;
    }
    return 0;
}
