/* Part of second.c: texts for the program, good ones of many families and damaged ones of named kinds. */

/* Lines without their ends; the text is each line and an LF, then the tail. 1 stands for a 0 byte. */
enum { HEADS = 3, ROW_LINES = 3, MOST_LINES = ROW_LINES * MOST_DRAFTED + 8, MOST_LINE = 2000 };
/* Of a row: its weight, then these. */
enum { MARK_LINE = 1, LITERALS_LINE = 2 };
struct lines {
    int count;
    char text[MOST_LINES][MOST_LINE];
    char tail[MOST_LINE];
};

static void write_lines(const struct lines *l, FILE *out)
{
    for (int i = 0; i < l->count; i++) {
        for (const char *p = l->text[i]; *p != 0; p++) fputc(*p == 1 ? 0 : *p, out);
        fputc('\n', out);
    }
    for (const char *p = l->tail; *p != 0; p++) fputc(*p == 1 ? 0 : *p, out);
}

static void literals_text(const word *row, char *text)
{
    struct clause c = clause_of(row);
    size_t at = (size_t)sprintf(text, "lits=");
    for (int i = 0; i < c.count; i++)
        at += (size_t)sprintf(text + at, "%s%d", i > 0 ? " " : "", c.literals[i]);
}

static void lines_of(struct lines *l, const struct draft *d, word budget)
{
    l->tail[0] = 0;
    l->count = HEADS;
    sprintf(l->text[0], "vars=%" PRIu64, d->variables);
    sprintf(l->text[1], "budget=%" PRIu64, budget);
    sprintf(l->text[2], "rows=%" PRIu64, d->rows);
    for (word r = 0; r < d->rows; r++) {
        sprintf(l->text[l->count++], "weight=%" PRIu64, d->words[ROW_WORDS * r + WEIGHT]);
        sprintf(l->text[l->count++], "hard=%" PRIu64, d->words[ROW_WORDS * r + MARK]);
        literals_text(d->words + ROW_WORDS * r, l->text[l->count++]);
    }
}

/* The first line of a row. */
static int row_line(word row) { return HEADS + ROW_LINES * (int)row; }

static size_t length_of(const struct lines *l)
{
    size_t length = strlen(l->tail);
    for (int i = 0; i < l->count; i++) length += strlen(l->text[i]) + 1;
    return length;
}

/* --- good texts, and those that load refuses --- */

static word draw_budget(struct chance *c)
{
    switch (draw(c) % 5) {
    case 0: return between(c, 0, 12);
    case 1: return between(c, 0, 300);
    default: return MOST_BUDGET;
    }
}

static word draw_most_weight(struct chance *c)
{
    static const word most[] = {1, 2, 10, 1000, 1900000};
    return most[draw(c) % 5];
}

static word draft_max2(struct chance *c, struct draft *d)
{
    d->variables = between(c, 2, 11);
    word most = draw_most_weight(c);
    add_random_rows(c, d, between(c, 1, 50), 2, most);
    harden(c, d);
    return draw_budget(c);
}

static word draft_max3(struct chance *c, struct draft *d)
{
    d->variables = between(c, 3, 10);
    word most = draw_most_weight(c);
    add_random_rows(c, d, between(c, 1, 60), 3, most);
    harden(c, d);
    return draw_budget(c);
}

static word draft_mixed(struct chance *c, struct draft *d)
{
    d->variables = between(c, 0, 9);
    word most = draw_most_weight(c);
    add_mixed_rows(c, d, between(c, 0, 30), most);
    harden(c, d);
    return draw_budget(c);
}

static word draft_clashing(struct chance *c, struct draft *d)
{
    d->variables = between(c, 1, 8);
    word most = draw_most_weight(c);
    add_clashing_units(c, d, between(c, 1, 20), most);
    add_mixed_rows(c, d, between(c, 0, 6), 5);
    harden(c, d);
    return draw_budget(c);
}

static word draft_repeated(struct chance *c, struct draft *d)
{
    d->variables = between(c, 2, 4);
    for (word i = between(c, 1, 4); i > 0; i--) {
        if (one_in(c, 2)) add_chain(c, d, between(c, 3, 8), 6);
        else add_fork(c, d, between(c, 0, 8), 6);
    }
    harden(c, d);
    return draw_budget(c);
}

static word draft_limits(struct chance *c, struct draft *d)
{
    d->variables = between(c, 1, 6);
    add_mixed_rows(c, d, between(c, 1, 12), 80000000);
    harden(c, d);
    bring_sum_to_limit(d, draw(c) % 3);
    return draw_budget(c);
}

static word draft_wide(struct chance *c, struct draft *d)
{
    d->variables = one_in(c, 3) ? between(c, 20, 63) : MOST_VARIABLES;
    word length = between(c, 1, 3);
    add_random_rows(c, d, between(c, 1, 90), length, 9);
    add_mixed_rows(c, d, between(c, 0, 60), 9);
    harden(c, d);
    return between(c, 0, 400);
}

/* About as many rows as the program takes, or as the reader does. */
static word draft_full(struct chance *c, struct draft *d)
{
    d->variables = between(c, 1, MOST_VARIABLES);
    word length = between(c, 0, 6);
    word rows = one_in(c, 5) ? between(c, MOST_LOADED - 3, MOST_LOADED + 2) : between(c, MOST_INPUT_ROWS - 7, MOST_INPUT_ROWS + 2);
    add_random_rows(c, d, rows, length, 1000);
    harden(c, d);
    return between(c, 0, 60);
}

/* A soft row of no weight, or a hard one with some. */
static void spoil_weight(struct chance *c, struct draft *d)
{
    word row = draw(c) % d->rows, *words = d->words + ROW_WORDS * row;
    if (one_in(c, 3)) words[MARK] = HARD;
    words[WEIGHT] = is_hard(words) ? between(c, 1, 9) : 0;
}

static word draft_odd_weight(struct chance *c, struct draft *d)
{
    static const word odd[] = {0, 0, 1000000000, 1000000001, 4294967296, 9999999999};
    draft_mixed(c, d);
    for (word i = between(c, 1, 2); i > 0 && d->rows > 0; i--) {
        word weight = odd[draw(c) % 6];
        d->words[ROW_WORDS * (draw(c) % d->rows) + WEIGHT] = weight;
        if (one_in(c, 4)) spoil_weight(c, d);
    }
    return draw_budget(c);
}

/* Literals above the count, now and then with a bad weight in the same or another row. */
static word draft_above(struct chance *c, struct draft *d)
{
    d->variables = between(c, 4, MOST_VARIABLES);
    add_mixed_rows(c, d, between(c, 1, 12), 9);
    harden(c, d);
    d->variables -= between(c, 1, 4);
    if (one_in(c, 3)) spoil_weight(c, d);
    return between(c, 0, 50);
}

static word draft_heads(struct chance *c, struct draft *d)
{
    static const word variables[] = {64, 65, 66, 4294967296, 9999999999}, budgets[] = {4294967295, 4294967296, 9999999999};
    draft_mixed(c, d);
    word budget = budgets[draw(c) % 3];
    if (one_in(c, 2)) d->variables = variables[draw(c) % 5];
    if (d->variables == MOST_VARIABLES && budget == MOST_BUDGET) budget = 30;
    return budget;
}

/* A text of exactly so many bytes: literals while they fit, then digits of one weight. */
static void lines_of_length(struct lines *l, struct chance *c, size_t length)
{
    struct draft d = {.variables = MOST_VARIABLES};
    for (int r = 0; r < 300; r++) add_row(&d, (struct clause){0}, 1);
    lines_of(l, &d, between(c, 0, 20));
    size_t now = length_of(l);
    for (int i = row_line(0) + LITERALS_LINE; i < l->count; i += ROW_LINES) {
        for (int v = 1; v <= MOST_VARIABLES; v++) {
            char literal[8];
            size_t more = (size_t)sprintf(literal, "%s%d", v > 1 ? " " : "", one_in(c, 2) ? v : -v);
            if (now + more > length) continue;
            strcat(l->text[i], literal);
            now += more;
        }
    }
    for (; now < length; now++) strcat(l->text[row_line(0)], "0");
}

struct family {
    const char *name;
    word (*draft)(struct chance *c, struct draft *d);
};

static const struct family families[] = {
    {"max2", draft_max2},         {"max3", draft_max3},     {"mixed", draft_mixed}, {"clashing", draft_clashing},
    {"repeated", draft_repeated}, {"limits", draft_limits}, {"wide", draft_wide},   {"full", draft_full},
    {"odd-weight", draft_odd_weight}, {"above", draft_above}, {"heads", draft_heads}, {"max2", draft_max2},
    {"max3", draft_max3},
};
enum { FAMILIES = sizeof families / sizeof *families };

#include "damage.c"
#include "full_texts.c"

static FILE *open_case(const char *dir, int number, const char *kind, const char *end)
{
    char name[600];
    snprintf(name, sizeof name, "%.400s/%05d-%.100s.%s", dir, number, kind, end);
    FILE *out = fopen(name, "wb");
    if (out == NULL) fprintf(stderr, "%s cannot be written\n", name);
    return out;
}

/* Of 20 texts, 11 are of a family, 8 damaged and 1 about as long as the program takes. */
static void make_text(struct chance *c, int number, struct lines *l, char *kind)
{
    struct draft d = {0};
    if (number % 20 == 19) {
        size_t length = MOST_INPUT - 2 + (size_t)(number / 20 % 4);
        lines_of_length(l, c, length);
        if (one_in(c, 4)) l->text[1][0] = 'B';
        sprintf(kind, "long-%zu", length);
    } else if (number % 5 < 2) {
        damage_text(c, number / 5 * 2 + number % 5, l, kind);
    } else {
        const struct family *f = &families[draw(c) % FAMILIES];
        word budget = f->draft(c, &d);
        lines_of(l, &d, budget);
        strcpy(kind, f->name);
    }
}

static int generate_texts(word seed, int count, const char *dir, bool full)
{
    static struct lines l;
    struct chance c = {seed};
    char kind[100];
    for (int i = 0; i < count; i++) {
        if (full) make_full_text(&c, i, &l, kind);
        else make_text(&c, i, &l, kind);
        FILE *out = open_case(dir, i, kind, "txt");
        if (out == NULL) return 2;
        write_lines(&l, out);
        fclose(out);
    }
    return 0;
}
