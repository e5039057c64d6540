/* Part of model.c: competition files, requests C-11 and C-16 of document 02: the reader, the writer and the answer of the front door `./wcnf`.
   A clause that weighs top or more is a hard row. Each judges everything before it writes. What takes and puts bytes is text.c's. */

/* One space or more. */
static bool take_gap(struct cursor *c)
{
    if (!take(c, ' ')) return false;
    while (take(c, ' '))
        ;
    return true;
}

static bool take_figure(struct cursor *c, word *value) { return take_gap(c) && take_number(c, value); }

/* All lines that begin with c, whatever else is in them. False at one that does not end. */
static bool take_comments(struct cursor *c)
{
    while (take(c, 'c')) {
        while (peek(c) != '\n' && peek(c) != -1) c->at++;
        if (!take_end(c)) return false;
    }
    return true;
}

static bool take_figures(struct cursor *c, struct figures *f)
{
    return take_comments(c) && take(c, 'p') && take_gap(c) && take_word(c, "wcnf") && take_figure(c, &f->variables)
           && take_figure(c, &f->clauses) && take_figure(c, &f->top) && take_end(c);
}

/* A line of a clause, its literals in any order and as often as they come. Whether they fit is told apart from the line's form. */
static bool take_clause(struct cursor *c, word variables, word *row, bool *fits)
{
    word v;
    row[0] = row[1] = 0;
    *fits = true;
    if (!take_number(c, &row[WEIGHT])) return false;
    do {
        if (!take_gap(c)) return false;
        bool negative = take(c, '-');
        if (!take_number(c, &v) || (negative && v == 0)) return false;
        if (v > variables) *fits = false;
        else if (v != 0) row[negative ? 1 : 0] |= bit((int)v);
    } while (v != 0);
    if ((row[0] & row[1]) != 0) *fits = false;
    return take_end(c);
}

/* A file of so many clauses at most. */
static struct refusal read_wcnf_within(word most, const unsigned char *text, size_t length, struct lent out, struct figures *figures)
{
    struct cursor c = {text, length, 0, 1};
    struct figures f;
    word words[ROW_WORDS * MOST_LOADED];
    if (!take_figures(&c, &f)) return refused_at(20, c.line);
    if (f.variables > MOST_VARIABLES) return refused(1);
    if (f.clauses > most) return refused(2);
    if (out.count < ROW_WORDS * f.clauses) return refused(4);
    for (word r = 0; r < f.clauses; r++) {
        bool fits;
        word *row = words + ROW_WORDS * r;
        if (!take_clause(&c, f.variables, row, &fits)) return refused_at(20, c.line);
        if (!fits) return refused_at(5, r);
        row[MARK] = row[WEIGHT] >= f.top ? HARD : SOFT;
        if (is_hard(row)) row[WEIGHT] = 0;
    }
    if (c.at != c.length) return refused_at(20, c.line);
    for (word i = 0; i < ROW_WORDS * f.clauses; i++) out.words[i] = words[i];
    *figures = f;
    return accepted();
}

struct refusal read_wcnf(const unsigned char *text, size_t length, struct lent out, struct figures *figures)
{
    return read_wcnf_within(MOST_LOADED, text, length, out, figures);
}

/* Each with a space before it. */
static void put_spaced_literals(struct page *p, const struct clause *c)
{
    for (int i = 0; i < c->count; i++) {
        put_word(p, c->literals[i] < 0 ? " -" : " ");
        put_number(p, (word)abs(c->literals[i]));
    }
}

/* The sum of the soft weights, and one. */
static word top_of(struct table t)
{
    word all = 0;
    for (word r = 0; r < t.count / ROW_WORDS; r++) all += t.words[ROW_WORDS * r + WEIGHT];
    return all + 1;
}

static void put_figures(struct page *p, struct table t)
{
    put_word(p, "p wcnf ");
    put_number(p, t.variables);
    put_word(p, " ");
    put_number(p, t.count / ROW_WORDS);
    put_number_line(p, " ", top_of(t));
}

struct refusal write_wcnf(struct table t, char *out, size_t room, size_t *length)
{
    static struct page p;
    struct refusal no = judge_size(t);
    if (no.number == 0) no = judge_rows(t);
    if (no.number != 0) return no;
    p.length = 0;
    put_figures(&p, t);
    word top = top_of(t);
    for (word r = 0; r < t.count / ROW_WORDS; r++) {
        const word *row = t.words + ROW_WORDS * r;
        struct clause c = clause_of(row);
        put_number(&p, is_hard(row) ? top : row[WEIGHT]);
        put_spaced_literals(&p, &c);
        put_word(&p, " 0\n");
    }
    if (room < p.length) return refused(4);
    memcpy(out, p.bytes, p.length);
    *length = p.length;
    return accepted();
}

/* In the lines that competitions use. */
static void put_competition_refusal(struct page *p, struct refusal no)
{
    put_word(p, "c refused: number ");
    put_number(p, no.number);
    put_number_line(p, ", place ", no.place);
    put_word(p, "s UNKNOWN\n");
}

static void put_competition_found(struct page *p, word variables, const struct found *f)
{
    struct clause reading = {0};
    put_number_line(p, "c nodes ", f->nodes);
    if (f->kept) put_number_line(p, "o ", f->weight);
    put_word(p, !f->done ? "s UNKNOWN\n" : f->kept ? "s OPTIMUM FOUND\n" : "s UNSATISFIABLE\n");
    if (!f->kept) return;
    for (int v = 1; (word)v <= variables; v++) add_literal(&reading, has_bit(f->reading, v) ? v : -v);
    put_word(p, "v");
    put_spaced_literals(p, &reading);
    put_word(p, "\n");
}

static struct refusal solve_wcnf(const unsigned char *input, size_t length, uint32_t budget, word *variables, struct found *f)
{
    static word words[ROW_WORDS * MOST_INPUT_ROWS], desk[MOST_DESK];
    struct figures figures;
    if (length > MOST_INPUT) return refused(19);
    struct refusal no = read_wcnf_within(MOST_INPUT_ROWS, input, length, (struct lent){words, ROW_WORDS * MOST_INPUT_ROWS}, &figures);
    if (no.number != 0) return no;
    struct table t = {figures.variables, words, ROW_WORDS * figures.clauses};
    no = load((struct lent){desk, MOST_DESK}, t, figures.clauses);
    if (no.number != 0) return no;
    *variables = figures.variables;
    return search((struct lent){desk, MOST_DESK}, UNITS, budget, f);
}

size_t wcnf_answer(const unsigned char *input, size_t length, uint32_t budget, char *out)
{
    static struct page p;
    struct found f;
    word variables;
    p.length = 0;
    struct refusal no = solve_wcnf(input, length, budget, &variables, &f);
    if (no.number != 0) put_competition_refusal(&p, no);
    else put_competition_found(&p, variables, &f);
    memcpy(out, p.bytes, p.length);
    return p.length;
}
