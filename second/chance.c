/* Part of second.c: numbers drawn from a seed (splitmix64), and tables drafted from them. No two draws stand where the
   language leaves their order open, so that a seed gives the same cases whatever the compiler. */

struct chance {
    word state;
};

static word draw(struct chance *c)
{
    word z = c->state += 0x9e3779b97f4a7c15u;
    z = (z ^ z >> 30) * 0xbf58476d1ce4e5b9u;
    z = (z ^ z >> 27) * 0x94d049bb133111ebu;
    return z ^ z >> 31;
}

static word between(struct chance *c, word low, word high) { return low + draw(c) % (high - low + 1); }
static bool one_in(struct chance *c, word many) { return draw(c) % many == 0; }

/* A table in the making. It may hold more than can be loaded, so that refusals are met too. */
enum { MOST_DRAFTED = MOST_LOADED + 8 };
struct draft {
    word variables;
    word rows;
    word words[ROW_WORDS * MOST_DRAFTED];
};

static struct table table_of(const struct draft *d)
{
    return (struct table){d->variables, d->words, ROW_WORDS * d->rows};
}

static void add_row(struct draft *d, struct clause c, word weight)
{
    if (d->rows < MOST_DRAFTED) put_clause(d->words + ROW_WORDS * d->rows++, &c, weight);
}

static void add_hard(struct draft *d, struct clause c)
{
    if (d->rows < MOST_DRAFTED) put_hard(d->words + ROW_WORDS * d->rows++, &c);
}

static struct clause unit_row(int a) { return (struct clause){1, {(signed char)a}}; }
static struct clause pair_row(int a, int b) { return (struct clause){2, {(signed char)a, (signed char)b}}; }

static int draw_literal(struct chance *c, word variables)
{
    int v = (int)between(c, 1, variables);
    return one_in(c, 2) ? v : -v;
}

static bool on_variable(const struct clause *c, int variable)
{
    for (int i = 0; i < c->count; i++)
        if (abs(c->literals[i]) == variable) return true;
    return false;
}

/* So many literals on different variables, fewer where there are too few variables. */
static struct clause draw_clause(struct chance *c, word variables, word length)
{
    struct clause drawn = {0};
    while ((word)drawn.count < length && (word)drawn.count < variables) {
        int l = draw_literal(c, variables);
        if (!on_variable(&drawn, abs(l))) drawn.literals[drawn.count++] = (signed char)l;
    }
    return drawn;
}

static void add_random_rows(struct chance *c, struct draft *d, word rows, word length, word most)
{
    for (word i = 0; i < rows; i++) {
        word weight = between(c, 1, most);
        add_row(d, draw_clause(c, d->variables, length), weight);
    }
}

/* Short rows on few variables, where every kind of step finds rows that fit. */
static void add_mixed_rows(struct chance *c, struct draft *d, word rows, word most)
{
    static const word lengths[] = {1, 1, 1, 1, 2, 2, 2, 2, 2, 2, 3, 3, 4, 0};
    for (word i = 0; i < rows; i++) {
        word length = lengths[draw(c) % (sizeof lengths / sizeof *lengths)];
        word weight = between(c, 1, most);
        add_row(d, draw_clause(c, d->variables, length), weight);
    }
}

static void add_clashing_units(struct chance *c, struct draft *d, word pairs, word most)
{
    for (word i = 0; i < pairs; i++) {
        int l = draw_literal(c, d->variables);
        add_row(d, unit_row(l), between(c, 1, most));
        add_row(d, unit_row(-l), between(c, 1, most));
    }
}

/* l1 and k rows (not li, l(i+1)); variables repeat wherever there are few of them. */
static int add_links(struct chance *c, struct draft *d, word k, word most)
{
    int l = draw_literal(c, d->variables);
    add_row(d, unit_row(l), between(c, 1, most));
    for (word i = 0; i < k && d->variables > 1; i++) {
        int next = draw_literal(c, d->variables);
        while (abs(next) == abs(l)) next = draw_literal(c, d->variables);
        add_row(d, pair_row(-l, next), between(c, 1, most));
        l = next;
    }
    return l;
}

static void add_chain(struct chance *c, struct draft *d, word k, word most)
{
    int last = add_links(c, d, k, most);
    add_row(d, unit_row(-last), between(c, 1, most));
}

static void add_fork(struct chance *c, struct draft *d, word k, word most)
{
    if (d->variables < 3) return;
    int a = add_links(c, d, k, most), b = a, e = a;
    while (abs(b) == abs(a)) b = draw_literal(c, d->variables);
    while (abs(e) == abs(a) || abs(e) == abs(b)) e = draw_literal(c, d->variables);
    add_row(d, pair_row(-a, b), between(c, 1, most));
    add_row(d, pair_row(-a, e), between(c, 1, most));
    add_row(d, pair_row(-b, -e), between(c, 1, most));
}

/* Changes the first soft row's weight so that the sum is the limit plus `over`, if that leaves it 1 at least. */
static void bring_sum_to_limit(struct draft *d, word over)
{
    word all = 0, soft = 0;
    while (soft < d->rows && is_hard(d->words + ROW_WORDS * soft)) soft++;
    if (soft == d->rows) return;
    for (word r = soft + 1; r < d->rows; r++) all += d->words[ROW_WORDS * r + WEIGHT];
    if (all < MOST_WEIGHT + over) d->words[ROW_WORDS * soft + WEIGHT] = MOST_WEIGHT + over - all;
}

static struct clause all_negative(void)
{
    struct clause all = {0};
    for (int v = 1; v <= MOST_VARIABLES; v++) all.literals[all.count++] = (signed char)-v;
    return all;
}

/* The table whose text is longest: every literal negative, and as many digits as the sum of the weights allows. A hard row has one alone. */
static void draft_longest(struct draft *d)
{
    word weight = 1;
    *d = (struct draft){.variables = MOST_VARIABLES};
    while (10 * weight * MOST_LOADED <= MOST_WEIGHT) weight *= 10;
    word longer = (MOST_WEIGHT - weight * MOST_LOADED) / (9 * weight);
    for (word r = 0; r < MOST_LOADED; r++) add_row(d, all_negative(), r < longer ? 10 * weight : weight);
}

/* That whose competition file is longest: one row has the largest weight, so that top is as long, and all others are hard, and have it. */
static void draft_longest_file(struct draft *d)
{
    *d = (struct draft){.variables = MOST_VARIABLES};
    add_row(d, all_negative(), MOST_WEIGHT);
    while (d->rows < MOST_LOADED) add_hard(d, all_negative());
}

/* Bytes that hold the text of so many rows, whatever they are, and their competition file too. */
static word text_room(word rows) { return 40 + 280 * rows; }
