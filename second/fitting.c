/* Part of runs.c: finds rows of a desk that fit a rewriting, by chance. It looks at remnants as masks, which the model
   does not, and leaves the judgement to the model. Hard rows are looked at as if they could be named, now and then, as near misses. */

struct view {
    word rows;
    word positive[MOST_CAPACITY], negative[MOST_CAPACITY];
    int literals[MOST_CAPACITY]; /* of the remnant; -1 for a row that cannot be named */
    bool named[MOST_CAPACITY];
};

static int ones(word mask)
{
    int count = 0;
    for (; mask != 0; mask &= mask - 1) count++;
    return count;
}

static void view_desk(struct view *v, const word *desk, bool with_hard)
{
    v->rows = desk[IN_USE];
    for (word r = 0; r < v->rows; r++) {
        const word *row = desk_row(desk, r);
        bool satisfied = (row[0] & desk[DECIDED_TRUE]) != 0 || (row[1] & desk[DECIDED] & ~desk[DECIDED_TRUE]) != 0;
        v->positive[r] = row[0] & ~desk[DECIDED];
        v->negative[r] = row[1] & ~desk[DECIDED];
        bool spent = row[WEIGHT] == 0 && !(with_hard && is_hard(row));
        v->literals[r] = satisfied || spent ? -1 : ones(v->positive[r]) + ones(v->negative[r]);
        v->named[r] = false;
    }
}

static word mask_of(int literal) { return (word)1 << (abs(literal) - 1); }

static bool row_holds(const struct view *v, word row, int literal)
{
    return ((literal > 0 ? v->positive[row] : v->negative[row]) & mask_of(literal)) != 0;
}

/* A row not yet named whose remnant has so many literals and holds the two given (0 for none); -1 without one. */
static int find_row(struct view *v, struct chance *c, int literals, int one, int two)
{
    int found = -1;
    word met = 0;
    for (word r = 0; r < v->rows; r++) {
        if (v->named[r] || v->literals[r] != literals) continue;
        if ((one != 0 && !row_holds(v, r, one)) || (two != 0 && !row_holds(v, r, two))) continue;
        if (draw(c) % ++met == 0) found = (int)r;
    }
    return found;
}

/* The literal of the remnant that is not the given one. */
static int other_literal(const struct view *v, int row, int than)
{
    for (int l = -MOST_VARIABLES; l <= MOST_VARIABLES; l++)
        if (l != 0 && l != than && row_holds(v, (word)row, l)) return l;
    return 0;
}

static bool name_row(struct view *v, int row, word *named, word *count)
{
    if (row < 0) return false;
    v->named[row] = true;
    named[(*count)++] = (word)row;
    return true;
}

static bool find_merge(struct view *v, struct chance *c, word *named, word *count)
{
    word met = 0;
    if (v->rows == 0) return false;
    for (word tries = 0; tries < 20 && met == 0; tries++) {
        word r = draw(c) % v->rows;
        for (word s = 0; s < v->rows; s++) {
            if (v->literals[r] < 1 || v->literals[s] < 1 || ones(v->positive[r] ^ v->positive[s]) != 1) continue;
            if ((v->positive[r] ^ v->positive[s]) != (v->negative[r] ^ v->negative[s]) || draw(c) % ++met != 0) continue;
            named[0] = r, named[1] = s, *count = 2;
        }
    }
    return met > 0;
}

/* l1 and up to k links. */
static int find_links(struct view *v, struct chance *c, word k, word *named, word *count)
{
    int row = find_row(v, c, 1, 0, 0);
    if (!name_row(v, row, named, count)) return 0;
    int l = other_literal(v, row, 0);
    for (; k > 0; k--) {
        row = find_row(v, c, 2, -l, 0);
        if (!name_row(v, row, named, count)) break;
        l = other_literal(v, row, -l);
    }
    return l;
}

static bool find_fork_end(struct view *v, struct chance *c, int a, word *named, word *count)
{
    int row = find_row(v, c, 2, -a, 0);
    if (!name_row(v, row, named, count)) return false;
    int b = other_literal(v, row, -a);
    row = find_row(v, c, 2, -a, 0);
    if (!name_row(v, row, named, count)) return false;
    int e = other_literal(v, row, -a);
    if (e == b && !one_in(c, 9)) return false; /* cannot fit; let through now and then as a near miss */
    return name_row(v, find_row(v, c, 2, -b, -e), named, count);
}

static bool find_once(struct view *v, struct chance *c, word kind, word *named, word *count)
{
    if (kind == MERGE) return find_merge(v, c, named, count);
    word k = kind == SHIFT ? 1 : one_in(c, 3) ? between(c, 5, MOST_LINKS) : between(c, 0, 4);
    int last = find_links(v, c, k, named, count);
    if (last == 0) return false;
    if (kind == SHIFT) return *count == 2;
    if (kind == CHAIN) return name_row(v, find_row(v, c, 1, -last, 0), named, count);
    return find_fork_end(v, c, last, named, count);
}

static bool find_fitting(const word *desk, struct chance *c, word kind, word *named, word *count)
{
    static struct view v;
    bool with_hard = one_in(c, 6);
    for (int tries = 0; tries < 12; tries++) {
        view_desk(&v, desk, with_hard);
        *count = 0;
        if (find_once(&v, c, kind, named, count)) return true;
    }
    return false;
}
