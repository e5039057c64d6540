/* Part of walk.c: the bound by groups, document 02's C-14. A group is rows that cannot all hold below the node; a hunt finds one by unit
   propagation, oldest unit first. What a group costs is taken from each of its rows, so that no weight is counted twice. */

/* An entry of the trail: a literal made true, and its reason. */
struct made_true {
    int literal;
    int row;
};

struct hunt {
    const struct sheet *sheet;
    const struct partial *node;
    word weights[MOST_CAPACITY]; /* the working weights */
    struct partial q;
    int joined;
    struct made_true trail[MOST_VARIABLES];
};

enum { NO_CONFLICT = -1, UNITS_AT_NODE = 0 };

static void begin_hunts(struct hunt *h, const struct sheet *s, const struct partial *p)
{
    h->sheet = s;
    h->node = p;
    for (int r = 0; r < s->count; r++)
        h->weights[r] = !is_satisfied(&s->rows[r], p) && remnant_of(&s->rows[r], p).count > 0 ? s->weights[r] : 0;
}

/* The test of a scan: the remnant at the node is one literal, or the row holds the negation of a literal made true. */
static bool passes(const struct hunt *h, int row, int literal)
{
    const struct clause *c = &h->sheet->rows[row];
    if (literal == UNITS_AT_NODE) return remnant_of(c, h->node).count == 1;
    return holds(c, -literal);
}

static void make_true(struct hunt *h, int literal, int row)
{
    h->q.value[abs(literal)] = literal > 0 ? 1 : -1;
    h->trail[h->joined++] = (struct made_true){literal, row};
}

/* The conflict that the scan comes upon, if any. */
static int scan(struct hunt *h, int literal)
{
    for (int r = 0; r < h->sheet->count; r++) {
        const struct clause *c = &h->sheet->rows[r];
        int unit;
        if (h->weights[r] == 0 || !passes(h, r, literal) || is_satisfied(c, &h->q)) continue;
        struct clause left = remnant_of(c, &h->q);
        if (left.count == 0) return r;
        if (is_unit(&left, &unit)) make_true(h, unit, r);
    }
    return NO_CONFLICT;
}

static int hunt(struct hunt *h)
{
    h->q = *h->node;
    h->joined = 0;
    int conflict = scan(h, UNITS_AT_NODE);
    for (int i = 0; conflict == NO_CONFLICT && i < h->joined; i++) conflict = scan(h, h->trail[i].literal);
    return conflict;
}

/* A row joins the group, and the variables of its remnant at the node are needed. */
static void join(const struct hunt *h, int row, struct group *g, bool *needed)
{
    struct clause left = remnant_of(&h->sheet->rows[row], h->node);
    for (int i = 0; i < left.count; i++) needed[abs(left.literals[i])] = true;
    g->rows[g->count++] = row;
}

static struct group group_of(const struct hunt *h, int conflict)
{
    struct group g = {0};
    bool needed[MOST_VARIABLES + 1] = {false};
    join(h, conflict, &g, needed);
    for (int i = h->joined - 1; i >= 0; i--)
        if (needed[abs(h->trail[i].literal)]) join(h, h->trail[i].row, &g, needed);
    return g;
}

/* Takes the smallest working weight of the group from each of its rows. */
static word take_cost(struct hunt *h, const struct group *g)
{
    word cost = h->weights[g->rows[0]];
    for (int i = 1; i < g->count; i++)
        if (h->weights[g->rows[i]] < cost) cost = h->weights[g->rows[i]];
    for (int i = 0; i < g->count; i++) h->weights[g->rows[i]] -= cost;
    return cost;
}

/* The next group, with its cost, or false where a hunt finds nothing. */
static bool next_group(struct hunt *h, struct group *g)
{
    int conflict = hunt(h);
    if (conflict == NO_CONFLICT) return false;
    *g = group_of(h, conflict);
    g->cost = take_cost(h, g);
    return true;
}

static word foreseen_by_groups(const struct sheet *s, const struct partial *p)
{
    struct hunt h;
    struct group g;
    word sum = 0;
    begin_hunts(&h, s, p);
    while (next_group(&h, &g)) sum += g.cost;
    return sum;
}

int groups_found(const word *desk, struct group *groups, int most)
{
    static struct sheet s;
    struct hunt h;
    struct partial p = standing(desk);
    int count = 0;
    fill_sheet(&s, desk);
    begin_hunts(&h, &s, &p);
    while (count < most && next_group(&h, &groups[count])) count++;
    return count;
}
