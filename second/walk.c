/* Part of model.c: what is lost, the two bounds, the walk, and the enumeration that a finished walk is checked against. Bounds pass over hard
   rows, which weigh 0; the walk cuts where one is lost. */

/* The rows in use as literal lists, made once for many nodes. */
struct sheet {
    word conceded;
    int variables;
    int count;
    struct clause rows[MOST_CAPACITY];
    word weights[MOST_CAPACITY];
    bool hard[MOST_CAPACITY];
};

/* Only the rows in use are written, since a sheet is long. */
static void fill_sheet(struct sheet *s, const word *desk)
{
    s->conceded = desk[CONCEDED];
    s->variables = (int)desk[VARIABLES];
    s->count = (int)desk[IN_USE];
    for (int r = 0; r < s->count; r++) {
        s->rows[r] = clause_of(desk_row(desk, (word)r));
        s->weights[r] = desk_row(desk, (word)r)[WEIGHT];
        s->hard[r] = is_hard(desk_row(desk, (word)r));
    }
}

/* Unsatisfied, with an empty remnant. */
static bool is_lost(const struct sheet *s, int r, const struct partial *p)
{
    return !is_satisfied(&s->rows[r], p) && remnant_of(&s->rows[r], p).count == 0;
}

static word lost_beyond(const struct sheet *s, const struct partial *p)
{
    word weight = 0;
    for (int r = 0; r < s->count; r++)
        if (is_lost(s, r, p)) weight += s->weights[r];
    return weight;
}

/* Whether no reading below keeps all hard rows, as far as one of them shows it alone. */
static bool is_dead(const struct sheet *s, const struct partial *p)
{
    for (int r = 0; r < s->count; r++)
        if (s->hard[r] && is_lost(s, r, p)) return true;
    return false;
}

static word foreseen_by_units(const struct sheet *s, const struct partial *p)
{
    word positive[MOST_VARIABLES + 1] = {0}, negative[MOST_VARIABLES + 1] = {0};
    for (int r = 0; r < s->count; r++) {
        int l;
        if (is_satisfied(&s->rows[r], p)) continue;
        struct clause left = remnant_of(&s->rows[r], p);
        if (!is_unit(&left, &l)) continue;
        if (l > 0) positive[l] += s->weights[r];
        else negative[-l] += s->weights[r];
    }
    word sum = 0;
    for (int v = 1; v <= s->variables; v++) sum += positive[v] < negative[v] ? positive[v] : negative[v];
    return sum;
}

#include "groups.c"

static struct losses losses_under(const struct sheet *s, word choice, const struct partial *p)
{
    word foreseen = choice == UNITS ? foreseen_by_units(s, p) : foreseen_by_groups(s, p);
    return (struct losses){s->conceded, lost_beyond(s, p), foreseen};
}

word lost(const word *desk)
{
    static struct sheet s;
    struct partial p = standing(desk);
    fill_sheet(&s, desk);
    return s.conceded + lost_beyond(&s, &p);
}

struct refusal bound(struct lent desk, word choice, struct losses *answer)
{
    if (!well_formed(desk)) return refused(10);
    static struct sheet s;
    struct partial p = standing(desk.words);
    fill_sheet(&s, desk.words);
    *answer = losses_under(&s, choice, &p);
    return accepted();
}

struct walk {
    const struct sheet *sheet;
    word choice;
    word best;
    bool kept;
    word reading;
    word nodes;
    word budget;
    bool stopped;
};

/* 0 when every variable is fixed. */
static int next_variable(const struct walk *w, const struct partial *p)
{
    for (int v = 1; v <= w->sheet->variables; v++)
        if (p->value[v] == 0) return v;
    return 0;
}

static word reading_of(const struct partial *p)
{
    word reading = 0;
    for (int v = 1; v <= MOST_VARIABLES; v++)
        if (p->value[v] == 1) reading |= bit(v);
    return reading;
}

static struct partial fix(struct partial p, int variable, int value)
{
    p.value[variable] = (signed char)value;
    return p;
}

/* A node that is due. */
static void visit(struct walk *w, struct partial p)
{
    if (w->nodes >= w->budget) {
        w->stopped = true;
        return;
    }
    w->nodes++;
    if (is_dead(w->sheet, &p)) return;
    struct losses l = losses_under(w->sheet, w->choice, &p);
    word b = l.conceded + l.lost + l.foreseen;
    if (b >= w->best) return;
    int v = next_variable(w, &p);
    if (v == 0) {
        w->best = b;
        w->kept = true;
        w->reading = reading_of(&p);
        return;
    }
    visit(w, fix(p, v, 1));
    visit(w, fix(p, v, -1));
}

struct refusal search(struct lent desk, word choice, uint32_t budget, struct found *answer)
{
    if (!well_formed(desk)) return refused(10);
    static struct sheet s;
    struct walk w = {.sheet = &s, .choice = choice, .budget = budget};
    fill_sheet(&s, desk.words);
    w.best = (word)conceded_and_weights(desk.words, desk.words[IN_USE]) + 1;
    visit(&w, standing(desk.words));
    *answer = (struct found){!w.stopped, w.kept, w.kept ? w.best : 0, w.reading, w.nodes};
    return accepted();
}

static void enumerate(const word *desk, struct partial p, int v, word *weight, word *reading, bool *any)
{
    if ((word)v > desk[VARIABLES]) {
        word r = reading_of(&p), now = desk_weight(desk, r);
        if (!desk_holds(desk, r)) return;
        if (!*any || now < *weight) {
            *weight = now;
            *reading = r;
        }
        *any = true;
        return;
    }
    bool decided = has_bit(desk[DECIDED], v);
    if (!decided || has_bit(desk[DECIDED_TRUE], v)) enumerate(desk, fix(p, v, 1), v + 1, weight, reading, any);
    if (!decided || !has_bit(desk[DECIDED_TRUE], v)) enumerate(desk, fix(p, v, -1), v + 1, weight, reading, any);
}

bool least_by_enumeration(const word *desk, word *weight, word *reading)
{
    bool any = false;
    enumerate(desk, (struct partial){{0}}, 1, weight, reading, &any);
    return any;
}
