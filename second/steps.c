/* The steps of document 01: decide, rewriting, taking back. Included by model.c. */

/* --- decide --- */

struct refusal decide(struct lent desk, int64_t literal)
{
    word *d = desk.words;
    if (!well_formed(desk)) return refused(10);
    if (d[STEPS] == MOST_STEPS) return refused(11);
    if (literal < -MOST_VARIABLES || literal > MOST_VARIABLES || literal == 0) return refused(12);
    int v = abs((int)literal);
    if ((word)v > d[VARIABLES] || has_bit(d[DECIDED], v)) return refused(12);
    word *entry = entry_at(d, d[STEPS]);
    memset(entry, 0, ENTRY_WORDS * sizeof *entry);
    entry[ENTRY_VARIABLE] = (word)v;
    entry[ENTRY_VALUE] = literal > 0;
    d[DECIDED] |= bit(v);
    if (literal > 0) d[DECIDED_TRUE] |= bit(v);
    d[STEPS]++;
    return accepted();
}

/* --- rewriting --- */

/* What the named rows give: new rows in their order, and whether an empty one is among them. */
struct outcome {
    int fresh;
    struct clause rows[MOST_LINKS + 2];
    bool concedes;
};

static void give(struct outcome *o, struct clause c)
{
    if (c.count == 0) o->concedes = true;
    else o->rows[o->fresh++] = c;
}

static struct clause of_two(int a, int b) { return (struct clause){2, {(signed char)a, (signed char)b}}; }

static struct clause of_three(int a, int b, int c)
{
    return (struct clause){3, {(signed char)a, (signed char)b, (signed char)c}};
}

static bool is_unit(const struct clause *r, int *literal)
{
    if (r->count != 1) return false;
    *literal = r->literals[0];
    return true;
}

/* The remnant is (literal, other). */
static bool is_pair_with(const struct clause *r, int literal, int *other)
{
    if (r->count != 2 || !holds(r, literal)) return false;
    *other = r->literals[0] == literal ? r->literals[1] : r->literals[0];
    return true;
}

static bool fit_merge(const struct clause *r, struct outcome *o)
{
    struct clause rest = {0};
    int opposed = 0;
    if (r[0].count != r[1].count) return false;
    for (int i = 0; i < r[0].count; i++) {
        int l = r[0].literals[i];
        if (holds(&r[1], l)) add_literal(&rest, l);
        else if (holds(&r[1], -l)) opposed++;
        else return false;
    }
    if (opposed != 1) return false;
    give(o, rest);
    return true;
}

static bool fit_shift(const struct clause *r, struct outcome *o)
{
    int l1, l2;
    if (!is_unit(&r[0], &l1) || !is_pair_with(&r[1], -l1, &l2)) return false;
    give(o, of_two(l1, -l2));
    give(o, (struct clause){1, {(signed char)l2}});
    return true;
}

/* l1 and the k rows after it, common to chain and fork: the last literal is l(k+1). */
static bool fit_links(const struct clause *r, int k, int *last, struct outcome *o)
{
    int l, next;
    if (!is_unit(&r[0], &l)) return false;
    give(o, (struct clause){0});
    for (int i = 1; i <= k; i++) {
        if (!is_pair_with(&r[i], -l, &next)) return false;
        give(o, of_two(l, -next));
        l = next;
    }
    *last = l;
    return true;
}

static bool fit_chain(const struct clause *r, int k, struct outcome *o)
{
    int last, end;
    return fit_links(r, k, &last, o) && is_unit(&r[k + 1], &end) && end == -last;
}

static bool fit_fork(const struct clause *r, int k, struct outcome *o)
{
    int a, b, c, other;
    if (!fit_links(r, k, &a, o)) return false;
    if (!is_pair_with(&r[k + 1], -a, &b) || !is_pair_with(&r[k + 2], -a, &c)) return false;
    if (!is_pair_with(&r[k + 3], -b, &other) || other != -c) return false;
    give(o, of_three(a, -b, -c));
    give(o, of_three(-a, b, c));
    return true;
}

static bool fit(word kind, const struct clause *r, int count, struct outcome *o)
{
    switch (kind) {
    case MERGE: return fit_merge(r, o);
    case SHIFT: return fit_shift(r, o);
    case CHAIN: return fit_chain(r, count - 2, o);
    default: return fit_fork(r, count - 4, o);
    }
}

static bool count_is_right(word kind, word count)
{
    switch (kind) {
    case MERGE:
    case SHIFT: return count == 2;
    case CHAIN: return count >= 2 && count <= 2 + MOST_LINKS;
    case FORK: return count >= 4 && count <= 4 + MOST_LINKS;
    default: return false;
    }
}

static bool all_below_and_different(const word *named, word count, word limit)
{
    for (word i = 0; i < count; i++) {
        if (named[i] >= limit) return false;
        for (word j = 0; j < i; j++)
            if (named[j] == named[i]) return false;
    }
    return true;
}

static word smallest_weight(const word *desk, const word *named, word count)
{
    word w = desk_row(desk, named[0])[WEIGHT];
    for (word i = 1; i < count; i++)
        if (desk_row(desk, named[i])[WEIGHT] < w) w = desk_row(desk, named[i])[WEIGHT];
    return w;
}

/* The remnants of the named rows; false if one is hard or satisfied. */
static bool remnants(const word *desk, const word *named, word count, struct clause *r)
{
    struct partial p = standing(desk);
    for (word i = 0; i < count; i++) {
        struct clause c = clause_of(desk_row(desk, named[i]));
        if (is_hard(desk_row(desk, named[i])) || is_satisfied(&c, &p)) return false;
        r[i] = remnant_of(&c, &p);
    }
    return true;
}

static void write_entry(word *desk, word kind, word w, const word *named, word count)
{
    word *entry = entry_at(desk, desk[STEPS]);
    memset(entry, 0, ENTRY_WORDS * sizeof *entry);
    entry[ENTRY_KIND] = kind;
    entry[ENTRY_WEIGHT] = w;
    entry[ENTRY_COUNT] = count;
    for (word i = 0; i < count; i++) entry[ENTRY_ROWS + i] = named[i];
    entry[ENTRY_FIRST_NEW] = desk[IN_USE];
}

static void apply(word *desk, const struct outcome *o, word w, const word *named, word count)
{
    for (word i = 0; i < count; i++) row_at(desk, named[i])[WEIGHT] -= w;
    for (int i = 0; i < o->fresh; i++) put_clause(row_at(desk, desk[IN_USE]++), &o->rows[i], w);
    if (o->concedes) desk[CONCEDED] += w;
    desk[STEPS]++;
}

struct refusal rewrite(struct lent desk, word kind, const word *named, word count)
{
    word *d = desk.words;
    struct clause r[MOST_NAMED];
    struct outcome o = {0};
    if (!well_formed(desk)) return refused(10);
    if (d[STEPS] == MOST_STEPS) return refused(11);
    if (!count_is_right(kind, count)) return refused(13);
    if (!all_below_and_different(named, count, d[IN_USE])) return refused(13);
    word w = smallest_weight(d, named, count);
    if (w == 0 || !remnants(d, named, count, r) || !fit(kind, r, (int)count, &o)) return refused(14);
    if (d[IN_USE] + (word)o.fresh > d[CAPACITY]) return refused(15);
    write_entry(d, kind, w, named, count);
    apply(d, &o, w, named, count);
    return accepted();
}

/* --- taking back --- */

static struct refusal take_back_decision(word *desk, word *entry)
{
    word v = entry[ENTRY_VARIABLE];
    if (v == 0 || v > MOST_VARIABLES || !has_bit(desk[DECIDED], (int)v)) return refused(10);
    desk[DECIDED] &= ~bit((int)v);
    desk[DECIDED_TRUE] &= ~bit((int)v);
    return accepted();
}

/* How many rows the kind adds; a merge adds one unless it conceded. */
static bool added_is_right(word kind, word count, word added)
{
    switch (kind) {
    case MERGE: return added <= 1;
    case SHIFT: return added == 2;
    default: return added == count - 2;
    }
}

static bool names_hard(const word *desk, const word *named, word count)
{
    for (word i = 0; i < count; i++)
        if (is_hard(desk_row(desk, named[i]))) return true;
    return false;
}

static struct refusal take_back_rewriting(word *desk, word *entry)
{
    word kind = entry[ENTRY_KIND], w = entry[ENTRY_WEIGHT], count = entry[ENTRY_COUNT];
    word first = entry[ENTRY_FIRST_NEW];
    const word *named = entry + ENTRY_ROWS;
    if (!count_is_right(kind, count)) return refused(10);
    if (first < desk[LOADED] || first > desk[IN_USE]) return refused(10);
    if (!all_below_and_different(named, count, first)) return refused(10);
    if (names_hard(desk, named, count)) return refused(10);
    if (!added_is_right(kind, count, desk[IN_USE] - first)) return refused(10);
    bool conceded = kind == CHAIN || kind == FORK || (kind == MERGE && desk[IN_USE] == first);
    if (conceded && desk[CONCEDED] < w) return refused(10);
    sum after = conceded_and_weights(desk, first) + (sum)count * w - (conceded ? w : 0);
    if (after > MOST_WEIGHT) return refused(10);
    for (word i = 0; i < count; i++) row_at(desk, named[i])[WEIGHT] += w;
    memset(row_at(desk, first), 0, (desk[IN_USE] - first) * ROW_WORDS * sizeof *desk);
    if (conceded) desk[CONCEDED] -= w;
    desk[IN_USE] = first;
    return accepted();
}

struct refusal take_back(struct lent desk)
{
    word *d = desk.words;
    if (!well_formed(desk)) return refused(10);
    if (d[STEPS] == 0) return refused(16);
    word *entry = entry_at(d, d[STEPS] - 1);
    struct refusal no;
    if (entry[ENTRY_KIND] == DECIDE) no = take_back_decision(d, entry);
    else no = take_back_rewriting(d, entry);
    if (no.number != 0) return no;
    memset(entry, 0, ENTRY_WORDS * sizeof *entry);
    d[STEPS]--;
    return accepted();
}
