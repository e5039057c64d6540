// Part of twin.c, with -DGROUPS: the bound by groups. Working weights are copied once for a node, each scan passes over the rows, and the
// hunt ends as soon as what is lost and what groups cost come to best: the walk asks no more of a bound. A dead node is known before any hunt.
// With -DCOMPACT the rows that have a working weight are copied too, as remnants, and scans pass over these alone. With -DMASKED a scan
// looks only at rows whose bit is set: in a mask of those with a working weight, and in one of those that pass its test, which for a
// literal is made once for the search.

#if defined COMPACT && defined MASKED
#error "one form at a time"
#endif

enum { MASK_WORDS = MOST_ROWS / 64, NO_CONFLICT = MOST_ROWS };

struct made_true {
    uint64_t bit;
    size_t row;
};

struct hunt {
    const struct row *rows;
    size_t n;
    uint64_t node_decided, decided, truths; // the node's; q's
    struct made_true trail[MOST_VARIABLES];
    unsigned joined;
#ifdef COMPACT
    struct row remnants[MOST_ROWS];
#else
    uint64_t weights[MOST_ROWS];
#endif
#ifdef MASKED
    uint64_t alive[MASK_WORDS], units[MASK_WORDS];
#endif
};

// The working weight of a row.
static uint64_t *weight_of(struct hunt *h, size_t i)
{
#ifdef COMPACT
    return &h->remnants[i].weight;
#else
    return &h->weights[i];
#endif
}

static uint64_t remnant(const struct row *r, uint64_t decided)
{
    return (r->positive | r->negative) & ~decided;
}

static int single(uint64_t mask)
{
    return mask != 0 && (mask & (mask - 1)) == 0;
}

// ---- the node

#ifdef MASKED
static uint64_t holding[2][MOST_VARIABLES][MASK_WORDS];

static void mark(uint64_t *mask, size_t i)
{
    mask[i / 64] |= (uint64_t)1 << i % 64;
}

static void mark_literals(const struct search *s)
{
    for (size_t i = 0; i < s->n; i++)
        for (unsigned v = 0; v < s->variables; v++) {
            if (s->rows[i].positive >> v & 1)
                mark(holding[1][v], i);
            if (s->rows[i].negative >> v & 1)
                mark(holding[0][v], i);
        }
}
#endif

static void put(struct hunt *h, const struct row *r, size_t i, uint64_t weight)
{
    (void)r, (void)i;
#if defined COMPACT
    if (weight != 0)
        h->remnants[h->n++] = (struct row){r->positive & ~h->node_decided, r->negative & ~h->node_decided, weight, 0};
#else
    h->weights[i] = weight;
#endif
#if defined MASKED
    if (weight != 0)
        mark(h->alive, i);
    if (single(remnant(r, h->node_decided)))
        mark(h->units, i);
#endif
}

// What is lost, and the working weights.
static uint64_t set_out(struct hunt *h, const struct search *s, uint64_t decided, uint64_t truths, uint64_t charge)
{
    uint64_t lost = 0;
    h->node_decided = decided;
    h->rows = s->rows;
    h->n = s->n;
#ifdef COMPACT
    h->rows = h->remnants;
    h->n = 0;
#endif
#ifdef MASKED
    memset(h->alive, 0, sizeof h->alive);
    memset(h->units, 0, sizeof h->units);
#endif
    for (size_t i = 0; i < s->n; i++) {
        const struct row *r = &s->rows[i];
        int out = satisfied(r, decided, truths), empty = remnant(r, decided) == 0;
        if (!out && empty)
            lost += charged(r, charge);
        put(h, r, i, out || empty ? 0 : r->weight);
    }
    return lost;
}

// ---- a hunt

// Whether the row is the conflict. If one literal is left of it, that is made true.
static int look(struct hunt *h, size_t i)
{
    const struct row *r = &h->rows[i];
    if (satisfied(r, h->decided, h->truths))
        return 0;
    uint64_t left = remnant(r, h->decided);
    if (left == 0)
        return 1;
    if (single(left)) {
        h->decided |= left;
        h->truths |= r->positive & left;
        h->trail[h->joined++] = (struct made_true){left, i};
    }
    return 0;
}

#ifndef MASKED
static size_t scan_units(struct hunt *h)
{
    for (size_t i = 0; i < h->n; i++)
        if (single(remnant(&h->rows[i], h->node_decided)) && *weight_of(h, i) && look(h, i))
            return i;
    return NO_CONFLICT;
}

static size_t scan_positive(struct hunt *h, uint64_t bit)
{
    for (size_t i = 0; i < h->n; i++)
        if ((h->rows[i].positive & bit) && *weight_of(h, i) && look(h, i))
            return i;
    return NO_CONFLICT;
}

static size_t scan_negative(struct hunt *h, uint64_t bit)
{
    for (size_t i = 0; i < h->n; i++)
        if ((h->rows[i].negative & bit) && *weight_of(h, i) && look(h, i))
            return i;
    return NO_CONFLICT;
}

static size_t scan_against(struct hunt *h, uint64_t bit)
{
    return h->truths & bit ? scan_negative(h, bit) : scan_positive(h, bit);
}
#else
static size_t scan(struct hunt *h, const uint64_t *test)
{
    for (size_t k = 0; k * 64 < h->n; k++)
        for (uint64_t left = h->alive[k] & test[k]; left; left &= left - 1) {
            size_t i = k * 64 + (size_t)__builtin_ctzll(left);
            if (look(h, i))
                return i;
        }
    return NO_CONFLICT;
}

static size_t scan_units(struct hunt *h)
{
    return scan(h, h->units);
}

static size_t scan_against(struct hunt *h, uint64_t bit)
{
    return scan(h, holding[!(h->truths & bit)][__builtin_ctzll(bit)]);
}
#endif

static size_t hunt(struct hunt *h, uint64_t decided, uint64_t truths)
{
    h->decided = decided;
    h->truths = truths;
    h->joined = 0;
    size_t conflict = scan_units(h);
    for (unsigned e = 0; conflict == NO_CONFLICT && e < h->joined; e++)
        conflict = scan_against(h, h->trail[e].bit);
    return conflict;
}

// ---- what its group costs

static void take(struct hunt *h, size_t i, uint64_t cost)
{
    *weight_of(h, i) -= cost;
#ifdef MASKED
    if (*weight_of(h, i) == 0)
        h->alive[i / 64] &= ~((uint64_t)1 << i % 64);
#endif
}

static uint64_t take_cost(struct hunt *h, size_t conflict)
{
    size_t group[MOST_VARIABLES + 1] = {conflict};
    unsigned count = 1;
    uint64_t cost = *weight_of(h, conflict), needed = remnant(&h->rows[conflict], h->node_decided);
    for (unsigned e = h->joined; e-- > 0;) {
        size_t i = h->trail[e].row;
        if (!(needed & h->trail[e].bit))
            continue;
        needed |= remnant(&h->rows[i], h->node_decided);
        cost = smaller(cost, *weight_of(h, i));
        group[count++] = i;
    }
    for (unsigned k = 0; k < count; k++)
        take(h, group[k], cost);
    return cost;
}

// Foreseen is right where the total is below enough, and else comes to it.
static struct losses charged_to(const struct search *s, uint64_t decided, uint64_t truths, uint64_t charge, uint64_t enough)
{
    struct hunt h;
    struct losses l = {set_out(&h, s, decided, truths, charge), 0};
    if (l.lost > MOST_WEIGHT)
        return (struct losses){DEAD, 0};
    while (l.lost + l.foreseen < enough) {
        size_t conflict = hunt(&h, decided, truths);
        if (conflict == NO_CONFLICT)
            break;
        l.foreseen += take_cost(&h, conflict);
    }
    return l;
}

static struct losses losses_to(const struct search *s, uint64_t decided, uint64_t truths, uint64_t enough)
{
    return charged_to(s, decided, truths, DEAD, enough);
}

static struct losses losses(const struct search *s, uint64_t decided, uint64_t truths, uint64_t charge)
{
    return charged_to(s, decided, truths, charge, UINT64_MAX);
}
