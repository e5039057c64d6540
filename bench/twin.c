// The same walk with the same bound, plainly written in C: what the program is timed against. It takes a well-formed text for
// granted, refuses nothing and shares no code with the project. A hard row that is lost adds a charge to what is lost, so that the
// pass over the rows tells a dead node too. With -DLEFT_FIRST it asks what is left of a row before whether the
// row is satisfied, as the program does. With -DPASS_PER_VARIABLE it passes over the rows once for lost and once for each undecided
// variable. With -DGROUPS the bound is that by groups. With -DUNDECIDED it also writes, to standard error, how many variables were
// undecided at the nodes it visited, summed.
#include <inttypes.h>
#include <stddef.h>
#include <stdint.h>
#include <stdio.h>
#include <stdlib.h>
#include <string.h>

enum { MOST_VARIABLES = 64, MOST_ROWS = 512, MOST_WEIGHT = 1000000000, MOST_INPUT = 65536 };
enum { NO_CHARGE = 0, DEAD = MOST_WEIGHT + 1 }; // for a hard row that is lost: at the root, whose losses are written, and at a node

struct row {
    uint64_t positive, negative, weight, hard;
};

struct search {
    struct row rows[MOST_ROWS];
    size_t n;
    unsigned variables;
    uint64_t budget, nodes, best, reading;
    int kept, stopped;
#ifdef UNDECIDED
    uint64_t undecided;
#endif
};

// ---- the bound

struct losses {
    uint64_t lost, foreseen;
};

static int satisfied(const struct row *r, uint64_t decided, uint64_t truths)
{
    return (r->positive & truths) || (r->negative & decided & ~truths);
}

// What a row adds to what is lost: a hard one weighs 0.
static uint64_t charged(const struct row *r, uint64_t charge)
{
    return r->weight + (r->hard ? charge : 0);
}

static uint64_t smaller(uint64_t positive, uint64_t negative)
{
    return positive < negative ? positive : negative;
}

#ifdef GROUPS
#include "groups.c"
#elif !defined PASS_PER_VARIABLE
// What is lost, and a sum for each literal: the weights of the rows of which it alone is left.
static uint64_t gather(const struct search *s, uint64_t decided, uint64_t truths, uint64_t charge, uint64_t positive[], uint64_t negative[])
{
    uint64_t lost = 0;
    for (size_t i = 0; i < s->n; i++) {
#ifndef LEFT_FIRST
        const struct row *r = &s->rows[i];
        if (satisfied(r, decided, truths))
            continue;
        uint64_t remnant = (r->positive | r->negative) & ~decided;
        if (remnant == 0)
            lost += charged(r, charge);
        else if (__builtin_popcountll(remnant) == 1)
            (r->positive & remnant ? positive : negative)[__builtin_ctzll(remnant)] += r->weight;
#else
        struct row r = s->rows[i];
        uint64_t remnant = (r.positive | r.negative) & ~decided;
        if (remnant == 0)
            lost += satisfied(&r, decided, truths) ? 0 : charged(&r, charge);
        else if (__builtin_popcountll(remnant) == 1)
            (r.positive & remnant ? positive : negative)[__builtin_ctzll(remnant)] += satisfied(&r, decided, truths) ? 0 : r.weight;
#endif
    }
    return lost;
}

static struct losses losses(const struct search *s, uint64_t decided, uint64_t truths, uint64_t charge)
{
    uint64_t positive[MOST_VARIABLES] = {0}, negative[MOST_VARIABLES] = {0};
    struct losses l = {gather(s, decided, truths, charge, positive, negative), 0};
    if (l.lost > MOST_WEIGHT)
        return (struct losses){DEAD, 0};
    for (unsigned v = 0; v < s->variables; v++)
        if (!(decided >> v & 1))
            l.foreseen += smaller(positive[v], negative[v]);
    return l;
}
#else
static uint64_t lost(const struct search *s, uint64_t decided, uint64_t truths, uint64_t charge)
{
    uint64_t sum = 0;
    for (size_t i = 0; i < s->n; i++) {
        const struct row *r = &s->rows[i];
        if (!satisfied(r, decided, truths) && ((r->positive | r->negative) & ~decided) == 0)
            sum += charged(r, charge);
    }
    return sum;
}

// The smaller of the summed weights of the units on variable v, positive and negative. Most rows do not name v.
static uint64_t foreseen(const struct search *s, uint64_t decided, uint64_t truths, unsigned v)
{
    uint64_t positive = 0, negative = 0;
    for (size_t i = 0; i < s->n; i++) {
        const struct row *r = &s->rows[i];
        if (!((r->positive | r->negative) >> v & 1) || satisfied(r, decided, truths))
            continue;
        uint64_t remnant = (r->positive | r->negative) & ~decided;
        if (__builtin_popcountll(remnant) != 1)
            continue;
        if (r->positive & remnant)
            positive += r->weight;
        else
            negative += r->weight;
    }
    return smaller(positive, negative);
}

static struct losses losses(const struct search *s, uint64_t decided, uint64_t truths, uint64_t charge)
{
    struct losses l = {lost(s, decided, truths, charge), 0};
    if (l.lost > MOST_WEIGHT)
        return (struct losses){DEAD, 0};
    for (unsigned v = 0; v < s->variables; v++)
        if (!(decided >> v & 1))
            l.foreseen += foreseen(s, decided, truths, v);
    return l;
}
#endif

#ifndef GROUPS
static struct losses losses_to(const struct search *s, uint64_t decided, uint64_t truths, uint64_t enough)
{
    (void)enough;
    return losses(s, decided, truths, DEAD);
}
#endif

// ---- the walk

static void walk(struct search *s, uint64_t decided, uint64_t truths)
{
    if (s->nodes >= s->budget) {
        s->stopped = 1;
        return;
    }
    s->nodes++;
    unsigned v = ~decided ? (unsigned)__builtin_ctzll(~decided) : 64;
#ifdef UNDECIDED
    s->undecided += s->variables - v;
#endif
    struct losses l = losses_to(s, decided, truths, s->best);
    uint64_t bound = l.lost + l.foreseen;
    if (bound >= s->best)
        return;
    if (v >= s->variables) {
        s->best = bound;
        s->reading = truths;
        s->kept = 1;
        return;
    }
    uint64_t bit = (uint64_t)1 << v;
    walk(s, decided | bit, truths | bit);
    walk(s, decided | bit, truths);
}

// ---- the text

static char text[MOST_INPUT + 1];

static uint64_t number_after(char **at, const char *key)
{
    return strtoull(*at + strlen(key), at, 10);
}

static void read_row(char **at, struct row *r)
{
    r->weight = number_after(at, "\nweight=");
    r->hard = number_after(at, "\nhard=");
    *at += strlen("\nlits=");
    while (**at != '\n') {
        long long literal = strtoll(*at, at, 10);
        if (literal > 0)
            r->positive |= (uint64_t)1 << (literal - 1);
        else
            r->negative |= (uint64_t)1 << (-literal - 1);
        if (**at == ' ')
            ++*at;
    }
}

static void read_text(struct search *s)
{
    text[fread(text, 1, MOST_INPUT, stdin)] = 0;
    char *at = text;
    s->variables = (unsigned)number_after(&at, "vars=");
    s->budget = number_after(&at, "\nbudget=");
    s->n = number_after(&at, "\nrows=");
    for (size_t i = 0; i < s->n; i++)
        read_row(&at, &s->rows[i]);
}

static void write_answer(const struct search *s)
{
    printf("status=%s\n", s->stopped ? "stopped" : s->kept ? "done" : "impossible");
    if (s->kept) {
        printf("weight=%" PRIu64 "\nnodes=%" PRIu64 "\nreading=", s->best, s->nodes);
        for (unsigned v = 0; v < s->variables; v++)
            printf("%s%s%u", v ? " " : "", s->reading >> v & 1 ? "" : "-", v + 1);
        puts("");
    } else
        printf("weight=none\nnodes=%" PRIu64 "\nreading=none\n", s->nodes);
    struct losses root = losses(s, 0, 0, NO_CHARGE);
    printf("conceded=0\nlost=%" PRIu64 "\nforeseen=%" PRIu64 "\n", root.lost, root.foreseen);
}

int main(void)
{
    static struct search s;
    read_text(&s);
    s.best = 1;
    for (size_t i = 0; i < s.n; i++)
        s.best += s.rows[i].weight;
#ifdef MASKED
    mark_literals(&s);
#endif
    walk(&s, 0, 0);
    write_answer(&s);
#ifdef UNDECIDED
    fprintf(stderr, "%" PRIu64 "\n", s.undecided);
#endif
    return 0;
}
