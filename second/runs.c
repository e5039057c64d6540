/* Part of second.c: scripts of calls, good and bad, on desks of every size. The script is run while it is made, so that
   the next call can be chosen to fit the desk as it then stands. */

#include <stdarg.h>

struct run {
    FILE *out;
    struct bench bench;
    struct chance chance;
    struct chance choices; /* of the bound; on their own, so that they change no other draw */
};

#include "fitting.c"
#include "emitting.c"

/* --- families of runs --- */

static void draft_for_steps(struct chance *c, struct draft *d, word variables, word most)
{
    d->variables = variables;
    add_mixed_rows(c, d, between(c, 0, 24), most);
    if (one_in(c, 2) && variables > 0) add_chain(c, d, between(c, 0, MOST_LINKS), most);
    if (one_in(c, 2)) add_fork(c, d, between(c, 0, MOST_LINKS), most);
    harden(c, d);
}

static void run_ordinary(struct run *r)
{
    struct draft d = {0};
    struct chance *c = &r->chance;
    word most = between(c, 1, 9), past = draw(c) % 4;
    draft_for_steps(c, &d, between(c, 1, 6), most);
    start_desk(r, &d, one_in(c, 9) ? (word)MOST_CAPACITY : between(c, 0, 60), past);
    call_many(r, between(&r->chance, 10, 50));
    take_all_back(r);
}

static void run_tight(struct run *r)
{
    struct draft d = {0};
    draft_for_steps(&r->chance, &d, between(&r->chance, 0, 4), 4);
    word past = draw(&r->chance) % 2;
    start_desk(r, &d, draw(&r->chance) % 4, past);
    call_many(r, between(&r->chance, 10, 40));
}

static void run_long_links(struct run *r)
{
    struct chance *c = &r->chance;
    struct draft d = {.variables = between(c, 3, 20)};
    for (word i = between(c, 1, 4); i > 0; i--) {
        add_chain(c, &d, between(c, 0, MOST_LINKS), 9);
        add_fork(c, &d, between(c, 0, MOST_LINKS), 9);
    }
    start_desk(r, &d, between(c, 10, 900), 0);
    for (int i = 0; i < 12; i++) {
        call_fitting_rewrite(r, between(c, CHAIN, FORK));
        if (one_in(c, 3)) call_any(r);
    }
    emit(r, "words 0 8");
    take_all_back(r);
}

/* Shifts there and back until as many steps stand as may, each of two new rows. */
static void run_ledger(struct run *r)
{
    struct draft d = {.variables = 2};
    add_row(&d, unit_row(1), 5);
    add_row(&d, pair_row(-1, 2), 5);
    start_desk(r, &d, between(&r->chance, 2 * MOST_STEPS - 7, 4 * MOST_STEPS - 2), 1);
    emit(r, "rewrite 2 0 1");
    for (int i = 1; i < MOST_STEPS - (int)(draw(&r->chance) % 3); i++) emit(r, "rewrite 2 %d %d", 2 * i + 1, 2 * i);
    emit(r, "decide 1");
    emit(r, "decide 65");
    call_many(r, 6);
    for (word i = draw(&r->chance) % 9; i > 0; i--) emit(r, "back");
    call_many(r, 6);
}

static word poke_index(struct run *r)
{
    struct chance *c = &r->chance;
    word in_use = r->bench.lent[IN_USE] % 40, capacity = r->bench.lent[CAPACITY], steps = r->bench.lent[STEPS];
    word row = in_use == 0 ? 0 : draw(c) % in_use, rows = HEAD_WORDS + ROW_WORDS * row + draw(c) % ROW_WORDS;
    if (one_in(c, 2) || capacity > MOST_CAPACITY) return one_in(c, 2) ? draw(c) % HEAD_WORDS : rows;
    word last = steps == 0 || steps > MOST_STEPS ? 0 : steps - 1;
    return HEAD_WORDS + ROW_WORDS * capacity + ENTRY_WORDS * last + draw(c) % ENTRY_WORDS;
}

static word poke_value(struct chance *c, word now)
{
    switch (draw(c) % 4) {
    case 0: return now + 1;
    case 1: return now - 1;
    case 2: return now ^ (word)1 << draw(c) % 64;
    default: return odd_word(c);
    }
}

/* Pokes one word, calls a little, and mostly puts it back as it was before the poke. */
static void poke_and_call(struct run *r)
{
    word index = poke_index(r);
    if (index >= r->bench.lent_count) return;
    word before = r->bench.lent[index];
    emit(r, "poke %" PRIu64 " %" PRIu64, index, poke_value(&r->chance, before));
    emit(r, "wellformed");
    for (word i = between(&r->chance, 1, 3); i > 0; i--) {
        if (one_in(&r->chance, 2)) emit(r, "back");
        else call_any(r);
    }
    if (!one_in(&r->chance, 4)) emit(r, "poke %" PRIu64 " %" PRIu64, index, before);
}

static void run_poked(struct run *r)
{
    struct draft d = {0};
    draft_for_steps(&r->chance, &d, between(&r->chance, 1, 6), 5);
    word past = draw(&r->chance) % 3;
    start_desk(r, &d, between(&r->chance, 0, 40), past);
    for (int i = 0; i < 10; i++) {
        call_many(r, between(&r->chance, 1, 5));
        poke_and_call(r);
    }
    emit(r, "words 0 8");
}

static void run_short(struct run *r)
{
    struct draft d = {0};
    draft_for_steps(&r->chance, &d, between(&r->chance, 1, 5), 5);
    start_desk(r, &d, between(&r->chance, 0, 9), 0);
    call_many(r, 8);
    word size = r->bench.lent_count, reaches[] = {0, 1, 7, 8, 9, size / 2, size - 1, size};
    for (int i = 0; i < 8; i++) {
        emit(r, "reach %" PRIu64, reaches[draw(&r->chance) % 8]);
        emit(r, "wellformed");
        call_many(r, 3);
        if (one_in(&r->chance, 3)) emit(r, "load %" PRIu64 " %" PRIu64, d.variables, d.rows);
    }
}

static void spoil_table(struct chance *c, struct draft *d, word *count)
{
    if (d->rows == 0) return;
    word row = ROW_WORDS * (draw(c) % d->rows), flipped = (word)1 << draw(c) % 64;
    switch (draw(c) % 7) {
    case 0: d->words[row + WEIGHT] = odd_word(c); break;
    case 1: d->words[row + draw(c) % 2] ^= flipped; break;
    case 2: d->words[row + 1] |= d->words[row]; break;
    case 3: *count -= *count < 2 ? 0 : between(c, 1, ROW_WORDS - 1); break;
    case 4: d->words[row + MARK] = odd_word(c); break;
    case 5: d->words[row + MARK] = HARD; break;
    default: bring_sum_to_limit(d, draw(c) % 2); break;
    }
}

/* Few rows, or as many as may be loaded and a few more or less. */
static void run_loads(struct run *r)
{
    struct chance *c = &r->chance;
    for (int i = 0; i < 12; i++) {
        struct draft d = {.variables = between(c, 0, 7)};
        add_mixed_rows(c, &d, one_in(c, 20) ? between(c, MOST_LOADED - 3, MOST_LOADED + 3) : between(c, 0, 12), 5);
        harden(c, &d);
        word count = ROW_WORDS * d.rows, capacity = one_in(c, 3) ? odd_word(c) : d.rows + draw(c) % 4 - 1;
        for (word n = draw(c) % 3; n > 0; n--) spoil_table(c, &d, &count);
        emit_table(r, d.words, count);
        word size = capacity <= MOST_CAPACITY ? desk_size(capacity) : desk_size(MOST_CAPACITY);
        word fill = odd_word(c), room = one_in(c, 2) ? 40 * (d.rows + 1) : between(c, 0, 400);
        emit(r, "lend %" PRIu64 " %" PRIu64, one_in(c, 6) ? draw(c) % 4200 : size + draw(c) % 3 - 1, fill);
        emit(r, "load %" PRIu64 " %" PRIu64, one_in(c, 8) ? odd_word(c) : d.variables, capacity);
        emit(r, "weight %" PRIu64 " %" PRIu64, d.variables, draw(c) % 256);
        word budget = one_in(c, 2) ? MOST_BUDGET : draw(c) % ((word)MOST_BUDGET + 1);
        emit(r, "write %" PRIu64 " %" PRIu64 " %" PRIu64 " 170", one_in(c, 8) ? odd_word(c) : d.variables, budget, room);
        emit(r, "wellformed");
        emit_bounds(r);
    }
}

static void run_wide(struct run *r)
{
    struct chance *c = &r->chance;
    struct draft d = {.variables = one_in(c, 4) ? 63 : MOST_VARIABLES};
    word length = between(c, 1, 5);
    add_random_rows(c, &d, between(c, 1, 40), length, 9);
    for (int i = 0; i < 3; i++) add_chain(c, &d, between(c, 0, MOST_LINKS), 9);
    for (int i = 0; i < 3; i++) add_fork(c, &d, between(c, 0, MOST_LINKS), 9);
    add_clashing_units(c, &d, 5, 9);
    harden(c, &d);
    start_desk(r, &d, between(c, 10, 80), 1);
    emit(r, "decide %d", one_in(c, 2) ? 64 : -64);
    call_many(r, 40);
}

static void run_limits(struct run *r)
{
    struct draft d = {0};
    draft_for_steps(&r->chance, &d, between(&r->chance, 1, 5), 30000000);
    bring_sum_to_limit(&d, one_in(&r->chance, 5));
    start_desk(r, &d, between(&r->chance, 0, 50), 0);
    call_many(r, between(&r->chance, 10, 40));
    take_all_back(r);
}

static void run_texts(struct run *r)
{
    static struct lines l;
    char kind[100];
    for (int i = 0; i < 8; i++) {
        struct chance *c = &r->chance;
        if (one_in(c, 3)) damage_text(c, (int)(draw(c) % DAMAGES), &l, kind);
        else {
            struct draft d = {0};
            word budget = families[draw(c) % FAMILIES].draft(c, &d);
            lines_of(&l, &d, budget);
        }
        emit_text(r, &l);
        word rows = l.count > HEADS ? (word)(l.count - HEADS) / ROW_LINES : 0, fill = odd_word(c);
        emit(r, "read %" PRIu64 " %" PRIu64, one_in(c, 4) ? draw(c) % 40 : ROW_WORDS * rows + draw(c) % 4, fill);
        emit(r, "answer %" PRIu64 " 85", one_in(c, 4) ? draw(c) % 60 : between(c, 60, 900));
    }
}

struct run_family {
    const char *name;
    void (*make)(struct run *r);
};

static const struct run_family run_families[] = {
    {"ordinary", run_ordinary}, {"tight", run_tight},   {"long-links", run_long_links}, {"poked", run_poked},
    {"short", run_short},       {"loads", run_loads},   {"wide", run_wide},             {"limits", run_limits},
    {"texts", run_texts},       {"ordinary", run_ordinary}, {"tight", run_tight},       {"poked", run_poked},
};
enum { RUN_FAMILIES = sizeof run_families / sizeof *run_families };

#include "broken_desks.c"
#include "full_runs.c"
#include "group_runs.c"

static int generate_runs(word seed, int count, const char *dir, const struct run_family *families, int many)
{
    struct run r = {.chance = {seed}, .choices = {~seed}};
    for (int i = 0; i < count; i++) {
        const struct run_family *f = &families[i % many];
        r.out = open_case(dir, i, f->name, "run");
        if (r.out == NULL) return 2;
        r.bench = new_bench();
        f->make(&r);
        emit(&r, "words 0 %" PRIu64, r.bench.lent_count);
        end_bench(&r.bench);
        fclose(r.out);
    }
    return 0;
}
