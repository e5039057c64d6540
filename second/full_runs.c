/* Part of runs.c: runs at document 01's limits. Full tables and desks, the longest chains and forks, all the steps that may stand, all
   variables, sums at the limit, the longest texts; and the families of all of them, with those of broken_desks.c and full_desks.c. */

/* --- full tables --- */

static void full_draft(struct chance *c, struct draft *d, word rows)
{
    d->variables = one_in(c, 4) ? 63 : MOST_VARIABLES;
    for (word i = 0; i < rows; i++) {
        word length = one_in(c, 4) ? between(c, 5, d->variables) : between(c, 0, 4), weight = between(c, 1, 1000);
        add_row(d, draw_clause(c, d->variables, length), weight);
    }
    if (rows > 1) harden(c, d);
}

static void call_table(struct run *r, const struct draft *d, const char *name)
{
    struct chance *c = &r->chance;
    static const word budgets[] = {0, 1, 7, 4294967294, 4294967295, 1000000000, 4000000000};
    word reading = draw(c), budget = budgets[draw(c) % 7];
    if (d->variables < MOST_VARIABLES) reading %= (word)1 << (d->variables % 64);
    meets(r, name);
    emit(r, "weight %" PRIu64 " %" PRIu64, d->variables, reading);
    meets(r, name);
    emit(r, "write %" PRIu64 " %" PRIu64 " %" PRIu64 " 170", d->variables, budget, text_room(d->rows));
    meets(r, name);
    emit(r, "load %" PRIu64 " %" PRIu64, d->variables, d->rows > MOST_LOADED ? (word)MOST_CAPACITY : between(c, d->rows, MOST_CAPACITY));
}

/* A mark above 1, with a weight and without, and a hard row with one. */
static void run_bad_marks(struct run *r, const struct draft *d, struct draft *bad)
{
    struct chance *c = &r->chance;
    word row = one_in(c, 2) ? (word)MOST_LOADED - 1 : draw(c) % MOST_LOADED, *words = bad->words + ROW_WORDS * row;
    *bad = *d;
    words[MARK] = one_in(c, 2) ? 2 : odd_word(c) | 2;
    emit_table(r, bad->words, ROW_WORDS * bad->rows);
    call_table(r, bad, "a bad mark");
    words[MARK] = HARD;
    words[WEIGHT] = one_in(c, 2) ? 1 : (word)MOST_WEIGHT;
    emit_table(r, bad->words, ROW_WORDS * bad->rows);
    call_table(r, bad, "a hard row with a weight");
}

/* Of all rows the last alone is hard: it has no literals, or one that the reading breaks and the walk meets first. */
static void run_last_hard(struct run *r, const struct draft *d, struct draft *last)
{
    struct chance *c = &r->chance;
    int literal = one_in(c, 2) ? 1 : -1;
    struct clause hard = one_in(c, 2) ? unit_row(literal) : (struct clause){0};
    *last = *d;
    for (word row = 0; row < MOST_LOADED; row++)
        if (is_hard(last->words + ROW_WORDS * row)) last->words[ROW_WORDS * row + WEIGHT] = 1, last->words[ROW_WORDS * row + MARK] = SOFT;
    put_hard(last->words + ROW_WORDS * (MOST_LOADED - 1), &hard);
    emit_table(r, last->words, ROW_WORDS * last->rows);
    call_table(r, last, "the last row hard");
    meets(r, "the last row hard, and broken");
    emit(r, "weight %" PRIu64 " %d", last->variables, literal > 0 ? 0 : 1);
    meets(r, "the last row hard, and broken");
    emit_searches(r, between(c, 1, 4));
}

static void run_full_table(struct run *r)
{
    struct chance *c = &r->chance;
    static struct draft d, bad;
    d = (struct draft){0};
    full_draft(c, &d, MOST_LOADED);
    word past = draw(c) % 2;
    emit(r, "lend %" PRIu64 " %" PRIu64, MOST_DESK + past, odd_word(c));
    emit_table(r, d.words, ROW_WORDS * d.rows);
    call_table(r, &d, "most rows");
    emit_bounds(r);
    emit_searches(r, between(c, 0, 3));
    emit(r, "search %d %" PRIu64, UNITS, between(c, 0, 200));
    emit(r, "weight %" PRIu64 " %" PRIu64, d.variables, ~(word)0);
    meets(r, "C below the rows");
    emit(r, "load %" PRIu64 " %d", d.variables, MOST_LOADED - 1);
    meets(r, "C at its most");
    emit(r, "load %" PRIu64 " %d", d.variables, MOST_CAPACITY);
    meets(r, "C over its most");
    emit(r, "load %" PRIu64 " %d", d.variables, MOST_CAPACITY + 1);
    emit_table(r, d.words, ROW_WORDS * d.rows - 1);
    call_table(r, &d, "not a multiple of 4");
    emit_table(r, d.words, ROW_WORDS * d.rows - 2);
    call_table(r, &d, "not a multiple of 4");
    bad = d;
    full_draft(c, &bad, 1);
    emit_table(r, bad.words, ROW_WORDS * bad.rows);
    call_table(r, &bad, "one row too many");
    bad = d;
    word row = one_in(c, 2) ? (word)MOST_LOADED - 1 : draw(c) % MOST_LOADED, bit = any_variable(c, d.variables);
    bad.words[ROW_WORDS * row] |= bit, bad.words[ROW_WORDS * row + 1] |= bit;
    if (one_in(c, 2)) bad.words[ROW_WORDS * row + WEIGHT] = 0;
    emit_table(r, bad.words, ROW_WORDS * bad.rows);
    call_table(r, &bad, "a row both ways");
    bad = d;
    row = one_in(c, 2) ? (word)MOST_LOADED - 1 : draw(c) % MOST_LOADED;
    bad.words[ROW_WORDS * row + WEIGHT] = one_in(c, 2) ? 0 : (word)MOST_WEIGHT + 1;
    bad.words[ROW_WORDS * row + MARK] = SOFT;
    emit_table(r, bad.words, ROW_WORDS * bad.rows);
    call_table(r, &bad, "a bad weight");
    run_bad_marks(r, &d, &bad);
    run_last_hard(r, &d, &bad);
}

/* Weights whose sum first passes the limit in a given row, and those that just reach it there. */
static void run_sums(struct run *r)
{
    struct chance *c = &r->chance;
    static const word places[] = {1, 2, 11, 12, 13, 100, MOST_LOADED - 2, MOST_LOADED - 1};
    word place = places[draw(c) % 8], rows = one_in(c, 2) ? place + 1 : between(c, place + 1, MOST_LOADED), all = 0;
    static struct draft d;
    d = (struct draft){.variables = between(c, 1, MOST_VARIABLES)};
    add_mixed_rows(c, &d, rows, MOST_WEIGHT / MOST_LOADED - 1);
    for (word i = 0; i < place; i++) all += d.words[ROW_WORDS * i + WEIGHT];
    for (word i = place + 1; i < rows; i++) all += d.words[ROW_WORDS * i + WEIGHT] = 1;
    emit(r, "lend %d 5", MOST_DESK);
    for (word over = 0; over < 3; over++) {
        d.words[ROW_WORDS * place + WEIGHT] = MOST_WEIGHT + over - all;
        emit_table(r, d.words, ROW_WORDS * rows);
        call_table(r, &d, over == 0 ? "sum at the limit" : "sum over the limit");
    }
    if (place == 11) {
        d.words[ROW_WORDS * place + WEIGHT] = MOST_WEIGHT + 1 - (all - (rows - place - 1));
        emit_table(r, d.words, ROW_WORDS * rows);
        call_table(r, &d, "sum over the limit in the twelfth row");
    }
    d.words[WEIGHT] = MOST_WEIGHT;
    emit_table(r, d.words, ROW_WORDS);
    call_table(r, &(struct draft){.variables = d.variables, .rows = 1}, "one row of the largest weight");
}

#include "full_desks.c"

/* --- longest chains and forks, each wrong in one place --- */

/* Something is done to one of the named rows beforehand, and put back. */
static void spoil_one_row(struct run *r, word kind, word first, word count, word i)
{
    static const char *const names[] = {"a named row spent", "a named row that does not fit", "a named row satisfied",
                                        "a named row with its signs turned", "a named row hard"};
    word row = first + i, index = row_word(row, 0), before[ROW_WORDS], how = draw(&r->chance) % 5;
    for (word j = 0; j < ROW_WORDS; j++) before[j] = lent_words(r)[index + j];
    word free_bit = (word)1 << 63; /* a variable of no named row, decided true where need be */
    if (how == 0 || how == 4) poke(r, index + WEIGHT, 0);
    if (how == 4) poke(r, index + MARK, HARD);
    else if (how == 3) poke(r, index, before[1]), poke(r, index + 1, before[0]);
    else if (how > 0) poke(r, index, before[0] | free_bit);
    if (how == 2) emit(r, "decide 64");
    meets(r, names[how]);
    emit_rows_from(r, kind, first, count);
    if (how == 2) emit(r, "back");
    for (word j = 0; j < ROW_WORDS; j++) poke(r, index + j, before[j]);
}

static void name_wrongly(struct run *r, word kind, word first, word count)
{
    struct chance *c = &r->chance;
    word named[16], i = draw(c) % count, j = count - 1;
    for (word n = 0; n < count; n++) named[n] = first + n;
    if (i == j) i = 0;
    named[j] = named[i];
    meets(r, count == MOST_NAMED ? "twelfth row repeated" : "a row repeated");
    emit_rewrite(r, kind, named, count);
    named[j] = lent_words(r)[IN_USE];
    meets(r, count == MOST_NAMED ? "twelfth row not in use" : "a row not in use");
    emit_rewrite(r, kind, named, count);
    named[j] = first + j;
    named[count] = 0;
    meets(r, "a row too many");
    emit_rewrite(r, kind, named, count + 1);
}

static void run_longest(struct run *r)
{
    struct chance *c = &r->chance;
    struct draft d = {.variables = between(c, 12, MOST_VARIABLES - 1)};
    word kind = between(c, CHAIN, FORK), k = one_in(c, 2) ? (word)MOST_LINKS : between(c, 0, MOST_LINKS), most = between(c, 1, 9);
    word count = k + (kind == CHAIN ? 2 : 4), added = count - 2;
    add_row(&d, draw_clause(c, d.variables, 4), 9);
    if (kind == CHAIN) add_chain(c, &d, k, most);
    else add_fork(c, &d, k, most);
    d.variables = MOST_VARIABLES;
    bool room = one_in(c, 3);
    start_desk(r, &d, added - (added > 0 && !room), 0);
    name_wrongly(r, kind, 1, count);
    for (word i = 0; i < count; i++) spoil_one_row(r, kind, 1, count, i);
    if (one_in(c, 2)) spoil_one_row(r, kind, 1, count, count - 1);
    meets(r, added == 0 ? "no room needed" : room ? "just room" : "a row short of room");
    emit_rows_from(r, kind, 1, count);
    emit_bounds(r);
    emit_searches(r, 60);
    emit(r, "back");
}

/* --- as many standing steps as there may be --- */

static void run_steps(struct run *r)
{
    struct chance *c = &r->chance;
    struct draft d = {.variables = between(c, 2, MOST_VARIABLES)};
    add_row(&d, unit_row(1), 5);
    add_row(&d, pair_row(-1, 2), 5);
    add_row(&d, unit_row(2), 3);
    add_row(&d, unit_row(-2), 3);
    start_desk(r, &d, between(c, 2 * MOST_STEPS + 8, 4 * MOST_STEPS - 4), draw(c) % 2);
    emit(r, "rewrite 2 0 1");
    for (int i = 1; i < MOST_STEPS - 1; i++) emit(r, "rewrite 2 %d %d", 2 * i + 3, 2 * i + 2);
    meets(r, "the last step that may stand");
    emit(r, one_in(c, 2) ? "decide -2" : "rewrite 1 2 3");
    meets(r, "a step beside most steps");
    emit(r, "decide 1");
    meets(r, "a step beside most steps");
    emit(r, "rewrite 3 2 3");
    meets(r, "a step beside most steps");
    emit(r, "decide 0");
    emit(r, "wellformed");
    emit_bounds(r);
    meets(r, "most steps, one taken back");
    emit(r, "back");
    emit(r, "rewrite 3 2 3");
    take_all_back(r);
}

/* --- searches past 1,000 nodes, and their budgets --- */

static void run_long_search(struct run *r)
{
    struct chance *c = &r->chance;
    static const word budgets[] = {255, 256, 999, 1000, 1001, 1023, 1024, 1025, 4095, 4096, 5000, MOST_BUDGET - 1, MOST_BUDGET};
    struct draft d = {0};
    draft_long_search(c, &d);
    start_desk(r, &d, 5, 0);
    if (one_in(c, 2)) emit(r, "decide %d", draw_literal(c, d.variables));
    for (int i = 0; i < 13; i++) {
        if (budgets[i] >= MOST_BUDGET - 1 || one_in(c, 2)) {
            meets(r, budgets[i] >= MOST_BUDGET - 1 ? "the largest budgets" : "a budget near 1,000");
            emit_searches(r, budgets[i]);
        }
    }
}

/* --- 64 variables --- */

/* Units on each variable, so that every one counts in the bound, and each is decided in turn. */
static void run_all_variables(struct run *r)
{
    struct chance *c = &r->chance;
    struct draft d = {.variables = MOST_VARIABLES};
    for (int v = 1; v <= MOST_VARIABLES; v++) {
        add_row(&d, unit_row(v), between(c, 1, 99));
        add_row(&d, unit_row(-v), between(c, 1, 99));
    }
    add_random_rows(c, &d, 30, between(c, 2, 4), 9);
    for (word hard = one_in(c, 2) ? between(c, 1, 9) : 0; hard > 0; hard--) make_hard(&d, d.rows - hard);
    start_desk(r, &d, between(c, 0, 9), 0);
    int turn = (int)(draw(c) % 64);
    for (int i = 0; i < MOST_VARIABLES; i++) {
        int v = (i * 27 + turn) % MOST_VARIABLES + 1;
        if (i % 4 == 0) emit_bounds(r);
        if (i % 16 == 0) emit_searches(r, between(c, 0, 130));
        meets(r, v == MOST_VARIABLES ? "variable 64 decided" : "each variable decided");
        emit(r, "decide %d", one_in(c, 2) ? v : -v);
        if (i % 8 == 0) emit(r, "decide %d", v);
    }
    emit_bounds(r);
    meets(r, "nothing left to decide");
    emit_searches(r, 1);
    meets(r, "nothing left to decide");
    emit_searches(r, 0);
    take_all_back(r);
}

/* --- full texts into words and bytes that just hold them --- */

static void draft_for_room(struct chance *c, struct draft *d)
{
    *d = (struct draft){0};
    if (one_in(c, 12)) draft_longest(d);
    else if (one_in(c, 12)) draft_longest_file(d);
    else if (one_in(c, 2)) full_draft(c, d, one_in(c, 3) ? (word)MOST_LOADED : one_in(c, 3) ? (word)MOST_INPUT_ROWS : between(c, 0, 40));
    else draft_for_steps(c, d, between(c, 0, 9), 900);
}

/* The table, as a competition file. */
static void emit_file(struct run *r, const struct draft *d)
{
    static char out[MOST_FILE];
    size_t length = 0;
    write_wcnf(table_of(d), out, sizeof out, &length);
    const char *name = length == MOST_FILE ? "the longest file" : "just room";
    meets(r, name);
    emit(r, "writewcnf %" PRIu64 " %zu 170", d->variables, length);
    meets(r, "a byte short of room");
    emit(r, "writewcnf %" PRIu64 " %zu 170", d->variables, length - 1);
    emit_bytes(r, (unsigned char *)out, length);
    meets(r, name);
    emit(r, "readwcnf %" PRIu64 " 6", ROW_WORDS * d->rows);
}

static void run_room(struct run *r)
{
    struct chance *c = &r->chance;
    static struct draft d;
    static struct lines l;
    static const word budgets[] = {0, 9, 10, 4294967294, 4294967295};
    static char out[MOST_TEXT];
    size_t length = 0;
    draft_for_room(c, &d);
    word budget = budgets[draw(c) % 5];
    write_text(table_of(&d), (uint32_t)budget, out, sizeof out, &length);
    const char *name = length + MOST_DIGITS > MOST_TEXT ? "the longest text" : "just room"; /* but for the budget */
    emit_table(r, d.words, ROW_WORDS * d.rows);
    meets(r, name);
    emit(r, "write %" PRIu64 " %" PRIu64 " %zu 170", d.variables, budget, length);
    meets(r, "a byte short of room");
    emit(r, "write %" PRIu64 " %" PRIu64 " %zu 170", d.variables, budget, length - 1);
    emit_file(r, &d);
    lines_of(&l, &d, budget > 100 && d.variables > 9 && d.rows <= MOST_INPUT_ROWS ? 30 : budget);
    emit_text(r, &l);
    meets(r, name);
    emit(r, "read %" PRIu64 " 6", ROW_WORDS * d.rows);
    if (d.rows > 0) {
        meets(r, "a word short of room");
        emit(r, "read %" PRIu64 " 6", ROW_WORDS * d.rows - 1);
    }
    size_t answered = program_answer(r->bench.text, r->bench.text_length, out);
    meets(r, "just room");
    emit(r, "answer %zu 85", answered);
    meets(r, "a byte short of room");
    emit(r, "answer %zu 85", answered - 1);
    emit(r, "answer %d 85", MOST_ANSWER);
    draft_long_answer(c, &d);
    lines_of(&l, &d, one_in(c, 2) ? 100000 : 4300);
    emit_text(r, &l);
    meets(r, "a long answer");
    emit(r, "answer 345 85");
}

/* --- texts of as many rows as the program takes, as the readers take, and of one more --- */

static void run_many_rows(struct run *r)
{
    static struct draft d;
    static struct lines l;
    static const struct {
        word rows;
        const char *name;
    } texts[] = {{MOST_INPUT_ROWS, "most rows for the program"}, {MOST_INPUT_ROWS + 1, "one row too many for the program"},
                 {MOST_LOADED, "most rows"},                     {MOST_LOADED + 1, "one row too many"}};
    struct chance *c = &r->chance;
    for (int i = 0; i < 4; i++) {
        draft_many(c, &d, texts[i].rows);
        lines_of(&l, &d, between(c, 0, 9));
        bool late = one_in(c, 3);
        if (late) damage_late(c, &l);
        emit_text(r, &l);
        meets(r, late ? "one of the last rows broken" : texts[i].name);
        emit(r, "read %d 6", ROW_WORDS * MOST_LOADED);
        meets(r, texts[i].name);
        emit(r, "read %" PRIu64 " 6", ROW_WORDS * (texts[i].rows - 1));
        meets(r, texts[i].name);
        emit(r, "answer %d 85", MOST_ANSWER);
    }
}

static const struct run_family full_families[] = {
    {"entries", run_entries},       {"unformed", run_unformed}, {"longest", run_longest},
    {"decision-entries", run_decision_entries}, {"sums", run_sums}, {"room", run_room},
    {"entries", run_entries},       {"unformed", run_unformed}, {"longest", run_longest},
    {"full-table", run_full_table}, {"all-variables", run_all_variables}, {"long-search", run_long_search},
    {"full-desk", run_full_desk},   {"last-named", run_last_named}, {"steps", run_steps}, {"last-row", run_last_row},
    {"ledger", run_ledger},         {"room", run_room},         {"many-rows", run_many_rows},
};
enum { FULL_FAMILIES = sizeof full_families / sizeof *full_families };
