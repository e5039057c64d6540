/* Part of runs.c: each clause of well formed, and of a bad last entry, broken alone. A line `# meets NAME` says what the call behind it is
   there for, so that a test can count what was met. */

static void meets(struct run *r, const char *name) { emit(r, "# meets %s", name); }

static word *lent_words(struct run *r) { return r->bench.lent; }

static void poke(struct run *r, word index, word value) { emit(r, "poke %" PRIu64 " %" PRIu64, index, value); }

static word row_word(word row, word which) { return HEAD_WORDS + ROW_WORDS * row + which; }

/* The index of a word of the last entry. */
static word last_entry(struct run *r, word which)
{
    return HEAD_WORDS + ROW_WORDS * lent_words(r)[CAPACITY] + ENTRY_WORDS * (lent_words(r)[STEPS] - 1) + which;
}

/* A call on the desk with one word poked, which is put back afterwards. */
static void with_poked(struct run *r, const char *name, word index, word value, const char *call)
{
    word before = lent_words(r)[index];
    poke(r, index, value);
    meets(r, name);
    emit(r, "%s", call);
    poke(r, index, before);
}

static word weights_on_desk(struct run *r)
{
    word all = 0;
    for (word row = 0; row < lent_words(r)[IN_USE]; row++) all += lent_words(r)[row_word(row, WEIGHT)];
    return all;
}

/* The last row in use that is soft, or as many as are in use. */
static word last_soft(struct run *r)
{
    word in_use = lent_words(r)[IN_USE];
    for (word row = in_use; row-- > 0;)
        if (!is_hard(lent_words(r) + row_word(row, 0))) return row;
    return in_use;
}

static void emit_rows_from(struct run *r, word kind, word first, word count)
{
    word named[16];
    for (word i = 0; i < count; i++) named[i] = first + i;
    emit_rewrite(r, kind, named, count);
}

/* --- a bad last entry --- */

static void spoil_named(struct run *r)
{
    struct chance *c = &r->chance;
    const word *entry = lent_words(r) + last_entry(r, 0);
    word count = entry[ENTRY_COUNT], first = entry[ENTRY_FIRST_NEW];
    for (word j = 1; j < count; j++) {
        word i = j == count - 1 ? draw(c) % j : 0;
        with_poked(r, j == MOST_NAMED - 1 ? "entry, twelfth row repeated" : "entry, a row repeated",
                   last_entry(r, ENTRY_ROWS + j), entry[ENTRY_ROWS + i], "back");
    }
    for (word j = 0; j < count; j += count - 1)
        with_poked(r, "entry, a row not below the first new", last_entry(r, ENTRY_ROWS + j), first, "back");
    word j = draw(c) % count, far = odd_word(c) | first;
    with_poked(r, "entry, a row not below the first new", last_entry(r, ENTRY_ROWS + j), far, "back");
}

/* One of the rows named is hard, and weighs nothing. */
static void spoil_marks(struct run *r)
{
    word count = lent_words(r)[last_entry(r, ENTRY_COUNT)], which[] = {0, count - 1, draw(&r->chance) % count};
    for (int i = 0; i < 3; i++) {
        word row = lent_words(r)[last_entry(r, ENTRY_ROWS + which[i])], weight = lent_words(r)[row_word(row, WEIGHT)];
        poke(r, row_word(row, WEIGHT), 0);
        with_poked(r, which[i] == MOST_NAMED - 1 ? "entry, twelfth row hard" : "entry, a row hard", row_word(row, MARK), HARD, "back");
        poke(r, row_word(row, WEIGHT), weight);
    }
}

static void spoil_counts(struct run *r)
{
    static const word wrong[][4] = {{0}, {1, 3, 0, 12}, {1, 3, 0, 4}, {1, 11, 0, 12}, {3, 13, 2, ~(word)0}};
    word kind = lent_words(r)[last_entry(r, ENTRY_KIND)], count = lent_words(r)[last_entry(r, ENTRY_COUNT)];
    for (int i = 0; i < 4; i++) with_poked(r, "entry, count wrong for the kind", last_entry(r, ENTRY_COUNT), wrong[kind][i], "back");
    if (kind >= CHAIN && count < MOST_NAMED - 2)
        with_poked(r, "entry, rows above not what the kind adds", last_entry(r, ENTRY_COUNT), count + 1, "back");
}

static void spoil_new_rows(struct run *r)
{
    word first = lent_words(r)[last_entry(r, ENTRY_FIRST_NEW)], in_use = lent_words(r)[IN_USE];
    word place = last_entry(r, ENTRY_FIRST_NEW), kind = lent_words(r)[last_entry(r, ENTRY_KIND)];
    if (in_use > first) with_poked(r, "entry, first new row below those loaded", LOADED, first + 1, "back");
    with_poked(r, "entry, first new row past those in use", place, in_use + 1, "back");
    with_poked(r, "entry, first new row past those in use", place, ~(word)0, "back");
    if (kind != MERGE) with_poked(r, "entry, rows above not what the kind adds", place, first + 1, "back");
    with_poked(r, "entry, rows above not what the kind adds", place, kind == MERGE ? in_use - 2 : first - 1, "back");
}

/* What taking back adds to the sum of (d), w for every kind but a shift. */
static void spoil_weights(struct run *r, bool conceded)
{
    word w = lent_words(r)[last_entry(r, ENTRY_WEIGHT)], place = last_entry(r, ENTRY_WEIGHT), kind = lent_words(r)[last_entry(r, ENTRY_KIND)];
    word more = MOST_WEIGHT - weights_on_desk(r) - (kind == SHIFT ? 0 : w);
    if (conceded) {
        with_poked(r, "entry, conceded less than the step added", CONCEDED, w - 1, "back");
        with_poked(r, "entry, conceded less than the step added", place, lent_words(r)[CONCEDED] + 1, "back");
    } else {
        with_poked(r, "entry, (d) broken afterwards", place, (word)1 << 63, "back");
        with_poked(r, "entry, (d) broken afterwards", place, ~(word)0, "back");
    }
    if (kind == SHIFT) return;
    with_poked(r, lent_words(r)[last_entry(r, ENTRY_COUNT)] == MOST_NAMED ? "entry, (d) broken by the twelfth row" : "entry, (d) broken afterwards",
               CONCEDED, more + 1, "back");
    if (one_in(&r->chance, 3)) {
        word before = lent_words(r)[CONCEDED];
        poke(r, CONCEDED, more);
        meets(r, "entry, (d) just kept");
        emit(r, "back");
        poke(r, CONCEDED, before - (conceded ? w : 0));
    }
}

/* The last step, of a rewriting, with its entry broken in each way, then taken back with words in it that do not matter. */
static void spoil_rewriting(struct run *r, bool conceded)
{
    struct chance *c = &r->chance;
    word steps = lent_words(r)[STEPS], count = lent_words(r)[last_entry(r, ENTRY_COUNT)];
    with_poked(r, "entry, kind above 4", last_entry(r, ENTRY_KIND), 5, "back");
    with_poked(r, "entry, kind above 4", last_entry(r, ENTRY_KIND), odd_word(c) | 8, "back");
    spoil_named(r);
    spoil_marks(r);
    spoil_counts(r);
    spoil_new_rows(r);
    spoil_weights(r, conceded);
    if (lent_words(r)[STEPS] < steps) return;
    word odd = odd_word(c);
    if (count < MOST_NAMED) poke(r, last_entry(r, ENTRY_ROWS + count + draw(c) % (MOST_NAMED - count)), odd);
    if (!conceded && one_in(c, 2)) poke(r, last_entry(r, ENTRY_WEIGHT), 0);
    meets(r, "entry, taken as it is");
    emit(r, "back");
}

static void run_decision_entries(struct run *r)
{
    struct chance *c = &r->chance;
    struct draft d = {.variables = between(c, 3, MOST_VARIABLES - 1)};
    add_mixed_rows(c, &d, 5, 9);
    start_desk(r, &d, 2, 0);
    word v = one_in(c, 3) ? 1 : between(c, 1, d.variables), undecided = v % d.variables + 1; /* 1, beside which 65 would be taken for it */
    emit(r, "decide %s%" PRIu64, one_in(c, 2) ? "-" : "", v);
    word bad[] = {0, undecided, d.variables + 1, 64, 65, v + 64, v + 128, ((word)1 << 32) + v, ((word)1 << 63) + v, ~(word)0};
    for (int i = 0; i < 10; i++)
        with_poked(r, "entry, a decision on a variable not decided", last_entry(r, ENTRY_VARIABLE), bad[i], "back");
    with_poked(r, "entry, kind above 4", last_entry(r, ENTRY_KIND), 5, "back");
    with_poked(r, "entry, count wrong for the kind", last_entry(r, ENTRY_KIND), 1, "back");
    poke(r, last_entry(r, ENTRY_VALUE), 7);
    word odd = odd_word(c);
    poke(r, last_entry(r, between(c, 3, 15)), odd);
    meets(r, "entry, taken as it is");
    emit(r, "back");
}

static void run_entries(struct run *r)
{
    struct chance *c = &r->chance;
    struct draft d = {.variables = between(c, 12, MOST_VARIABLES)};
    word k = between(c, 0, MOST_LINKS), rows;
    add_row(&d, pair_row(1, 2), 9);
    add_row(&d, pair_row(-1, 2), 5);
    add_row(&d, unit_row(3), 5);
    add_row(&d, unit_row(-3), 7);
    add_row(&d, unit_row(4), 5);
    add_row(&d, pair_row(-4, 5), 6);
    add_row(&d, unit_row(6), 900);
    add_row(&d, pair_row(-6, 7), 900);
    rows = d.rows;
    add_chain(c, &d, k, 9);
    add_fork(c, &d, one_in(c, 2) ? (word)MOST_LINKS : k, 9);
    start_desk(r, &d, 60, one_in(c, 2));
    emit_rows_from(r, SHIFT, 6, 2); /* so that rows stand between those loaded and the first new one */
    emit_rows_from(r, MERGE, 0, 2);
    spoil_rewriting(r, false);
    emit_rows_from(r, MERGE, 2, 2);
    spoil_rewriting(r, true);
    emit_rows_from(r, SHIFT, 4, 2);
    spoil_rewriting(r, false);
    emit_rows_from(r, CHAIN, rows, k + 2);
    spoil_rewriting(r, true);
    emit_rows_from(r, FORK, rows + k + 2, d.rows - rows - k - 2);
    spoil_rewriting(r, true);
    take_all_back(r);
}

/* --- not well formed --- */

static const char *any_desk_call(struct chance *c)
{
    static const char *const calls[] = {"wellformed", "decide 1", "rewrite 1 0 1", "back", "bound 0", "search 0 9"};
    return calls[draw(c) % 6];
}

static const char *call_by_groups(struct run *r) { return one_in(&r->choices, 2) ? "bound 1" : "search 1 9"; }

static void unformed(struct run *r, const char *name, word index, word value)
{
    with_poked(r, name, index, value, "wellformed");
    with_poked(r, name, index, value, any_desk_call(&r->chance));
    with_poked(r, name, index, value, call_by_groups(r));
}

static void unformed_sums(struct run *r)
{
    const word *d = lent_words(r);
    word all = weights_on_desk(r), conceded = d[CONCEDED], last = last_soft(r);
    with_poked(r, "(d) just kept", CONCEDED, MOST_WEIGHT - all, "wellformed");
    unformed(r, "(d) over by one", CONCEDED, MOST_WEIGHT - all + 1);
    if (all > 0) unformed(r, "(d) wraps", CONCEDED, ~(word)0 - all + 1);
    if (last == d[IN_USE]) return;
    unformed(r, "(d) over by one", row_word(last, WEIGHT), MOST_WEIGHT - all - conceded + d[row_word(last, WEIGHT)] + 1);
    with_poked(r, "(d) just kept", row_word(last, WEIGHT), MOST_WEIGHT - all - conceded + d[row_word(last, WEIGHT)], "wellformed");
    word others = all + conceded - d[row_word(last, WEIGHT)];
    if (others > 0) unformed(r, "(d) wraps", row_word(last, WEIGHT), ~(word)0 - others + 1);
}

/* The bit of one, the last as often as all others. */
static word any_variable(struct chance *c, word variables) { return (word)1 << (one_in(c, 2) ? variables - 1 : draw(c) % variables); }

/* Another fourth word than the two, and a hard row with a weight. */
static void unformed_marks(struct run *r, word row)
{
    static const word marks[] = {2, 3, 255, 256, ((word)1 << 32) + 1, ((word)1 << 63), ~(word)0};
    word weight = lent_words(r)[row_word(row, WEIGHT)];
    unformed(r, "(c) a mark above 1", row_word(row, MARK), marks[draw(&r->chance) % 7]);
    poke(r, row_word(row, WEIGHT), 0);
    unformed(r, "(c) a mark above 1", row_word(row, MARK), 2);
    with_poked(r, "a hard row of no weight", row_word(row, MARK), HARD, "wellformed");
    poke(r, row_word(row, WEIGHT), weight == 0 ? 1 : weight);
    unformed(r, "(c) a hard row with a weight", row_word(row, MARK), HARD);
    poke(r, row_word(row, WEIGHT), weight);
}

static void unformed_rows(struct run *r)
{
    const word *d = lent_words(r);
    word rows[] = {0, d[IN_USE] - 1, draw(&r->chance) % d[IN_USE]};
    for (int i = 0; i < 3; i++) {
        word row = rows[i], bit = any_variable(&r->chance, d[VARIABLES]);
        word positive = d[row_word(row, 0)];
        poke(r, row_word(row, 0), positive | bit);
        unformed(r, "(c) both ways", row_word(row, 1), d[row_word(row, 1)] | bit);
        poke(r, row_word(row, 0), positive);
        unformed_marks(r, row);
        if (d[VARIABLES] == MOST_VARIABLES) continue;
        unformed(r, "(c) above the count", row_word(row, draw(&r->chance) % 2), (word)1 << d[VARIABLES]);
        unformed(r, "(c) above the count", row_word(row, draw(&r->chance) % 2), (word)1 << 63);
    }
    if (d[IN_USE] == d[CAPACITY]) return;
    with_poked(r, "a row not in use is not looked at", row_word(d[IN_USE], WEIGHT), ~(word)0, "wellformed");
    with_poked(r, "a row not in use is not looked at", row_word(d[IN_USE], MARK), 2, "wellformed");
}

static void unformed_masks(struct run *r)
{
    word variables = lent_words(r)[VARIABLES], decided = lent_words(r)[DECIDED];
    for (word v = 0; v < variables; v++) {
        if ((decided >> v & 1) != 0 || !(v == 0 || v == variables - 1 || one_in(&r->chance, 9))) continue;
        unformed(r, "(e) true and not decided", DECIDED_TRUE, lent_words(r)[DECIDED_TRUE] | (word)1 << v);
    }
    if (variables == MOST_VARIABLES) return;
    unformed(r, "(e) decided above the count", DECIDED, decided | (word)1 << variables);
    unformed(r, "(e) decided above the count", DECIDED, decided | (word)1 << 63);
}

/* The desk that stands, of in use rows at least one, broken in each way. */
static void break_desk(struct run *r)
{
    const word *d = lent_words(r);
    word size = desk_size(d[CAPACITY]);
    emit(r, "reach %" PRIu64, size - 1);
    meets(r, "(a) a word too few");
    emit(r, "wellformed");
    meets(r, "(a) a word too few");
    emit(r, "%s", any_desk_call(&r->chance));
    meets(r, "(a) a word too few");
    emit(r, "%s", call_by_groups(r));
    emit(r, "reach %" PRIu64, r->bench.lent_count);
    if (r->bench.lent_count < size + ROW_WORDS) unformed(r, "(a) C too large for the words", CAPACITY, d[CAPACITY] + 1);
    unformed(r, "(a) C over its limit", CAPACITY, MOST_CAPACITY + 1);
    unformed(r, "(a) C over its limit", CAPACITY, ~(word)0 / 3);
    unformed(r, "(b) variables", VARIABLES, MOST_VARIABLES + 1);
    unformed(r, "(b) more loaded than in use", LOADED, d[IN_USE] + 1);
    if (d[IN_USE] > MOST_LOADED) {
        with_poked(r, "(b) most rows loaded", LOADED, MOST_LOADED, "wellformed");
        unformed(r, "(b) too many rows loaded", LOADED, MOST_LOADED + 1);
        unformed(r, "(b) too many rows loaded", LOADED, d[IN_USE]);
        with_poked(r, "(b) too many rows loaded", LOADED, MOST_LOADED + 1, "rewrite 1 0 1");
    }
    if (d[IN_USE] == d[CAPACITY] && d[STEPS] == 0) unformed(r, "(b) more in use than C", IN_USE, d[CAPACITY] + 1);
    unformed(r, "(b) more in use than C", IN_USE, ~(word)0);
    with_poked(r, "(b) most steps", STEPS, MOST_STEPS, "wellformed");
    unformed(r, "(b) one step too many", STEPS, MOST_STEPS + 1);
    unformed_rows(r);
    unformed_sums(r);
    unformed_masks(r);
}

static void run_unformed(struct run *r)
{
    struct chance *c = &r->chance;
    struct draft d = {.variables = one_in(c, 3) ? (word)MOST_VARIABLES : between(c, 2, 63)};
    add_mixed_rows(c, &d, one_in(c, 9) ? (word)MOST_LOADED : between(c, 2, 30), 9);
    harden(c, &d);
    word spare = one_in(c, 2) ? 0 : one_in(c, 2) ? (word)MOST_CAPACITY : between(c, 0, 9), past = one_in(c, 2) ? 0 : 5;
    start_desk(r, &d, spare, past);
    if (one_in(c, 2)) call_many(r, 6);
    break_desk(r);
    call_many(r, 4);
}
