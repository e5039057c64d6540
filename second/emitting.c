/* Part of runs.c: the lines of a script, each run as it is written; and calls, good and bad, chosen to fit the desk as it stands. */

/* Writes a line of the script and runs it. */
static void emit(struct run *r, const char *form, ...)
{
    char line[400];
    va_list words;
    va_start(words, form);
    vsnprintf(line, sizeof line, form, words);
    va_end(words);
    fprintf(r->out, "%s\n", line);
    if (!run_line(&r->bench, line, NULL)) {
        fprintf(stderr, "a line was made that is not of the language: %s\n", line);
        exit(2);
    }
}

/* The table's line can be long, so that it has a way of its own. */
static void emit_table(struct run *r, const word *words, word count)
{
    char *line = room_for(10 + 21 * count);
    size_t at = (size_t)sprintf(line, "table");
    for (word i = 0; i < count; i++) at += (size_t)sprintf(line + at, " %" PRIu64, words[i]);
    fprintf(r->out, "%s\n", line);
    run_line(&r->bench, line, NULL);
    free(line);
}

static void emit_bytes(struct run *r, const unsigned char *bytes, size_t length)
{
    char *line = room_for(2 * length + 10), *at = line + sprintf(line, "text ");
    for (size_t i = 0; i < length; i++) at += sprintf(at, "%02x", bytes[i]);
    fprintf(r->out, "%s\n", line);
    run_line(&r->bench, line, NULL);
    free(line);
}

static void emit_text(struct run *r, const struct lines *l)
{
    static char line[2 * MOST_LINES * MOST_LINE];
    char *at = line + sprintf(line, "text ");
    for (int i = 0; i < l->count; i++) {
        for (const char *p = l->text[i]; *p != 0; p++) at += sprintf(at, "%02x", *p == 1 ? 0u : (unsigned char)*p);
        at += sprintf(at, "0a");
    }
    for (const char *p = l->tail; *p != 0; p++) at += sprintf(at, "%02x", *p == 1 ? 0u : (unsigned char)*p);
    fprintf(r->out, "%s\n", line);
    run_line(&r->bench, line, NULL);
}

/* A figure, the one below it and the one above it. */
#define BESIDE(figure) (word)(figure) - 1, (figure), (word)(figure) + 1
static const word odd_words[] = {0, 1, 2, 3, 4, 5, 6, MOST_NAMED, BESIDE(MOST_VARIABLES), BESIDE(MOST_STEPS), BESIDE(MOST_LOADED),
                                 BESIDE(MOST_CAPACITY), BESIDE(MOST_WEIGHT), 4294967296, (word)1 << 63, ~(word)0 - 1, ~(word)0};
static word odd_word(struct chance *c) { return odd_words[draw(c) % (sizeof odd_words / sizeof *odd_words)]; }

/* --- under either bound --- */

/* Any number but 0 chooses the bound by groups. */
static word groups_choice(struct run *r)
{
    word odd = odd_word(&r->choices);
    return odd == UNITS || one_in(&r->choices, 2) ? (word)GROUPS : odd;
}

static void emit_bounds(struct run *r)
{
    emit(r, "bound %d", UNITS);
    emit(r, "bound %" PRIu64, groups_choice(r));
}

static void emit_searches(struct run *r, word budget)
{
    emit(r, "search %d %" PRIu64, UNITS, budget);
    emit(r, "search %" PRIu64 " %" PRIu64, groups_choice(r), budget);
}

/* --- good and bad calls --- */

static void start_desk(struct run *r, const struct draft *d, word spare, word past)
{
    word capacity = d->rows + spare > MOST_CAPACITY ? MOST_CAPACITY : d->rows + spare;
    emit_table(r, d->words, ROW_WORDS * d->rows);
    emit(r, "lend %" PRIu64 " %" PRIu64, desk_size(capacity) + past, odd_word(&r->chance));
    emit(r, "load %" PRIu64 " %" PRIu64, d->variables, capacity);
}

static bool desk_stands(const struct run *r) { return well_formed(bench_desk(&r->bench)); }

static void call_decide(struct run *r)
{
    struct chance *c = &r->chance;
    word variables = desk_stands(r) ? r->bench.lent[VARIABLES] : 3;
    if (variables == 0 || one_in(c, 12)) {
        static const char *const bad[] = {"0",   "65",  "-65", "64", "-64", "-9223372036854775808", "9223372036854775807",
                                          "4294967297"};
        emit(r, "decide %s", bad[draw(c) % 8]);
    } else {
        emit(r, "decide %d", draw_literal(c, variables));
    }
}

static void emit_rewrite(struct run *r, word kind, const word *named, word count)
{
    char line[400];
    size_t at = (size_t)sprintf(line, "rewrite %" PRIu64, kind);
    for (word i = 0; i < count; i++) at += (size_t)sprintf(line + at, " %" PRIu64, named[i]);
    emit(r, "%s", line);
}

/* One thing wrong with rows that would fit, or almost. */
static void spoil(struct chance *c, word *kind, word *named, word *count)
{
    word i = draw(c) % *count, j = draw(c) % *count, held = named[i];
    switch (draw(c) % 6) {
    case 0: named[i] = named[j], named[j] = held; break;
    case 1: named[i] = named[j]; break;
    case 2: --*count; break;
    case 3: named[*count] = draw(c) % 8, ++*count; break;
    case 4: named[i] = one_in(c, 2) ? odd_word(c) : draw(c) % 20; break;
    default: *kind = one_in(c, 2) ? odd_word(c) : between(c, 1, 4); break;
    }
}

static void call_any_rewrite(struct run *r)
{
    word named[16], count = between(&r->chance, 0, 13);
    for (word i = 0; i < count; i++) named[i] = one_in(&r->chance, 9) ? odd_word(&r->chance) : draw(&r->chance) % 14;
    emit_rewrite(r, one_in(&r->chance, 3) ? odd_word(&r->chance) : between(&r->chance, 1, 4), named, count);
}

static void call_fitting_rewrite(struct run *r, word kind)
{
    word named[16], count;
    if (!desk_stands(r) || !find_fitting(r->bench.lent, &r->chance, kind, named, &count)) {
        if (one_in(&r->chance, 4)) call_any_rewrite(r);
        return;
    }
    if (one_in(&r->chance, 7)) spoil(&r->chance, &kind, named, &count);
    emit_rewrite(r, kind, named, count);
}

/* Of many rows a node takes long, the more so by groups. */
static void call_to_search(struct run *r)
{
    struct chance *c = &r->chance;
    bool stands = desk_stands(r), small = stands && r->bench.lent[VARIABLES] <= 9, long_taking = stands && r->bench.lent[IN_USE] > MOST_INPUT_ROWS;
    word budget = small && one_in(c, 2) ? MOST_BUDGET : one_in(c, 2) ? between(c, 0, 14) : between(c, 0, 120);
    emit_searches(r, long_taking ? budget % 4 : budget);
}

static void call_to_weigh(struct run *r)
{
    struct chance *c = &r->chance;
    word variables = one_in(c, 8) ? odd_word(c) : desk_stands(r) ? r->bench.lent[VARIABLES] : 3;
    word reading = draw(c);
    if (variables < MOST_VARIABLES && !one_in(c, 8)) reading %= (word)1 << variables;
    emit(r, "weight %" PRIu64 " %" PRIu64, variables, reading);
}

static void call_any(struct run *r)
{
    switch (draw(&r->chance) % 20) {
    case 0: case 1: call_decide(r); break;
    case 2: case 3: case 4: call_fitting_rewrite(r, MERGE); break;
    case 5: case 6: call_fitting_rewrite(r, SHIFT); break;
    case 7: case 8: case 9: call_fitting_rewrite(r, CHAIN); break;
    case 10: case 11: case 12: call_fitting_rewrite(r, FORK); break;
    case 13: call_any_rewrite(r); break;
    case 14: case 15: case 16: emit(r, "back"); break;
    case 17: emit_bounds(r); break;
    case 18: call_to_search(r); break;
    default:
        if (one_in(&r->chance, 2)) emit(r, "wellformed");
        else call_to_weigh(r);
    }
}

static void call_many(struct run *r, word calls)
{
    for (; calls > 0; calls--) call_any(r);
}

static void take_all_back(struct run *r)
{
    for (word i = desk_stands(r) ? r->bench.lent[STEPS] + 1 : 2; i > 0; i--) emit(r, "back");
}
