/* Part of second.c: scripts that read and write competition files, each of them one of wcnf_texts.c's, into words and bytes that just hold
   what comes, or hold too little, or more. */

/* Into just enough words for so many clauses, into one less, and into more. */
static void emit_readings(struct run *r, word clauses)
{
    const char *how_many = clauses > MOST_LOADED ? "too many clauses" : clauses == MOST_LOADED ? "most clauses"
                           : clauses > MOST_INPUT_ROWS ? "more clauses than the front door takes" : "few clauses";
    word words = ROW_WORDS * (clauses > MOST_LOADED ? MOST_LOADED : clauses), fill = odd_word(&r->chance);
    meets(r, "just room");
    emit(r, "readwcnf %" PRIu64 " %" PRIu64, words, fill);
    if (words > 0) {
        meets(r, "a word short of room");
        emit(r, "readwcnf %" PRIu64 " %" PRIu64, words - 1, fill);
    }
    meets(r, how_many);
    emit(r, "readwcnf %" PRIu64 " %" PRIu64, words + draw(&r->chance) % 9, fill);
}

/* The table as it was read, for its own count of variables and others. What is written is read again. */
static void emit_writings(struct run *r, word variables, const word *words, word count)
{
    static char out[MOST_TEXT];
    size_t length = 0;
    struct chance *c = &r->chance;
    emit_table(r, words, count);
    bool whole = write_wcnf((struct table){variables, words, count}, out, sizeof out, &length).number == 0;
    emit(r, "writewcnf %" PRIu64 " %zu 170", variables, length + draw(c) % 9);
    word others = one_in(c, 2) ? between(c, 0, 66) : odd_word(c);
    emit(r, "writewcnf %" PRIu64 " %" PRIu64 " 170", others, one_in(c, 2) ? 0 : text_room(count / ROW_WORDS));
    if (!whole) return;
    meets(r, "just room");
    emit(r, "writewcnf %" PRIu64 " %zu 170", variables, length);
    meets(r, "a byte short of room");
    emit(r, "writewcnf %" PRIu64 " %zu 170", variables, length - 1);
    emit_bytes(r, (unsigned char *)out, length);
    emit_readings(r, count / ROW_WORDS);
}

/* One of a row; a row without a weight is hard, at times. */
static word odd_table_word(struct chance *c, word which, word weight)
{
    if (one_in(c, 40)) return odd_word(c);
    if (which == WEIGHT) return one_in(c, 9) ? 0 : between(c, 1, 9);
    if (which == MARK) return weight == 0 && !one_in(c, 9) ? HARD : SOFT;
    return draw(c) % 4 & (which + 1);
}

/* Tables that no reader gives: words that are no rows, too many rows, and rows as they come. */
static void emit_odd_table(struct run *r)
{
    static word words[ROW_WORDS * MOST_DRAFTED];
    struct chance *c = &r->chance;
    word variables = between(c, 2, 65), count = one_in(c, 4) ? between(c, ROW_WORDS * (MOST_LOADED - 1), ROW_WORDS * (MOST_LOADED + 2)) : draw(c) % 30;
    for (word i = 0; i < count; i++) words[i] = odd_table_word(c, i % ROW_WORDS, i % ROW_WORDS == MARK ? words[i - 1] : 0);
    emit_table(r, words, count);
    emit(r, "writewcnf %" PRIu64 " %" PRIu64 " 85", variables, one_in(c, 9) ? 9 : text_room(count / ROW_WORDS));
}

static int generate_competition_runs(word seed, int count, const char *dir)
{
    static struct competition w;
    static unsigned char bytes[MOST_COMPETITION];
    static word words[ROW_WORDS * MOST_LOADED];
    struct run r = {.chance = {seed}};
    struct figures f;
    char kind[100];
    for (int i = 0; i < count; i++) {
        make_competition(&r.chance, i, &w, kind);
        size_t length = competition_bytes(&w, bytes);
        r.out = open_case(dir, i, kind, "run");
        if (r.out == NULL) return 2;
        r.bench = new_bench();
        emit_bytes(&r, bytes, length);
        emit_readings(&r, w.l.count > w.header ? (word)(w.l.count - w.header - 1) : 0);
        bool read = read_wcnf(bytes, length, (struct lent){words, ROW_WORDS * MOST_LOADED}, &f).number == 0;
        if (read) emit_writings(&r, f.variables, words, ROW_WORDS * f.clauses);
        if (one_in(&r.chance, 4)) emit_odd_table(&r);
        end_bench(&r.bench);
        fclose(r.out);
    }
    return 0;
}
