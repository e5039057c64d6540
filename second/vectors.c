/* Part of second.c: runs the vectors of the source documents. The form of a line is explained at the top of vectors.txt. */

enum { VECTOR_FIELDS = 6, LEAST_VECTORS = 117 };
static const char *const vector_kinds[] = {"decide", "merge", "shift", "chain", "fork"};

static char *without_spaces(char *text)
{
    while (*text == ' ') text++;
    for (size_t n = strlen(text); n > 0 && text[n - 1] == ' '; n--) text[n - 1] = 0;
    return text;
}

/* Cuts the text in place; returns how many parts there are, at most `most`. */
static int cut_into(char *text, char mark, char **parts, int most)
{
    int count = 0;
    while (text != NULL && count < most) {
        char *end = strchr(text, mark);
        if (end != NULL) *end++ = 0;
        parts[count++] = without_spaces(text);
        text = end;
    }
    return count;
}

static bool begins(const char *text, const char *with) { return strncmp(text, with, strlen(with)) == 0; }

/* The kind of a step and what stands behind it; above FORK where there is none. */
static word kind_of(const char **step)
{
    for (word kind = DECIDE; kind <= FORK; kind++) {
        if (!begins(*step, vector_kinds[kind])) continue;
        *step += strlen(vector_kinds[kind]);
        return kind;
    }
    return FORK + 1;
}

static bool take_vector_step(struct lent d, const char *step)
{
    word named[16], kind = kind_of(&step), count = 0;
    if (kind > FORK) return false;
    if (kind == DECIDE) return decide(d, atoi(step)).number == 0;
    char *end;
    for (word row = strtoull(step, &end, 10); end != step && count < 16; row = strtoull(step, &end, 10)) {
        named[count++] = row;
        step = end;
    }
    return rewrite(d, kind, named, count).number == 0;
}

static bool is_left(const word *desk, word row, struct clause *remnant)
{
    struct partial p = standing(desk);
    struct clause c = clause_of(desk_row(desk, row));
    *remnant = remnant_of(&c, &p);
    bool spent = desk_row(desk, row)[WEIGHT] == 0 && !is_hard(desk_row(desk, row));
    return !is_satisfied(&c, &p) && !spent && remnant->count > 0;
}

/* Crosses out of the draft one row with this remnant, and the weight or mark of a row. */
static bool cross_out(struct draft *d, const struct clause *remnant, const word *as)
{
    word row[ROW_WORDS];
    if (is_hard(as)) put_hard(row, remnant);
    else put_clause(row, remnant, as[WEIGHT]);
    for (word r = 0; r < d->rows; r++) {
        if (memcmp(d->words + ROW_WORDS * r, row, sizeof row) != 0) continue;
        d->rows--;
        memmove(d->words + ROW_WORDS * r, d->words + ROW_WORDS * d->rows, sizeof row);
        return true;
    }
    return false;
}

static bool formula_is(const word *desk, char *rows)
{
    for (char *p = rows; *p != 0; p++)
        if (*p == ',') *p = ';';
    struct draft d = draft_from(0, rows);
    for (word r = 0; r < desk[IN_USE]; r++) {
        struct clause remnant;
        if (is_left(desk, r, &remnant) && !cross_out(&d, &remnant, desk_row(desk, r))) return false;
    }
    return d.rows == 0;
}

static word least_weight(struct lent d, bool *agreed)
{
    struct found f;
    word weight = 0, reading;
    search(d, UNITS, MOST_BUDGET, &f);
    bool any = least_by_enumeration(d.words, &weight, &reading);
    *agreed = any && f.done && f.kept && f.weight == weight && f.reading == reading;
    return weight;
}

static bool none_is_found(struct lent d)
{
    struct found f;
    word weight, reading;
    return !least_by_enumeration(d.words, &weight, &reading) && search(d, UNITS, MOST_BUDGET, &f).number == 0 && f.done && !f.kept;
}

static word reading_from(const char *literals)
{
    word reading = 0;
    int literal, used;
    for (; sscanf(literals, " %d%n", &literal, &used) == 1; literals += used)
        if (literal > 0) reading |= (word)1 << (literal - 1);
    return reading;
}

static bool result_holds(struct lent d, char *result)
{
    const word *w = d.words;
    unsigned n, row;
    char *equals = strchr(result, '=');
    bool agreed;
    if (sscanf(result, "conceded %u", &n) == 1) return w[CONCEDED] == n;
    if (sscanf(result, "lost %u", &n) == 1) return lost(w) == n;
    if (sscanf(result, "bound %u", &n) == 1) return bound_is(d, UNITS, n);
    if (sscanf(result, "groups %u", &n) == 1) return bound_is(d, GROUPS, n);
    if (begins(result, "found ")) return groups_are(w, result + 6);
    if (sscanf(result, "least %u", &n) == 1) return least_weight(d, &agreed) == n && agreed;
    if (sscanf(result, "atleast %u", &n) == 1) return least_weight(d, &agreed) >= n && agreed;
    if (sscanf(result, "row %u %u", &row, &n) == 2) return row < w[IN_USE] && desk_row(w, row)[WEIGHT] == n;
    if (begins(result, "weigh ") && equals != NULL)
        return desk_weight(w, reading_from(result + 6)) == strtoull(equals + 1, NULL, 10);
    if (begins(result, "formula ")) return formula_is(w, result + 8);
    if (begins(result, "breaks ")) return !desk_holds(w, reading_from(result + 7));
    if (begins(result, "holds ")) return desk_holds(w, reading_from(result + 6));
    if (strcmp(result, "impossible") == 0) return none_is_found(d);
    return false;
}

/* The first thing that does not hold, or NULL. */
static const char *run_vector(char **fields)
{
    char *parts[40];
    struct draft d = draft_from(strtoull(fields[2], NULL, 10), fields[3]);
    if (load((struct lent){test_words, MOST_DESK}, table_of(&d), 100).number != 0) return "the rows do not load";
    struct lent desk = {test_words, desk_size(100)};
    int count = *fields[4] == 0 ? 0 : cut_into(fields[4], ';', parts, 40);
    for (int i = 0; i < count; i++)
        if (!take_vector_step(desk, parts[i])) return parts[i];
    count = cut_into(fields[5], ';', parts, 40);
    for (int i = 0; i < count; i++)
        if (!result_holds(desk, parts[i])) return parts[i];
    return NULL;
}

/* The calls of a vector as a script, and the desk after them. */
static void write_script(char **fields, FILE *out)
{
    char *steps[40];
    struct draft d = draft_from(strtoull(fields[2], NULL, 10), fields[3]);
    int count = *fields[4] == 0 ? 0 : cut_into(fields[4], ';', steps, 40);
    fputs("table", out);
    for (word i = 0; i < ROW_WORDS * d.rows; i++) fprintf(out, " %" PRIu64, d.words[i]);
    fprintf(out, "\nlend %" PRIu64 " 1\nload %" PRIu64 " 100\n", desk_size(100), d.variables);
    for (int i = 0; i < count; i++) {
        const char *step = steps[i];
        word kind = kind_of(&step);
        if (kind == DECIDE) fprintf(out, "decide%s\n", step);
        else fprintf(out, "rewrite %" PRIu64 "%s\n", kind, step);
    }
    fprintf(out, "bound 0\nbound 1\nsearch 0 %u\nsearch 1 %u\nwords 0 %" PRIu64 "\n", MOST_BUDGET, MOST_BUDGET, desk_size(100));
}

/* The next vector's fields, or false at the end. A line with fewer fields leaves the last ones empty. */
static bool next_vector(char **text, char **fields)
{
    static char nothing[1];
    while (*text != NULL) {
        char *line = *text;
        *text = strchr(line, '\n');
        if (*text != NULL) *(*text)++ = 0;
        if (*line == 0 || *line == '#') continue;
        for (int f = 0; f < VECTOR_FIELDS; f++) fields[f] = nothing;
        cut_into(line, '|', fields, VECTOR_FIELDS);
        return true;
    }
    return false;
}

static int check_vectors(char *text)
{
    int passed = 0, failed = 0;
    char *fields[VECTOR_FIELDS];
    while (next_vector(&text, fields)) {
        const char *wrong = *fields[5] == 0 ? "a line needs six fields" : run_vector(fields);
        if (wrong == NULL) passed++;
        else failed++;
        if (wrong != NULL) printf("%s, %s: %s\n", fields[0], fields[1], wrong);
    }
    if (passed + failed < LEAST_VECTORS) {
        printf("there are %d vectors, and %d are to be\n", passed + failed, LEAST_VECTORS);
        failed++;
    }
    printf("%d passed, %d failed\n", passed, failed);
    return failed == 0 ? 0 : 1;
}

static int write_scripts(char *text, const char *dir)
{
    char *fields[VECTOR_FIELDS];
    for (int i = 0; next_vector(&text, fields); i++) {
        FILE *out = open_case(dir, i, "vector", "run");
        if (out == NULL) return 2;
        write_script(fields, out);
        fclose(out);
    }
    return 0;
}
