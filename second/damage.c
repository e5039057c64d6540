/* Part of texts.c: named ways to break a text. A name is the line and what was done to it, or what befell the whole.
   Most are a template for one line, in which K is the line's key, U the key in capitals, N its number, 1 a 0 byte. */

struct damage {
    const char *name;
    const char *template;
};

static const struct damage number_damages[] = {
    {"no-number", "K="},          {"leading-zero", "K=0N"},       {"two-zeros", "K=00"},
    {"plus", "K=+N"},             {"minus", "K=-N"},              {"eleven-digits", "K=N0000000000"},
    {"eleven-zeros", "K=00000000000"}, {"twenty-digits", "K=18446744073709551617"},
    {"space-before", "K= N"},     {"space-after", "K=N "},        {"tab-after", "K=N\t"},
    {"return", "K=N\r"},          {"hex", "K=0x1"},               {"letter", "K=Na"},
    {"fraction", "K=N.0"},        {"power", "K=1e1"},             {"no-equals", "KN"},
    {"two-equals", "K==N"},       {"colon", "K:N"},               {"space-before-equals", "K =N"},
    {"space-first", " K=N"},      {"capitals", "U=N"},            {"key-longer", "Ks=N"},
    {"key-shorter", "vs=N"},      {"no-key", "=N"},               {"other-key", "lits=N"},
    {"nul-byte", "K=N\1"},        {"comma", "K=N,"},              {"two-numbers", "K=N N"},
    {"underscore", "K=1_0"},      {"wide-digit", "K=\xef\xbc\x91"}, {"empty", ""},
    {"blank-before", "\nK=N"},    {"blank-after", "K=N\n"},       {"twice", "K=N\nK=N"},
    {"none", "K=none"},           {"remark", "K=N # N"},          {"high-bit", "K=\xb1"},
};

/* Beside those of any number. */
static const struct damage mark_damages[] = {
    {"two", "hard=2"},            {"ten", "hard=10"},             {"wraps-8", "hard=256"},
    {"wraps-32", "hard=4294967297"}, {"wraps-64", "hard=18446744073709551616"}, {"ten-digits", "hard=9999999999"},
    {"true", "hard=true"},        {"soft", "soft=1"},             {"weight-again", "weight=0"},
};

static const struct damage literal_damages[] = {
    {"two-spaces", "lits=1  2"},  {"space-after", "lits=1 2 "},   {"space-before", "lits= 1 2"},
    {"space-alone", "lits= "},    {"comma", "lits=1,2"},          {"tab", "lits=1\t2"},
    {"return", "lits=1 2\r"},     {"return-alone", "lits=\r"},    {"zero", "lits=0"},
    {"minus-zero", "lits=-0 1"},  {"leading-zero", "lits=01"},    {"minus-leading-zero", "lits=-01"},
    {"plus", "lits=+1"},          {"sixty-five", "lits=65"},      {"minus-sixty-five", "lits=1 -65"},
    {"falling", "lits=2 1"},      {"repeated", "lits=1 1"},       {"both-ways", "lits=1 -1"},
    {"both-ways-turned", "lits=-2 2"}, {"minus-alone", "lits=-"}, {"two-minuses", "lits=--1"},
    {"minus-space", "lits=- 1"},  {"minus-after", "lits=1-"},     {"eleven-digits", "lits=10000000000"},
    {"wraps-64", "lits=18446744073709551617"}, {"wraps-32", "lits=4294967297"}, {"none", "lits=none"},
    {"nul-byte", "lits=1\1"},     {"no-equals", "lits 1"},        {"key", "literals=1"},
    {"empty", ""},                {"weight-key", "weight=1"},     {"blank-after", "lits=1\n"},
    {"twice", "lits=1\nlits=1"},  {"brackets", "lits=(1 2)"},     {"letter", "lits=1 x2"},
};

static const char *const whole_damages[] = {
    "empty-text",     "one-line-end",  "blank-at-end",    "byte-at-end",    "space-at-end",  "nul-at-end",
    "row-too-many",   "row-too-few",   "count-too-high",  "last-line-open", "cut-at-line",   "cut-in-line",
    "cut-before-end", "all-returns",   "byte-order-mark", "heads-swapped",  "row-swapped",   "line-dropped",
    "text-twice",     "heads-only",    "first-line-only", "blank-at-start", "half-row-more", "lines-swapped",
    "cut-after-heads", "mark-missing", "mark-after-lits", "mark-before-weight", "no-marks",
};

enum {
    NUMBER_DAMAGES = sizeof number_damages / sizeof *number_damages,
    MARK_DAMAGES = sizeof mark_damages / sizeof *mark_damages,
    LITERAL_DAMAGES = sizeof literal_damages / sizeof *literal_damages,
    WHOLE_DAMAGES = sizeof whole_damages / sizeof *whole_damages,
    NUMBERED_LINES = HEADS + 2, /* and a row's weight and mark */
    DAMAGES = NUMBERED_LINES * NUMBER_DAMAGES + MARK_DAMAGES + LITERAL_DAMAGES + WHOLE_DAMAGES
};

/* Fills a template from the line it replaces. */
static void fill_template(char *line, const char *template)
{
    char old[MOST_LINE], *number, made[MOST_LINE];
    size_t at = 0;
    strcpy(old, line);
    number = strchr(old, '=');
    *number++ = 0;
    for (; *template != 0; template++) {
        if (*template == 'K') at += (size_t)sprintf(made + at, "%s", old);
        else if (*template == 'N') at += (size_t)sprintf(made + at, "%s", number);
        else if (*template == 'U')
            for (char *p = old; *p != 0; p++) made[at++] = (char)(*p - 'a' + 'A');
        else made[at++] = *template;
    }
    made[at] = 0;
    strcpy(line, made);
}

static void insert_line(struct lines *l, int at, const char *text)
{
    for (int i = l->count; i > at; i--) strcpy(l->text[i], l->text[i - 1]);
    strcpy(l->text[at], text);
    l->count++;
}

static void drop_line(struct lines *l, int at)
{
    for (int i = at; i + 1 < l->count; i++) strcpy(l->text[i], l->text[i + 1]);
    l->count--;
}

static void swap_lines(struct lines *l, int i, int j)
{
    char held[MOST_LINE];
    strcpy(held, l->text[i]);
    strcpy(l->text[i], l->text[j]);
    strcpy(l->text[j], held);
}

/* Ends the text inside a line, after so many of its bytes. */
static void cut(struct lines *l, int line, size_t bytes)
{
    strcpy(l->tail, l->text[line]);
    l->tail[bytes] = 0;
    l->count = line;
}

static void end_all_in_returns(struct lines *l)
{
    for (int i = 0; i < l->count; i++) strcat(l->text[i], "\r");
}

static void write_twice(struct lines *l)
{
    for (int i = 0, once = l->count; i < once; i++) strcpy(l->text[l->count++], l->text[i]);
}

static void damage_end(const char *name, struct lines *l)
{
    if (strcmp(name, "blank-at-end") == 0) strcpy(l->tail, "\n");
    else if (strcmp(name, "byte-at-end") == 0) strcpy(l->tail, "x");
    else if (strcmp(name, "space-at-end") == 0) strcpy(l->tail, " ");
    else if (strcmp(name, "nul-at-end") == 0) strcpy(l->tail, "\1");
    else if (strcmp(name, "row-too-many") == 0) strcpy(l->tail, "weight=1\nhard=0\nlits=\n");
    else if (strcmp(name, "half-row-more") == 0) strcpy(l->tail, "weight=1\n");
    else if (strcmp(name, "row-too-few") == 0) l->count -= ROW_LINES;
    else if (strcmp(name, "count-too-high") == 0) sprintf(l->text[2], "rows=%d", MOST_INPUT_ROWS);
    else if (strcmp(name, "last-line-open") == 0) cut(l, l->count - 1, strlen(l->text[l->count - 1]));
}

/* In one row, which begins on this line, or in all. */
static void damage_marks(const char *name, struct lines *l, int row)
{
    if (strcmp(name, "mark-missing") == 0) drop_line(l, row + MARK_LINE);
    else if (strcmp(name, "mark-after-lits") == 0) swap_lines(l, row + MARK_LINE, row + LITERALS_LINE);
    else if (strcmp(name, "mark-before-weight") == 0) swap_lines(l, row, row + MARK_LINE);
    else
        for (int at = row_line(0) + MARK_LINE; at < l->count; at += ROW_LINES - 1) drop_line(l, at);
}

static void damage_whole(struct chance *c, const char *name, struct lines *l)
{
    int line = (int)(draw(c) % (word)l->count), row = row_line(draw(c) % (word)((l->count - HEADS) / ROW_LINES));
    if (strcmp(name, "empty-text") == 0) l->count = 0;
    else if (strcmp(name, "one-line-end") == 0) l->count = 1, l->text[0][0] = 0;
    else if (strcmp(name, "cut-at-line") == 0) l->count = line;
    else if (strcmp(name, "cut-in-line") == 0) cut(l, line, draw(c) % (strlen(l->text[line]) + 1));
    else if (strcmp(name, "cut-before-end") == 0) cut(l, line, strlen(l->text[line]));
    else if (strcmp(name, "cut-after-heads") == 0) cut(l, HEADS, 0);
    else if (strcmp(name, "all-returns") == 0) end_all_in_returns(l);
    else if (strcmp(name, "byte-order-mark") == 0) strcpy(l->text[0], "\xef\xbb\xbfvars=3");
    else if (strcmp(name, "heads-swapped") == 0) swap_lines(l, line % 3, (line + 1) % 3);
    else if (strcmp(name, "row-swapped") == 0) swap_lines(l, row, row + LITERALS_LINE);
    else if (strcmp(name, "line-dropped") == 0) drop_line(l, line);
    else if (strcmp(name, "text-twice") == 0) write_twice(l);
    else if (strcmp(name, "heads-only") == 0) l->count = HEADS;
    else if (strcmp(name, "first-line-only") == 0) l->count = 1;
    else if (strcmp(name, "blank-at-start") == 0) insert_line(l, 0, "");
    else if (strcmp(name, "lines-swapped") == 0) swap_lines(l, line, line == row ? row + 1 : row);
    else if (strncmp(name, "mark-", 5) == 0 || strcmp(name, "no-marks") == 0) damage_marks(name, l, row);
    else damage_end(name, l);
}

/* The kinds are gone through in turn, so that so many texts meet each of them. Now and then a refusal of the heads is
   added, to be met before or after the damage. */
static void damage_text(struct chance *c, int turn, struct lines *l, char *kind)
{
    static const char *const keys[NUMBERED_LINES] = {"vars", "budget", "rows", "weight", "hard"};
    struct draft d = {.variables = between(c, 2, 6)};
    add_mixed_rows(c, &d, between(c, 1, 7), 9);
    harden(c, &d);
    lines_of(l, &d, between(c, 0, 200));
    int number = turn % DAMAGES, row = row_line(draw(c) % d.rows), line = number % NUMBERED_LINES;
    if (one_in(c, 6)) strcpy(l->text[0], "vars=65");
    if (number < NUMBERED_LINES * NUMBER_DAMAGES) {
        const struct damage *n = &number_damages[number / NUMBERED_LINES];
        if (line < 2) lines_of(l, &d, 100);
        fill_template(l->text[line < HEADS ? line : row + line - HEADS], n->template);
        sprintf(kind, "damage-%s-%s", keys[line], n->name);
        return;
    }
    number -= NUMBERED_LINES * NUMBER_DAMAGES;
    if (number < MARK_DAMAGES) {
        strcpy(l->text[row + MARK_LINE], mark_damages[number].template);
        sprintf(kind, "damage-hard-%s", mark_damages[number].name);
    } else if (number < MARK_DAMAGES + LITERAL_DAMAGES) {
        const struct damage *n = &literal_damages[number - MARK_DAMAGES];
        strcpy(l->text[row + LITERALS_LINE], n->template);
        sprintf(kind, "damage-lits-%s", n->name);
    } else {
        const char *name = whole_damages[number - MARK_DAMAGES - LITERAL_DAMAGES];
        damage_whole(c, name, l);
        sprintf(kind, "damage-%s", name);
    }
}
