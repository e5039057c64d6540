/* Part of wcnf_texts.c: named ways to break a competition file, each with the refusal that it must earn. Most are a template for one line, in
   which $ is the count of variables, # that of clauses, @ one clause more than any reader takes, ^ top, & the clause's weight, % the first
   variable above the count, 1 a 0 byte.
   A break is met `later` lines behind the one that the template replaces. */

struct competition_damage {
    const char *name;
    const char *template;
    unsigned number;
    int later;
};

static const struct competition_damage header_damages[] = {
    {"no-p", "wcnf $ # ^", 20, 0},               {"capital-p", "P wcnf $ # ^", 20, 0},
    {"no-word", "p $ # ^", 20, 0},               {"cnf", "p cnf $ # ^", 20, 0},
    {"capitals", "p WCNF $ # ^", 20, 0},         {"word-longer", "p wcnfs $ # ^", 20, 0},
    {"word-shorter", "p wcn $ # ^", 20, 0},      {"no-space-before-word", "pwcnf $ # ^", 20, 0},
    {"no-space-after-word", "p wcnf$ # ^", 20, 0}, {"no-numbers", "p wcnf", 20, 0},
    {"no-top", "p wcnf $ #", 20, 0},             {"no-top-but-space", "p wcnf $ # ", 20, 0},
    {"four-numbers", "p wcnf $ # ^ 1", 20, 0},   {"space-first", " p wcnf $ # ^", 20, 0},
    {"space-last", "p wcnf $ # ^ ", 20, 0},      {"tab-before-word", "p\twcnf $ # ^", 20, 0},
    {"tab-between", "p wcnf $\t# ^", 20, 0},     {"tab-last", "p wcnf $ # ^\t", 20, 0},
    {"return", "p wcnf $ # ^\r", 20, 0},         {"plus", "p wcnf +$ # ^", 20, 0},
    {"minus", "p wcnf $ -# ^", 20, 0},           {"variables-leading-zero", "p wcnf 0$ # ^", 20, 0},
    {"clauses-leading-zero", "p wcnf $ 0# ^", 20, 0}, {"top-leading-zero", "p wcnf $ # 0^", 20, 0},
    {"variables-eleven-digits", "p wcnf 10000000000 # ^", 20, 0}, {"clauses-eleven-digits", "p wcnf $ 10000000000 ^", 20, 0},
    {"top-eleven-digits", "p wcnf $ # 10000000000", 20, 0}, {"top-wraps-64", "p wcnf $ # 18446744073709551999", 20, 0},
    {"variables-wrap-64", "p wcnf 18446744073709551618 # ^", 20, 0}, {"eleven-zeros", "p wcnf $ # 00000000000", 20, 0},
    {"letter", "p wcnf $ # ^x", 20, 0},          {"hex", "p wcnf $ # 0x99", 20, 0},
    {"fraction", "p wcnf $ # ^.0", 20, 0},       {"comma", "p wcnf $,#,^", 20, 0},
    {"nul-byte", "p wcnf $ # ^\1", 20, 0},       {"wide-digit", "p wcnf $ # \xef\xbc\x99", 20, 0},
    {"high-bit", "p wcnf $ # \xb9", 20, 0},      {"empty", "", 20, 0},
    {"remark", "p wcnf $ # ^ c", 20, 0},         {"two-lines", "p wcnf $ #\n^", 20, 0},
    {"blank-before", "\np wcnf $ # ^", 20, 0},   {"blank-after", "p wcnf $ # ^\n", 20, 1},
    {"comment-behind", "p wcnf $ # ^\nc", 20, 1}, {"break-before-1", "p wcnf 65 # ^ ", 20, 0},
    {"break-before-2", "p wcnf $ @ -^", 20, 0},  {"variables-65", "p wcnf 65 # ^", 1, 0},
    {"variables-ten-digits", "p wcnf 9999999999 # ^", 1, 0}, {"variables-wrap-32", "p wcnf 4294967298 # ^", 1, 0},
    {"clauses-one-too-many", "p wcnf $ @ ^", 2, 0}, {"clauses-ten-digits", "p wcnf $ 9999999999 ^", 2, 0},
    {"clauses-wrap-32", "p wcnf $ 4294967297 ^", 2, 0}, {"1-before-2", "p wcnf 65 @ 0", 1, 0},
};

static const struct competition_damage clause_damages[] = {
    {"empty", "", 20, 0},                        {"weight-alone", "&", 20, 0},
    {"zero-alone", "0", 20, 0},                  {"no-zero", "& 1 2", 20, 0},
    {"no-zero-but-space", "& 1 2 ", 20, 0},      {"two-zeros", "& 1 0 0", 20, 0},
    {"zero-inside", "& 1 0 2 0", 20, 0},         {"literal-last", "& 0 1", 20, 0},
    {"zero-with-zeros", "& 1 00", 20, 0},        {"space-first", " & 1 0", 20, 0},
    {"space-last", "& 1 0 ", 20, 0},             {"space-alone", " ", 20, 0},
    {"tab", "&\t1 0", 20, 0},                    {"tab-before-zero", "& 1\t0", 20, 0},
    {"tab-last", "& 1 0\t", 20, 0},              {"return", "& 1 0\r", 20, 0},
    {"return-alone", "\r", 20, 0},               {"return-before-zero", "& 1\r0", 20, 0},
    {"minus-zero", "& 1 -0", 20, 0},             {"minus-zero-inside", "& -0 1 0", 20, 0},
    {"plus", "& +1 0", 20, 0},                   {"plus-zero", "& 1 +0", 20, 0},
    {"leading-zero", "& 01 0", 20, 0},           {"minus-leading-zero", "& -01 0", 20, 0},
    {"eleven-digits", "& 10000000000 0", 20, 0}, {"minus-eleven-digits", "& -10000000000 0", 20, 0},
    {"eleven-zeros", "& 00000000001 0", 20, 0},  {"wraps-64", "& 18446744073709551617 0", 20, 0},
    {"minus-alone", "& - 0", 20, 0},             {"minus-space", "& - 1 0", 20, 0},
    {"two-minuses", "& --1 0", 20, 0},           {"minus-after", "& 1- 0", 20, 0},
    {"no-space-before-minus", "& 1-2 0", 20, 0}, {"weight-and-minus", "&-1 0", 20, 0},
    {"comma", "& 1,2 0", 20, 0},                 {"letter", "& x1 0", 20, 0},
    {"nul-byte", "& 1 0\1", 20, 0},              {"nul-byte-inside", "& 1\1 0", 20, 0},
    {"high-bit", "& \xb1 0", 20, 0},             {"wide-digit", "& \xef\xbc\x91 0", 20, 0},
    {"no-break-space", "&\xc2\xa0\x31 0", 20, 0}, {"form-feed", "& 1\f0", 20, 0},
    {"weight-minus", "-& 1 0", 20, 0},           {"weight-plus", "+& 1 0", 20, 0},
    {"weight-leading-zero", "0& 1 0", 20, 0},    {"weight-eleven-digits", "10000000000 1 0", 20, 0},
    {"weight-wraps-64", "18446744073709551617 1 0", 20, 0}, {"weight-fraction", "&.5 1 0", 20, 0},
    {"weight-power", "1e1 1 0", 20, 0},          {"hard-mark", "h 1 0", 20, 0},
    {"comment", "c & 1 0", 20, 0},               {"remark", "& 1 0 c", 20, 0},
    {"blank-before", "\n& 1 0", 20, 0},          {"two-lines", "& 1\n0", 20, 0},
    {"two-clauses", "& 1 0 & 2 0", 20, 0},       {"brackets", "& (1 2) 0", 20, 0},
    {"end-early", "& 0\n1 2", 20, 1},            {"both-ways", "& 1 -1 0", 5, 0},
    {"both-ways-turned", "& -2 1 2 0", 5, 0},    {"both-ways-repeated", "& 1 2 1 2 -1 0", 5, 0},
    {"above", "& % 0", 5, 0},                    {"minus-above", "& 1 -% 0", 5, 0},
    {"above-both-ways", "& % -% 0", 5, 0},       {"sixty-five", "& 65 0", 5, 0},
    {"wraps-8", "& 257 0", 5, 0},                {"wraps-32", "& 4294967297 0", 5, 0},
    {"ten-digits", "& 9999999999 0", 5, 0},      {"minus-ten-digits", "& -9999999999 0", 5, 0},
    {"20-before-5", "& % 1", 20, 0},             {"20-before-5-both-ways", "& 1 -1 0 ", 20, 0},
    {"hard-above", "^ % 0", 5, 0},               {"hard-both-ways", "^ -1 1 0", 5, 0},
    {"hard-no-zero", "^ 1", 20, 0},              {"hard-space-last", "^ 1 0 ", 20, 0},
    {"hard-above-ten-digits", "9999999999 % 0", 5, 0}, {"hard-both-ways-ten-digits", "9999999999 1 -1 0", 5, 0},
    {"weight-zero", "0 1 0", 6, 0},              {"weight-zero-empty", "0 0", 6, 0},
};

/* What the file was made of. */
struct broken {
    struct competition *w;
    struct draft d;
    word top;
};

static void fill_line(const struct broken *b, const char *template, word weight, char *line)
{
    for (; *template != 0; template++) {
        word number = *template == '$' ? b->d.variables : *template == '#' ? b->d.rows : *template == '^' ? b->top : weight;
        if (*template == '%') number = b->d.variables + 1;
        if (*template == '@') number = MOST_LOADED + 1;
        if (strchr("$#@^&%", *template) != NULL) line += sprintf(line, "%" PRIu64, number);
        else *line++ = *template;
    }
    *line = 0;
}

/* The line that is read as this one of `l`, counted from 1. */
static word line_of(const struct broken *b, int index) { return b->w->bare + (word)index + 1; }

static void set_clause(struct broken *b, int clause, const char *template)
{
    fill_line(b, template, b->d.words[ROW_WORDS * clause + WEIGHT], b->w->l.text[b->w->header + 1 + clause]);
}

static void set_header(struct broken *b, const char *template) { fill_line(b, template, 0, b->w->l.text[b->w->header]); }

/* --- the whole file; the result is the place --- */

static word damage_start(struct chance *c, const char *name, struct broken *b)
{
    struct competition *w = b->w;
    (void)c;
    if (strcmp(name, "empty-text") == 0) w->bare = 0, w->l.count = 0;
    else if (strcmp(name, "blank-text") == 0) w->bare = 0, w->l.count = 1, w->l.text[0][0] = 0;
    else if (strcmp(name, "comment-open") == 0) insert_line(&w->l, 0, "c open"), cut(&w->l, 0, 6);
    else if (strcmp(name, "blank-at-start") == 0) insert_line(&w->l, 0, "");
    else if (strcmp(name, "byte-order-mark") == 0) w->bare = 0, insert_line(&w->l, 0, "\xef\xbb\xbf" "c");
    else if (strcmp(name, "space-before-comment") == 0) insert_line(&w->l, 0, " c");
    else if (strcmp(name, "capital-comment") == 0) insert_line(&w->l, 0, "C remark");
    else insert_line(&w->l, 0, "# remark");
    return line_of(b, 0);
}

/* The header, and what stands in its place. */
static word damage_at_header(struct chance *c, const char *name, struct broken *b)
{
    struct lines *l = &b->w->l;
    int at = b->w->header;
    if (strcmp(name, "comments-only") == 0) insert_line(l, at, "c"), l->count = ++at;
    else if (strcmp(name, "header-open") == 0) cut(l, at, strlen(l->text[at]));
    else if (strcmp(name, "header-cut") == 0) cut(l, at, draw(c) % strlen(l->text[at]));
    else if (strcmp(name, "header-missing") == 0) drop_line(l, at);
    else if (strcmp(name, "header-only") == 0) l->count = ++at;
    else if (strcmp(name, "header-last") == 0) insert_line(l, l->count, l->text[at]), drop_line(l, at);
    else if (strcmp(name, "header-again") == 0) insert_line(l, at + 1, l->text[at]), at++;
    else if (strcmp(name, "header-swapped") == 0) swap_lines(l, at, at + 1);
    else if (strcmp(name, "blank-in-comments") == 0) insert_line(l, at, "c"), insert_line(l, ++at, "");
    else if (strcmp(name, "comment-after-header") == 0) insert_line(l, ++at, "c");
    else end_all_in_returns(l);
    return line_of(b, at);
}

static word damage_in_clauses(struct chance *c, const char *name, struct broken *b)
{
    struct lines *l = &b->w->l;
    int last = l->count - 1, at = b->w->header + 1 + (int)(draw(c) % b->d.rows);
    if (strcmp(name, "clause-missing") == 0) l->count = at = last;
    else if (strcmp(name, "clause-open") == 0) cut(l, at = last, strlen(l->text[last]));
    else if (strcmp(name, "clause-cut") == 0) cut(l, at, draw(c) % strlen(l->text[at]));
    else if (strcmp(name, "clause-dropped") == 0) drop_line(l, at), at = last;
    else if (strcmp(name, "clause-again") == 0) insert_line(l, at + 1, l->text[at]), at = last + 1;
    else if (strcmp(name, "comment-in-clauses") == 0) insert_line(l, at, "c");
    else if (strcmp(name, "blank-in-clauses") == 0) insert_line(l, at, "");
    else if (strcmp(name, "count-high") == 0) b->d.rows++, set_header(b, "p wcnf $ # ^"), at = last + 1;
    else b->d.rows--, set_header(b, "p wcnf $ # ^"), at = last;
    return line_of(b, at);
}

static word damage_behind(struct chance *c, const char *name, struct broken *b)
{
    (void)c;
    struct lines *l = &b->w->l;
    word place = line_of(b, l->count);
    if (strcmp(name, "text-twice") == 0) write_twice(l);
    else if (strcmp(name, "clause-surplus") == 0) strcpy(l->tail, "1 1 0\n");
    else if (strcmp(name, "clause-surplus-open") == 0) strcpy(l->tail, "1 1 0");
    else if (strcmp(name, "blank-at-end") == 0) strcpy(l->tail, "\n");
    else if (strcmp(name, "byte-at-end") == 0) strcpy(l->tail, "x");
    else if (strcmp(name, "space-at-end") == 0) strcpy(l->tail, " ");
    else if (strcmp(name, "nul-at-end") == 0) strcpy(l->tail, "\1");
    else if (strcmp(name, "return-at-end") == 0) strcpy(l->tail, "\r");
    else if (strcmp(name, "comment-at-end") == 0) strcpy(l->tail, "c\n");
    else strcpy(l->tail, "%\n0\n");
    return place;
}

/* Two faults, of which one comes first; or one behind hard clauses. */
static word damage_twice(struct chance *c, const char *name, struct broken *b)
{
    static const char open[] = "& 1", above[] = "& % 0", heavy[] = "^ 1 0", surplus[] = "1 1 0\n";
    int first = 0, last = (int)b->d.rows - 1;
    (void)c;
    if (strcmp(name, "5-before-later-20") == 0) set_clause(b, first, above), set_clause(b, last, open);
    else if (strcmp(name, "hard-before-later-5") == 0) set_clause(b, first, heavy), set_clause(b, first = last, above);
    else if (strcmp(name, "20-before-later-5") == 0) set_clause(b, first, open), set_clause(b, last, above);
    else if (strcmp(name, "5-before-surplus") == 0) set_clause(b, first = last, above), strcpy(b->w->l.tail, surplus);
    else if (strcmp(name, "20-before-hard") == 0) set_clause(b, first, open), set_clause(b, last, heavy);
    else if (strcmp(name, "all-hard-before-5") == 0) set_header(b, "p wcnf $ # 0"), set_clause(b, first = last, above);
    else if (strcmp(name, "5-before-missing") == 0) set_clause(b, first, above), b->w->l.count--;
    else if (strcmp(name, "1-before-clauses") == 0) set_header(b, "p wcnf 65 # ^"), set_clause(b, first, open);
    else set_header(b, "p wcnf $ @ ^"), set_clause(b, first, open);
    return strncmp(name, "20", 2) == 0 ? line_of(b, b->w->header + 1) : (word)first;
}

static const struct {
    const char *name;
    unsigned number;
    word (*damage)(struct chance *c, const char *name, struct broken *b);
} file_damages[] = {
    {"empty-text", 20, damage_start},                    {"blank-text", 20, damage_start},
    {"comment-open", 20, damage_start},                  {"blank-at-start", 20, damage_start},
    {"byte-order-mark", 20, damage_start},               {"space-before-comment", 20, damage_start},
    {"capital-comment", 20, damage_start},               {"hash-comment", 20, damage_start},
    {"comments-only", 20, damage_at_header},             {"header-open", 20, damage_at_header},
    {"header-cut", 20, damage_at_header},                {"header-missing", 20, damage_at_header},
    {"header-only", 20, damage_at_header},               {"header-last", 20, damage_at_header},
    {"header-again", 20, damage_at_header},              {"header-swapped", 20, damage_at_header},
    {"blank-in-comments", 20, damage_at_header},         {"comment-after-header", 20, damage_at_header},
    {"all-returns", 20, damage_at_header},
    {"clause-missing", 20, damage_in_clauses},           {"clause-open", 20, damage_in_clauses},
    {"clause-cut", 20, damage_in_clauses},               {"clause-dropped", 20, damage_in_clauses},
    {"clause-again", 20, damage_in_clauses},             {"comment-in-clauses", 20, damage_in_clauses},
    {"blank-in-clauses", 20, damage_in_clauses},         {"count-high", 20, damage_in_clauses},
    {"count-low", 20, damage_in_clauses},
    {"text-twice", 20, damage_behind},                   {"clause-surplus", 20, damage_behind},
    {"clause-surplus-open", 20, damage_behind},          {"blank-at-end", 20, damage_behind},
    {"byte-at-end", 20, damage_behind},                  {"space-at-end", 20, damage_behind},
    {"nul-at-end", 20, damage_behind},                   {"return-at-end", 20, damage_behind},
    {"comment-at-end", 20, damage_behind},               {"percent-at-end", 20, damage_behind},
    {"5-before-later-20", 5, damage_twice},              {"hard-before-later-5", 5, damage_twice},
    {"20-before-later-5", 20, damage_twice},             {"5-before-surplus", 5, damage_twice},
    {"20-before-hard", 20, damage_twice},                {"5-before-missing", 5, damage_twice},
    {"1-before-clauses", 1, damage_twice},               {"2-before-clauses", 2, damage_twice},
    {"all-hard-before-5", 5, damage_twice},
};

enum {
    HEADER_DAMAGES = sizeof header_damages / sizeof *header_damages,
    CLAUSE_DAMAGES = sizeof clause_damages / sizeof *clause_damages,
    FILE_DAMAGES = sizeof file_damages / sizeof *file_damages,
    COMPETITION_DAMAGES = HEADER_DAMAGES + CLAUSE_DAMAGES + FILE_DAMAGES
};

/* --- a file, and one kind of damage --- */

/* A few clauses, now and then with many comments before them, or nearly as many clauses as the front door takes. */
static void make_whole(struct chance *c, struct broken *b)
{
    b->d = (struct draft){.variables = one_in(c, 8) ? (word)MOST_VARIABLES : between(c, 2, 6)};
    add_mixed_rows(c, &b->d, one_in(c, 8) ? MOST_INPUT_ROWS - 1 : between(c, 2, 8), 9);
    harden(c, &b->d);
    b->top = draw_top(c, &b->d);
    competition_of(c, b->w, &b->d, b->top, one_in(c, 2) ? ALL_MANNERS : PLAIN);
    if (b->d.rows < 10 && one_in(c, 6)) b->w->bare = between(c, 1, 30000);
}

/* A line of the template's stands in the file; the result is the place. */
static word damage_line(struct broken *b, const struct competition_damage *how, int index, int clause)
{
    fill_line(b, how->template, clause < 0 ? 0 : b->d.words[ROW_WORDS * clause + WEIGHT], b->w->l.text[index]);
    if (how->number == 20) return line_of(b, index + how->later);
    return clause < 0 ? 0 : (word)clause;
}

/* The kinds are gone through in turn, so that so many files meet each of them. The result is what the front door must refuse it with. */
static struct refusal damage_competition(struct chance *c, int turn, struct competition *w, char *kind)
{
    struct broken b = {.w = w};
    make_whole(c, &b);
    int number = turn % COMPETITION_DAMAGES, clause = (int)(draw(c) % b.d.rows);
    if (number < HEADER_DAMAGES) {
        const struct competition_damage *how = &header_damages[number];
        sprintf(kind, "damage-header-%s", how->name);
        return (struct refusal){how->number, damage_line(&b, how, w->header, -1)};
    }
    number -= HEADER_DAMAGES;
    if (number < CLAUSE_DAMAGES) {
        const struct competition_damage *how = &clause_damages[number];
        sprintf(kind, "damage-clause-%s", how->name);
        return (struct refusal){how->number, damage_line(&b, how, w->header + 1 + clause, clause)};
    }
    number -= CLAUSE_DAMAGES;
    sprintf(kind, "damage-%s", file_damages[number].name);
    return (struct refusal){file_damages[number].number, file_damages[number].damage(c, file_damages[number].name, &b)};
}
