/* Part of second.c: the model against document 01's own examples, and against enumeration on random tables. */

struct tally {
    const char *family;
    int passed, failed;
    int all_passed, all_failed;
};

static void check(struct tally *t, bool right, const char *what)
{
    if (right) {
        t->passed++;
        return;
    }
    if (t->failed++ < 5) printf("  failed in %s: %s\n", t->family, what);
}

static void begin_family(struct tally *t, const char *family)
{
    t->family = family;
    t->passed = t->failed = 0;
}

static void end_family(struct tally *t)
{
    printf("%-44s %7d passed, %d failed\n", t->family, t->passed, t->failed);
    t->all_passed += t->passed;
    t->all_failed += t->failed;
}

/* --- rows and desks written as text: "3: 1 -2 ; 2: -1 ; h: 2" is weight 3 and (1, -2), then weight 2 and (-1), then (2), which is hard --- */

static struct draft draft_from(word variables, const char *rows)
{
    struct draft d = {.variables = variables};
    for (const char *colon; (colon = strchr(rows, ':')) != NULL;) {
        int used, literal;
        struct clause c = {0};
        const char *weight = rows + strspn(rows, " ;");
        for (rows = colon + 1; sscanf(rows, " %d%n", &literal, &used) == 1; rows += used) c.literals[c.count++] = (signed char)literal;
        if (*weight == 'h') add_hard(&d, c);
        else add_row(&d, c, strtoull(weight, NULL, 10));
    }
    return d;
}

static word test_words[MOST_DESK];

/* A table that does not load leaves a desk of no words, on which every check fails. */
static struct lent load_draft(const struct draft *d, word capacity)
{
    struct lent desk = {test_words, desk_size(capacity)};
    if (load(desk, table_of(d), capacity).number != 0) desk.count = 0;
    return desk;
}

static struct lent load_rows(word variables, const char *rows, word capacity)
{
    struct draft d = draft_from(variables, rows);
    return load_draft(&d, capacity);
}

/* The rows in use are those of the text, in its order. A spent one is written with weight 0. */
static bool rows_are(const word *desk, const char *rows)
{
    struct draft d = draft_from(0, rows);
    return desk[IN_USE] == d.rows && memcmp(desk_row(desk, 0), d.words, ROW_WORDS * d.rows * sizeof(word)) == 0;
}

static bool search_gives(struct lent desk, uint32_t budget, bool done, word weight, word reading, word nodes)
{
    struct found f;
    if (search(desk, UNITS, budget, &f).number != 0 || !f.kept) return false;
    return f.done == done && f.weight == weight && f.reading == reading && f.nodes == nodes;
}

static bool stops_with_none(struct lent desk, uint32_t budget)
{
    struct found f;
    return search(desk, UNITS, budget, &f).number == 0 && !f.done && !f.kept && f.nodes == budget;
}

static bool losses_are(struct lent desk, word conceded, word lost, word foreseen)
{
    struct losses b;
    return bound(desk, UNITS, &b).number == 0 && b.conceded == conceded && b.lost == lost && b.foreseen == foreseen;
}

static bool bound_is(struct lent desk, word choice, word value)
{
    struct losses b;
    return bound(desk, choice, &b).number == 0 && b.conceded + b.lost + b.foreseen == value;
}

static bool names_row(const struct group *g, word row)
{
    for (int i = 0; i < g->count; i++)
        if ((word)g->rows[i] == row) return true;
    return false;
}

/* The groups found are those of the text, in its order: "0 1 4, 2 3" is two, each with its rows by rising number. */
static bool groups_are(const word *desk, const char *text)
{
    struct group groups[20];
    char found[1000] = "";
    size_t at = 0;
    int count = groups_found(desk, groups, 20);
    for (int i = 0; i < count; i++)
        for (word r = 0, first = 1; r < desk[IN_USE]; r++) {
            if (!names_row(&groups[i], r)) continue;
            at += (size_t)sprintf(found + at, "%s%" PRIu64, !first ? " " : i > 0 ? ", " : "", r);
            first = 0;
        }
    return strcmp(found, text) == 0;
}

static bool is(struct refusal no, unsigned number, word place) { return no.number == number && no.place == place; }

/* --- P1 to P10 --- */

static const char p4_rows[] = "1: 1; 1: -1 2; 1: -1 -2; 1: -1 3; 1: -1 -3";

static void check_p1_to_p4(struct tally *t)
{
    struct lent d = load_rows(0, "", 0);
    check(t, search_gives(d, MOST_BUDGET, true, 0, 0, 1) && search_gives(d, 1, true, 0, 0, 1), "P1 weight 0, 1 node");
    check(t, stops_with_none(d, 0), "P1 budget 0");
    d = load_rows(1, "3: 1; 2: -1", 2);
    check(t, search_gives(d, 100, true, 2, 1, 3) && losses_are(d, 0, 0, 2), "P2");
    d = load_rows(1, "4: 1; 4: -1", 2);
    check(t, search_gives(d, 100, true, 4, 1, 3), "P3");
    d = load_rows(3, p4_rows, 5);
    check(t, search_gives(d, MOST_BUDGET, true, 1, 6, 11), "P4 done");
    check(t, search_gives(d, 6, false, 2, 7, 6), "P4 budget 6");
    check(t, search_gives(d, 10, false, 1, 6, 10), "P4 budget 10");
    check(t, search_gives(d, 11, true, 1, 6, 11), "P4 budget 11");
    for (word reading = 0; reading < 8; reading += 2)
        check(t, desk_weight(d.words, reading) == 1, "P4, x1 false breaks one");
    decide(d, 1);
    check(t, losses_are(d, 0, 0, 2), "P4, the bound with x1 true is 2");
}

static void check_p5_to_p7(struct tally *t)
{
    static const char rows[] = "3: 1; 5: 2; 2: -1 -2";
    word chain[] = {0, 2, 1}, fork[] = {0, 1, 2, 3}, merge[] = {0, 1};
    struct lent d = load_rows(2, rows, 4);
    check(t, is(rewrite(d, CHAIN, chain, 3), 0, 0), "P5 fits in 4");
    check(t, rows_are(d.words, "1: 1; 3: 2; 0: -1 -2; 2: 1 2") && d.words[CONCEDED] == 2, "P5 rows and conceded");
    check(t, desk_weight(d.words, 0) == 8, "P5 all false weighs 8");
    d = load_rows(2, rows, 3);
    check(t, is(rewrite(d, CHAIN, chain, 3), 15, 0) && rows_are(d.words, rows), "P5 does not fit in 3");
    d = load_rows(3, "1: 1; 1: -1 2; 1: -1 3; 1: -2 -3", 6);
    check(t, is(rewrite(d, FORK, fork, 4), 0, 0) && d.words[CONCEDED] == 1, "P6 concedes 1");
    check(t, rows_are(d.words, "0: 1; 0: -1 2; 0: -1 3; 0: -2 -3; 1: 1 -2 -3; 1: -1 2 3"), "P6 rows");
    d = load_rows(2, "4: 1 2; 1: -1 2", 3);
    check(t, is(rewrite(d, MERGE, merge, 2), 0, 0) && d.words[CONCEDED] == 0, "P7 is taken");
    check(t, rows_are(d.words, "3: 1 2; 0: -1 2; 1: 2"), "P7 rows");
}

static void check_p8_to_p10(struct tally *t)
{
    word merge[] = {0, 1}, loaded[MOST_DESK];
    struct lent d = load_rows(2, "1: 1 2; 1: -2", 2);
    memcpy(loaded, d.words, d.count * sizeof(word));
    check(t, is(decide(d, -1), 0, 0) && is(rewrite(d, MERGE, merge, 2), 0, 0), "P8 steps");
    check(t, d.words[CONCEDED] == 1 && d.words[IN_USE] == 2 && rows_are(d.words, "0: 1 2; 0: -2"), "P8 conceded");
    check(t, desk_weight(d.words, 1) == 1 && desk_weight(loaded, 1) == 0, "P8, the decision withdrawn would cost 1");
    check(t, is(take_back(d), 0, 0) && is(take_back(d), 0, 0), "P8 takings back");
    check(t, memcmp(loaded, d.words, d.count * sizeof(word)) == 0, "P8 restores the load");
    check(t, is(take_back(d), 16, 0), "P8 third");
    d = load_rows(1, "7:", 1);
    check(t, search_gives(d, 100, true, 7, 1, 3), "P9");
    struct draft ten = draft_from(1, "999999999: 1; 1: -1");
    check(t, is(load(d, table_of(&ten), 2), 4, 0), "a desk lent for C = 1 is too short for C = 2");
    d.count = desk_size(2);
    check(t, is(load(d, table_of(&ten), 2), 0, 0), "P10 loads");
    ten = draft_from(1, "1000000000: 1; 1: -1");
    check(t, is(load(d, table_of(&ten), 2), 7, 0), "P10 gives 7");
}

/* --- the text --- */

static bool answers(const char *input, const char *output)
{
    char out[MOST_ANSWER];
    size_t length = program_answer((const unsigned char *)input, strlen(input), out);
    return length == strlen(output) && memcmp(out, output, length) == 0;
}

#define NO_LOSSES "conceded=0\nlost=0\nforeseen=0\n"

static void check_texts(struct tally *t)
{
    check(t, answers("vars=1\nbudget=100\nrows=2\nweight=3\nhard=0\nlits=1\nweight=2\nhard=0\nlits=-1\n",
                     "status=done\nweight=2\nnodes=3\nreading=1\nconceded=0\nlost=0\nforeseen=2\n"), "the whole example");
    check(t, answers("vars=0\nbudget=1\nrows=0\n", "status=done\nweight=0\nnodes=1\nreading=\n" NO_LOSSES), "P1");
    check(t, answers("vars=0\nbudget=0\nrows=0\n", "status=stopped\nweight=none\nnodes=0\nreading=none\n" NO_LOSSES),
          "P1, budget 0");
    check(t, answers("vars=3\nbudget=6\nrows=5\nweight=1\nhard=0\nlits=1\nweight=1\nhard=0\nlits=-1 2\nweight=1\nhard=0\nlits=-1 -2\n"
                     "weight=1\nhard=0\nlits=-1 3\nweight=1\nhard=0\nlits=-1 -3\n", "status=stopped\nweight=2\nnodes=6\nreading=1 2 3\n" NO_LOSSES), "P4");
    check(t, answers("vars=1\nbudget=9\nrows=1\nweight=7\nhard=0\nlits=\n", "status=done\nweight=7\nnodes=3\nreading=1\nconceded=0\nlost=7\nforeseen=0\n"), "P9");
    check(t, answers("", "status=refused\nnumber=20\nplace=1\n"), "empty");
    check(t, answers("vars=1\nbudget=9\nrows=1\nweight=7\nhard=0\nlits=", "status=refused\nnumber=20\nplace=6\n"), "unended");
    check(t, answers("vars=1\nbudget=9\nrows=1\nweight=7\nhard=0\nlits=\n\n", "status=refused\nnumber=20\nplace=7\n"), "surplus");
    check(t, answers("vars=65\nbudget=9\nrows=1\n", "status=refused\nnumber=1\nplace=0\n"), "1 before the rest");
    check(t, answers("vars=1\nbudget=4294967296\nrows=999\n", "status=refused\nnumber=9\nplace=0\n"), "9 before 2");
    check(t, answers("vars=1\nbudget=9\nrows=2\nweight=1\nhard=0\nlits=\nweight=0\nhard=0\nlits=2\n",
                     "status=refused\nnumber=5\nplace=1\n"), "5 before 6, place a row");
    check(t, answers("vars=2\nbudget=9\nrows=2\nweight=1\nhard=0\nlits=\nweight=0\nhard=0\nlits=2\n",
                     "status=refused\nnumber=6\nplace=1\n"), "6");
    static char large[MOST_INPUT + 2];
    memset(large, 'x', MOST_INPUT + 1);
    check(t, answers(large, "status=refused\nnumber=19\nplace=0\n"), "a byte too many");
    large[MOST_INPUT] = 0;
    check(t, answers(large, "status=refused\nnumber=20\nplace=1\n"), "as many bytes as may be");
}

static const word row_limits[] = {MOST_INPUT_ROWS - 1, MOST_INPUT_ROWS, MOST_INPUT_ROWS + 1, MOST_LOADED - 1, MOST_LOADED, MOST_LOADED + 1};
enum { ROW_LIMITS = sizeof row_limits / sizeof *row_limits };

/* A text with so many rows by its heads, or as many as that in it: empty ones of weight 1. */
static const char *text_of_rows(const char *heads, word rows, bool whole)
{
    static char text[60 + 22 * MOST_DRAFTED];
    size_t at = (size_t)sprintf(text, "%srows=%" PRIu64 "\n", heads, rows);
    for (word r = 0; whole && r < rows; r++) at += (size_t)sprintf(text + at, "weight=1\nhard=0\nlits=\n");
    return text;
}

static bool answers_refusal(const char *input, unsigned number, word place)
{
    char output[80];
    sprintf(output, "status=refused\nnumber=%u\nplace=%" PRIu64 "\n", number, place);
    return answers(input, output);
}

static struct refusal read_into(const char *text, word room)
{
    static word words[ROW_WORDS * MOST_LOADED];
    struct header head;
    return read_text((const unsigned char *)text, strlen(text), (struct lent){words, room}, &head);
}

/* The program takes fewer rows than the reader, and refuses more of them where the reader would. */
static void check_row_limits(struct tally *t)
{
    for (int i = 0; i < ROW_LIMITS; i++) {
        word rows = row_limits[i];
        bool read = rows <= MOST_LOADED, answered = rows <= MOST_INPUT_ROWS;
        char output[100];
        sprintf(output, "status=done\nweight=%" PRIu64 "\nnodes=1\nreading=\nconceded=0\nlost=%" PRIu64 "\nforeseen=0\n", rows, rows);
        const char *text = text_of_rows("vars=0\nbudget=1\n", rows, true);
        check(t, is(read_into(text, ROW_WORDS * MOST_LOADED), read ? 0 : 2, 0), "whole, read");
        check(t, answered ? answers(text, output) : answers_refusal(text, 2, 0), "whole, answered");
        text = text_of_rows("vars=0\nbudget=1\n", rows, false);
        check(t, is(read_into(text, ROW_WORDS * MOST_LOADED), read ? 20 : 2, read ? 4 : 0), "2 before 20 in the rows, read");
        check(t, answers_refusal(text, answered ? 20 : 2, answered ? 4 : 0), "2 before 20 in the rows, answered");
        check(t, is(read_into(text, 0), read ? 4 : 2, 0), "2 before 4");
        check(t, answers_refusal(text_of_rows("vars=65\nbudget=1\n", rows, true), 1, 0), "1 before 2");
        check(t, answers_refusal(text_of_rows("vars=0\nbudget=4294967296\n", rows, true), 9, 0), "9 before 2");
        check(t, answers_refusal(text_of_rows("vars=0\nbudget=1\n\n", rows, true), 20, 3), "20 in the heads before 2");
    }
}

static void check_longest_text(struct tally *t)
{
    static char out[MOST_TEXT];
    static struct draft d;
    size_t length = 0;
    draft_longest(&d);
    check(t, is(write_text(table_of(&d), MOST_BUDGET, out, MOST_TEXT, &length), 0, 0) && length == MOST_TEXT, "its length");
    check(t, is(write_text(table_of(&d), MOST_BUDGET, out, MOST_TEXT - 1, &length), 4, 0), "one byte less is 4");
}

/* --- scripts: what is printed, and that the checksum is of the words after the call --- */

static bool prints(struct bench *b, const char *line, const char *answer, word check)
{
    char wanted[100], printed[100] = "";
    FILE *out = tmpfile();
    if (out == NULL || !run_line(b, line, out)) return false;
    rewind(out);
    bool any = fgets(printed, sizeof printed, out) != NULL;
    fclose(out);
    snprintf(wanted, sizeof wanted, "%s %" PRIu64 "\n", answer, check);
    return any && strcmp(wanted, printed) == 0;
}

static void check_scripts(struct tally *t)
{
    word merge[] = {0, 1};
    struct bench b = new_bench();
    struct lent d = load_rows(1, "3: 1; 2: -1", 2);
    word loaded = check_words(d.words, d.count);
    rewrite(d, MERGE, merge, 2);
    word merged = check_words(d.words, d.count), lent = desk_size(2), two[] = {5, 6};
    check(t, check_words(two, 0) == 14695981039346656037u, "the checksum of nothing");
    word once = (14695981039346656037u ^ 5) * 1099511628211u, top = (word)1 << 63;
    check(t, check_words(two, 1) == (once ^ once >> 32), "the checksum of one word");
    word first[] = {7, top, 0, 9}, second[] = {7, 0, top, 9}, both[] = {7, top, top, 9}, none[] = {7, 0, 0, 9};
    check(t, check_words(first, 4) != check_words(second, 4), "the top bit in another word");
    check(t, check_words(both, 4) != check_words(none, 4), "the top bit in two words");
    char line[60];
    sprintf(line, "lend %" PRIu64 " 9", lent);
    check(t, run_line(&b, "table 1 0 3 0 0 1 2 0", NULL) && run_line(&b, line, NULL), "settings");
    check(t, prints(&b, "load 1 2", "ok", loaded) && prints(&b, "bound 0", "0 0 2", loaded), "load and bound");
    check(t, prints(&b, "bound 1", "0 0 2", loaded) && prints(&b, "bound 18446744073709551615", "0 0 2", loaded), "the bound by groups");
    check(t, prints(&b, "search 0 100", "done 2 1 3", loaded) && prints(&b, "search 1 100", "done 2 1 3", loaded), "search");
    check(t, prints(&b, "search 0 0", "stopped none none 0", loaded), "search without a reading");
    check(t, prints(&b, "rewrite 1 0 1", "ok", merged) && prints(&b, "back", "ok", loaded), "merge and taking back");
    check(t, prints(&b, "back", "refused 16 0", loaded) && prints(&b, "weight 1 0", "3 holds", loaded), "a refusal");
    check(t, prints(&b, "wellformed", "yes", loaded), "well formed");
    check(t, run_line(&b, "table 1 0 3 0 0 1 0 1 1 0 0 1", NULL) && prints(&b, "weight 1 0", "3 broken", loaded), "a hard row broken");
    d = load_rows(1, "3: 1; h: -1; h: 1", 3);
    word hard = check_words(d.words, d.count);
    sprintf(line, "lend %" PRIu64 " 9", desk_size(3));
    check(t, run_line(&b, line, NULL) && prints(&b, "load 1 3", "ok", hard) && prints(&b, "search 1 9", "impossible none none 3", hard), "impossible");
    check(t, !run_line(&b, "load 1", NULL) && !run_line(&b, "merge 0 1", NULL), "bad lines");
    check(t, !run_line(&b, "bound", NULL) && !run_line(&b, "search 9", NULL), "no choice of bound");
    check(t, !run_line(&b, "back 1", NULL), "a word too many");
    end_bench(&b);
}

#include "refusals.c"
#include "wcnf_checks.c"
#include "laws.c"
#include "hard_checks.c"
#include "group_laws.c"

static int selftest(void)
{
    struct tally t = {0};
    begin_family(&t, "P1 to P10");
    check_p1_to_p4(&t);
    check_p5_to_p7(&t);
    check_p8_to_p10(&t);
    end_family(&t);
    begin_family(&t, "texts and answers");
    check_texts(&t);
    check_row_limits(&t);
    check_longest_text(&t);
    end_family(&t);
    begin_family(&t, "scripts");
    check_scripts(&t);
    end_family(&t);
    check_competitions(&t);
    check_refusals(&t);
    check_laws(&t);
    check_hard_rows(&t);
    check_group_laws(&t);
    printf("%d passed, %d failed\n", t.all_passed, t.all_failed);
    return t.all_failed == 0 ? 0 : 1;
}
