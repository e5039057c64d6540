/* Part of selftest.c: competition files: cases by hand, the writer's text read back, one table in every manner, and each kind of damage. */

static unsigned char competition_text[MOST_COMPETITION];
static word competition_words[ROW_WORDS * MOST_LOADED];

static struct refusal read_back(const void *text, size_t length, struct figures *f)
{
    return read_wcnf(text, length, (struct lent){competition_words, ROW_WORDS * MOST_LOADED}, f);
}

static bool reads(const char *text, word variables, const char *rows)
{
    struct figures f;
    struct draft d = draft_from(variables, rows);
    if (read_back(text, strlen(text), &f).number != 0 || f.variables != variables || f.clauses != d.rows) return false;
    return memcmp(competition_words, d.words, ROW_WORDS * d.rows * sizeof(word)) == 0;
}

static bool read_is(const char *text, unsigned number, word place)
{
    struct figures f;
    return is(read_back(text, strlen(text), &f), number, place);
}

static void check_reader_by_hand(struct tally *t)
{
    check(t, reads("p wcnf 0 0 0\n", 0, ""), "nothing at all");
    check(t, reads("c\nc x\np  wcnf   1 2    6\n3  1 0\n2 -1   0\n", 1, "3: 1; 2: -1"), "P2, with comments and gaps");
    check(t, reads("p wcnf 3 1 2\n1 3 -1 2 3 -1 0\n", 3, "1: -1 2 3"), "any order, and twice is once");
    check(t, reads("p wcnf 1 2 1\n0 0\n0 1 0\n", 1, "0:; 0: 1"), "weight 0 and no literals are read");
    check(t, read_is("p wcnf 64 1 9999999999\n9999999998 -64 64 0\n", 5, 0), "64 both ways");
    check(t, reads("p wcnf 64 1 9999999999\n4000000000 64 0\n", 64, "4000000000: 64"), "a weight that load refuses is read");
    check(t, read_is("", 20, 1) && read_is("c", 20, 1) && read_is("c\n", 20, 2) && read_is("p wcnf 0 0 0", 20, 1), "a missing header");
    check(t, read_is("c\nc\np wcnf 1 1\n", 20, 3) && read_is("c\n\np wcnf 0 0 0\n", 20, 2), "a broken header, by its line");
    check(t, read_is("p wcnf 1 2 9\n1 2 0\n1 1\n", 5, 0) && read_is("p wcnf 1 2 9\n1 1 0\n1 1\n", 20, 3), "line by line");
    check(t, read_is("p wcnf 1 1 9\n9 2 0 \n", 20, 2) && read_is("p wcnf 1 1 9\n9 2 0\n", 5, 0), "in one line 20, 5, hard or not");
    check(t, reads("p wcnf 1 3 9\n8 1 0\n9 1 0\n10 -1 0\n", 1, "8: 1; h: 1; h: -1"), "weights below top, at it and above");
    check(t, reads("p wcnf 2 3 1\n9999999999 1 2 0\n1000000001 0\n0 2 0\n", 2, "h: 1 2; h:; 0: 2"), "whatever they are");
    check(t, read_is("p wcnf 1 1 9\n9 2 0\nx", 5, 0) && read_is("p wcnf 1 1 9\n9 1 0\nx", 20, 3), "a surplus line comes last");
    check(t, reads("p wcnf 1 2 0\n0 1 0\n5 0\n", 1, "h: 1; h:"), "top 0 makes every clause hard");
    check(t, read_is("p wcnf 1 1 9\n1 9999999999 0\n", 5, 0) && read_is("p wcnf 1 1 9\n1 10000000000 0\n", 20, 2), "10 digits and 11");
}

static bool door_answers(const char *input, uint32_t budget, const char *output)
{
    char out[MOST_ANSWER];
    size_t length = wcnf_answer((const unsigned char *)input, strlen(input), budget, out);
    return length == strlen(output) && memcmp(out, output, length) == 0;
}

static void check_door(struct tally *t)
{
    static const char p4[] = "p wcnf 3 5 6\n1 1 0\n1 -1 2 0\n1 -1 -2 0\n1 -1 3 0\n1 -1 -3 0\n";
    static char large[MOST_INPUT + 2];
    check(t, door_answers("p wcnf 0 0 1\n", MOST_BUDGET, "c nodes 1\no 0\ns OPTIMUM FOUND\nv\n"), "P1");
    check(t, door_answers("p wcnf 0 0 1\n", 0, "c nodes 0\ns UNKNOWN\n"), "P1, budget 0");
    check(t, door_answers("p wcnf 1 2 6\n3 1 0\n2 -1 0\n", MOST_BUDGET, "c nodes 3\no 2\ns OPTIMUM FOUND\nv 1\n"), "P2");
    check(t, door_answers(p4, MOST_BUDGET, "c nodes 11\no 1\ns OPTIMUM FOUND\nv -1 2 3\n"), "P4");
    check(t, door_answers(p4, 6, "c nodes 6\no 2\ns UNKNOWN\nv 1 2 3\n"), "P4, budget 6");
    check(t, door_answers("p wcnf 1 1 8\n7 0\n", MOST_BUDGET, "c nodes 3\no 7\ns OPTIMUM FOUND\nv 1\n"), "P9");
    check(t, door_answers("c\n", MOST_BUDGET, "c refused: number 20, place 2\ns UNKNOWN\n"), "no header");
    check(t, door_answers("p wcnf 1 1 8\n8 0\n", MOST_BUDGET, "c nodes 1\ns UNSATISFIABLE\n"), "top, and no literals");
    check(t, door_answers("p wcnf 1 2 8\n8 1 0\n9 -1 0\n", MOST_BUDGET, "c nodes 3\ns UNSATISFIABLE\n"), "two that clash");
    check(t, door_answers("p wcnf 1 2 8\n8 1 0\n9 -1 0\n", 2, "c nodes 2\ns UNKNOWN\n"), "two that clash, budget 2");
    check(t, door_answers("p wcnf 1 2 8\n7 1 0\n8 -1 0\n", MOST_BUDGET, "c nodes 3\no 7\ns OPTIMUM FOUND\nv -1\n"), "one that costs");
    check(t, door_answers("p wcnf 1 2 8\n1 0\n0 1 0\n", MOST_BUDGET, "c refused: number 6, place 1\ns UNKNOWN\n"), "weight 0");
    check(t, door_answers("p wcnf 1 2 1000000001\n1000000000 1 0\n1 -1 0\n", MOST_BUDGET, "c refused: number 7, place 0\ns UNKNOWN\n"), "P10");
    memset(large, 'c', MOST_INPUT + 1);
    check(t, door_answers(large, MOST_BUDGET, "c refused: number 19, place 0\ns UNKNOWN\n"), "a byte too many");
    large[MOST_INPUT] = 0;
    check(t, door_answers(large, MOST_BUDGET, "c refused: number 20, place 1\ns UNKNOWN\n"), "as many bytes as may be");
}

/* A file with so many clauses by its header, or as many as that in it: empty ones of weight 1. */
static const char *file_of_clauses(const char *variables, word clauses, bool whole)
{
    static char text[60 + 4 * MOST_DRAFTED];
    size_t at = (size_t)sprintf(text, "p wcnf %s %" PRIu64 " 9\n", variables, clauses);
    for (word i = 0; whole && i < clauses; i++) at += (size_t)sprintf(text + at, "1 0\n");
    return text;
}

static bool door_gives(const char *input, unsigned number, word place)
{
    char output[80];
    sprintf(output, "c refused: number %u, place %" PRIu64 "\ns UNKNOWN\n", number, place);
    return door_answers(input, MOST_BUDGET, output);
}

/* The front door takes fewer clauses than the reader, and refuses more of them where the reader would. */
static void check_clause_limits(struct tally *t)
{
    for (int i = 0; i < ROW_LIMITS; i++) {
        word clauses = row_limits[i];
        bool read = clauses <= MOST_LOADED, answered = clauses <= MOST_INPUT_ROWS;
        char output[80];
        sprintf(output, "c nodes 1\no %" PRIu64 "\ns OPTIMUM FOUND\nv\n", clauses);
        const char *text = file_of_clauses("0", clauses, true);
        check(t, read_is(text, read ? 0 : 2, 0), "whole, read");
        check(t, answered ? door_answers(text, MOST_BUDGET, output) : door_gives(text, 2, 0), "whole, answered");
        text = file_of_clauses("0", clauses, false);
        check(t, read_is(text, read ? 20 : 2, read ? 2 : 0), "2 before 20 in the clauses, read");
        check(t, door_gives(text, answered ? 20 : 2, answered ? 2 : 0), "2 before 20 in the clauses, answered");
        text = file_of_clauses("65", clauses, true);
        check(t, read_is(text, 1, 0) && door_gives(text, 1, 0), "1 before 2");
        text = file_of_clauses("-1", clauses, true);
        check(t, read_is(text, 20, 1) && door_gives(text, 20, 1), "20 in the header before 2");
    }
}

static struct refusal write_draft(const struct draft *d, size_t room, size_t *length)
{
    return write_wcnf(table_of(d), (char *)competition_text, room, length);
}

static bool writes(word variables, const char *rows, const char *text)
{
    struct draft d = draft_from(variables, rows);
    size_t length = 0;
    return write_draft(&d, MOST_TEXT, &length).number == 0 && length == strlen(text) && memcmp(competition_text, text, length) == 0;
}

static bool write_is(word variables, const char *rows, unsigned number, word place)
{
    struct draft d = draft_from(variables, rows);
    size_t length;
    return is(write_draft(&d, 0, &length), number, place);
}

static void check_writer_by_hand(struct tally *t)
{
    static struct draft d;
    size_t length = 0;
    check(t, writes(0, "", "p wcnf 0 0 1\n"), "nothing at all");
    check(t, writes(3, "5: 3 -1; 2:", "p wcnf 3 2 8\n5 -1 3 0\n2 0\n"), "rising, and top is the sum and one");
    check(t, writes(1, "1000000000: 1", "p wcnf 1 1 1000000001\n1000000000 1 0\n"), "the largest top");
    check(t, writes(2, "h: 1; 5: 2; h:; 2: -1", "p wcnf 2 4 8\n8 1 0\n5 2 0\n8 0\n2 -1 0\n"), "hard rows with top");
    check(t, writes(1, "h: 1; h: -1", "p wcnf 1 2 1\n1 1 0\n1 -1 0\n"), "and no soft ones");
    check(t, write_is(65, "0: 1", 1, 0) && write_is(1, "1:; 1: 2", 5, 1) && write_is(1, "1: 1 -1", 5, 0), "1 and 5");
    check(t, write_is(1, "1:; 0: 1", 6, 1) && write_is(1, "1000000001:", 6, 0) && write_is(1, "0:; 1: 2", 6, 0), "6");
    check(t, write_is(1, "1000000000: 1; 1: 1", 7, 0) && write_is(1, "1: 1", 4, 0), "7 and 4");
    draft_longest_file(&d);
    check(t, is(write_draft(&d, MOST_FILE, &length), 0, 0) && length == MOST_FILE, "the longest file");
    check(t, is(write_draft(&d, MOST_FILE - 1, &length), 4, 0), "one byte less is 4");
    add_row(&d, unit_row(1), 1);
    check(t, is(write_draft(&d, 0, &length), 2, 0), "one row too many");
}

/* --- on random tables --- */

/* Whether the bytes read to the draft's table, and not into one word less. */
static bool reads_to(const struct draft *d, size_t length)
{
    struct figures f;
    word count = ROW_WORDS * d->rows, words = count > 0 ? count - 1 : 0;
    memset(competition_words, 0x5a, sizeof competition_words);
    if (count > 0 && !is(read_wcnf(competition_text, length, (struct lent){competition_words, words}, &f), 4, 0)) return false;
    if (read_back(competition_text, length, &f).number != 0 || f.variables != d->variables || f.clauses != d->rows) return false;
    return memcmp(competition_words, d->words, count * sizeof(word)) == 0;
}

static void check_one_table(struct tally *t, struct chance *c, const struct draft *d)
{
    static struct competition w;
    static char written[MOST_TEXT];
    size_t length = 0, again;
    check(t, is(write_wcnf(table_of(d), written, MOST_TEXT, &length), 0, 0), "the writer takes the table");
    check(t, is(write_wcnf(table_of(d), written, length - 1, &again), 4, 0), "one byte less is 4");
    memcpy(competition_text, written, length);
    check(t, reads_to(d, length), "what is written reads back");
    for (unsigned manner = PLAIN; manner <= ALL_MANNERS; manner++) {
        competition_of(c, &w, d, draw_top(c, d), manner);
        check(t, reads_to(d, competition_bytes(&w, competition_text)), "the same table in every manner");
    }
    competition_of(c, &w, d, sum_of_weights(d) + 1, PLAIN);
    again = competition_bytes(&w, competition_text);
    check(t, again == length && memcmp(competition_text, written, length) == 0, "the plain manner is the writer's");
}

static void check_tables(struct tally *t, struct chance *c)
{
    static struct draft d;
    for (int i = 0; i < 450; i++) {
        d = (struct draft){0};
        competition_families[i % 9].draft(c, &d);
        if (sum_of_weights(&d) > MOST_WEIGHT) continue;
        check_one_table(t, c, &d);
    }
}

/* --- damage --- */

static bool door_refuses(size_t length, struct refusal no)
{
    char out[MOST_ANSWER], wanted[100];
    int long_as = snprintf(wanted, sizeof wanted, "c refused: number %u, place %" PRIu64 "\ns UNKNOWN\n", no.number, no.place);
    size_t written = wcnf_answer(competition_text, length, MOST_BUDGET, out);
    return written == (size_t)long_as && memcmp(out, wanted, written) == 0;
}

/* Load's 6 is not the reader's. */
static bool reader_refuses(size_t length, struct refusal no)
{
    struct figures f;
    return is(read_back(competition_text, length, &f), no.number == 6 ? 0 : no.number, no.number == 6 ? 0 : no.place);
}

static void check_damages(struct tally *t, struct chance *c)
{
    static struct competition w;
    static unsigned char before[sizeof competition_words];
    memset(before, 0xa5, sizeof before);
    for (int turn = 0; turn < 8 * COMPETITION_DAMAGES; turn++) {
        char kind[100];
        struct refusal no = damage_competition(c, turn, &w, kind);
        size_t length = competition_bytes(&w, competition_text);
        memset(competition_words, 0xa5, sizeof competition_words);
        check(t, door_refuses(length, no), kind);
        check(t, reader_refuses(length, no), kind);
        check(t, no.number == 6 || memcmp(competition_words, before, sizeof before) == 0, "a refusal writes nothing");
    }
}

static void check_competitions(struct tally *t)
{
    struct chance c = {11};
    begin_family(t, "competition files, by hand");
    check_reader_by_hand(t);
    check_door(t);
    check_clause_limits(t);
    check_writer_by_hand(t);
    end_family(t);
    begin_family(t, "one table in every manner");
    check_tables(t, &c);
    end_family(t);
    begin_family(t, "kinds of damage to a competition file");
    check(t, COMPETITION_DAMAGES >= 40, "fewer than 40 kinds");
    check_damages(t, &c);
    end_family(t);
}
