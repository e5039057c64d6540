/* Part of second.c: scripts of calls on one desk.

   A script is lines of words parted by spaces. Numbers are decimal, 0 to 2^64 - 1; the literal of `decide` is signed,
   -2^63 to 2^63 - 1. A line that is empty or begins with # is passed over. Words or bytes lent are at most 1,000,000.

   Settings, which print nothing:
     table W...            the table's words from here on (any count, none too)
     text HEX              the text's bytes from here on, two digits each (0 to 9, a to f); `text` alone is the empty text
     lend COUNT FILL       lends COUNT words, each FILL
     reach COUNT           calls are lent only the first COUNT of them (at most all); `lend` ends this
     poke INDEX VALUE      sets one of the lent words

   Calls, which print one line each:
     load VARS C           the table onto the lent words
     wellformed
     decide LITERAL
     rewrite KIND ROW...   (any count, none too)
     back                  taking back
     bound CHOICE          (0 for document 01's, any other number for that by groups)
     search CHOICE BUDGET  (budget 0 to 4,294,967,295)
     weight VARS READING   of the table
     read ROOM FILL        the text into ROOM words, each FILL before
     write VARS BUDGET ROOM FILL   the table into ROOM bytes, each FILL (0 to 255) before
     readwcnf ROOM FILL    the text, as a competition file, into ROOM words, each FILL before
     writewcnf VARS ROOM FILL   the table, as a competition file, into ROOM bytes, each FILL before
     answer ROOM FILL      the program's answer to the text into ROOM bytes, each FILL before
     words FROM TO         prints `words` and the lent words FROM to TO - 1, and no checksum

   A line printed is the answer and then a checksum:
     ok CHECK                              load, decide, rewrite, back
     yes CHECK, no CHECK                   wellformed
     WEIGHT holds CHECK                    weight; or broken, where a hard row does not hold
     CONCEDED LOST FORESEEN CHECK          bound; lost: beyond conceded
     done WEIGHT READING NODES CHECK       search; or stopped or impossible; weight and reading may be `none`
     ok VARS BUDGET ROWS CHECK             read
     ok VARS CLAUSES CHECK                 readwcnf
     ok LENGTH CHECK                       write, writewcnf, answer
     refused NUMBER PLACE CHECK            any of them
   The checksum is over all the words lent, those out of reach and past the desk too; for the readers over their ROOM words,
   for the writers and answer over their ROOM bytes. It starts at 14695981039346656037; each word (or byte)
   in turn is xored in, the result multiplied by 1099511628211, modulo 2^64, and its upper half xored into its lower. */

enum { MOST_LENT = 1000000 };

struct bench {
    word *table, *lent;
    word table_count, lent_count, reach;
    unsigned char *text;
    size_t text_length;
};

/* The words of a line not yet taken. */
struct line {
    const char *at;
    bool broken;
};

static void *room_for(size_t bytes)
{
    void *p = malloc(bytes == 0 ? 1 : bytes);
    if (p == NULL) {
        fputs("no memory\n", stderr);
        exit(2);
    }
    return p;
}

/* All bytes of a stream, with a 0 behind them. */
static char *read_all(FILE *in, size_t *length)
{
    size_t room = 1 << 16;
    char *bytes = room_for(room);
    *length = 0;
    for (;;) {
        size_t got = fread(bytes + *length, 1, room - 1 - *length, in);
        *length += got;
        if (got == 0) break;
        if (*length == room - 1) {
            room *= 2;
            bytes = realloc(bytes, room);
            if (bytes == NULL) exit(2);
        }
    }
    bytes[*length] = 0;
    return bytes;
}

static bool at_end(struct line *l)
{
    while (*l->at == ' ') l->at++;
    return *l->at == 0;
}

static word next_number(struct line *l)
{
    char *end;
    errno = 0;
    if (at_end(l) || *l->at == '-') {
        l->broken = true;
        return 0;
    }
    word value = strtoull(l->at, &end, 10);
    if (end == l->at || (*end != ' ' && *end != 0) || errno != 0) l->broken = true;
    l->at = end;
    return value;
}

static int64_t next_literal(struct line *l)
{
    char *end;
    errno = 0;
    if (at_end(l)) l->broken = true;
    int64_t value = strtoll(l->at, &end, 10);
    if (end == l->at || (*end != ' ' && *end != 0) || errno != 0) l->broken = true;
    l->at = end;
    return value;
}

/* All numbers left on the line. */
static word *rest_of(struct line *l, word *count)
{
    size_t most = strlen(l->at) / 2 + 1;
    word *words = room_for(most * sizeof *words);
    *count = 0;
    while (!l->broken && !at_end(l)) words[(*count)++] = next_number(l);
    return words;
}

static word check_start(void) { return 14695981039346656037u; }
static word check_more(word check, word value)
{
    check = (check ^ value) * 1099511628211u;
    return check ^ check >> 32;
}

static word check_words(const word *words, word count)
{
    word check = check_start();
    for (word i = 0; i < count; i++) check = check_more(check, words[i]);
    return check;
}

static void show(FILE *out, const char *text, word check)
{
    if (out != NULL) fprintf(out, "%s %" PRIu64 "\n", text, check);
}

static void show_refusal(FILE *out, struct refusal no, word check)
{
    if (out != NULL) fprintf(out, "refused %u %" PRIu64 " %" PRIu64 "\n", no.number, no.place, check);
}

static void show_outcome(FILE *out, struct refusal no, const char *text, word check)
{
    if (no.number != 0) show_refusal(out, no, check);
    else show(out, text, check);
}

static word bench_check(const struct bench *b) { return check_words(b->lent, b->lent_count); }
static struct lent bench_desk(const struct bench *b) { return (struct lent){b->lent, b->reach}; }

/* For calls that change the desk: the checksum is of the words after it, so the call has to be over. */
static void show_change(FILE *out, struct refusal no, const struct bench *b)
{
    show_outcome(out, no, "ok", bench_check(b));
}

/* -1 for what is no digit. */
static int hex_digit(char c)
{
    if (c >= '0' && c <= '9') return c - '0';
    return c >= 'a' && c <= 'f' ? c - 'a' + 10 : -1;
}

static void set_text(struct bench *b, struct line *l)
{
    at_end(l);
    size_t digits = strlen(l->at);
    if (digits % 2 != 0) l->broken = true;
    free(b->text);
    b->text = room_for(digits / 2);
    b->text_length = digits / 2;
    for (size_t i = 0; i < digits / 2; i++) {
        int high = hex_digit(l->at[2 * i]), low = hex_digit(l->at[2 * i + 1]);
        if (high < 0 || low < 0) l->broken = true;
        b->text[i] = (unsigned char)(16 * high + low);
    }
    l->at += digits;
}

static void set_lent(struct bench *b, word count, word fill)
{
    free(b->lent);
    b->lent = room_for(count * sizeof *b->lent);
    b->lent_count = b->reach = count;
    for (word i = 0; i < count; i++) b->lent[i] = fill;
}

static bool run_setting(struct bench *b, const char *name, struct line *l)
{
    if (strcmp(name, "table") == 0) {
        free(b->table);
        b->table = rest_of(l, &b->table_count);
    } else if (strcmp(name, "text") == 0) {
        set_text(b, l);
    } else if (strcmp(name, "lend") == 0) {
        word count = next_number(l), fill = next_number(l);
        if (count > MOST_LENT) l->broken = true;
        else set_lent(b, count, fill);
    } else if (strcmp(name, "reach") == 0) {
        word count = next_number(l);
        if (count > b->lent_count) l->broken = true;
        else b->reach = count;
    } else if (strcmp(name, "poke") == 0) {
        word index = next_number(l), value = next_number(l);
        if (index >= b->lent_count) l->broken = true;
        else b->lent[index] = value;
    } else {
        return false;
    }
    return true;
}

static void call_search(struct bench *b, struct line *l, FILE *out)
{
    struct found f;
    word choice = next_number(l), budget = next_number(l);
    if (budget > MOST_BUDGET) l->broken = true;
    if (l->broken) return;
    struct refusal no = search(bench_desk(b), choice, (uint32_t)budget, &f);
    if (no.number != 0) {
        show_refusal(out, no, bench_check(b));
        return;
    }
    char text[100];
    if (f.kept)
        snprintf(text, sizeof text, "%s %" PRIu64 " %" PRIu64 " %" PRIu64, status_of(&f), f.weight, f.reading, f.nodes);
    else snprintf(text, sizeof text, "%s none none %" PRIu64, status_of(&f), f.nodes);
    show(out, text, bench_check(b));
}

static void call_bound(struct bench *b, struct line *l, FILE *out)
{
    struct losses got = {0, 0, 0};
    char text[80];
    word choice = next_number(l);
    if (l->broken) return;
    struct refusal no = bound(bench_desk(b), choice, &got);
    snprintf(text, sizeof text, "%" PRIu64 " %" PRIu64 " %" PRIu64, got.conceded, got.lost, got.foreseen);
    show_outcome(out, no, text, bench_check(b));
}

static void call_weighing(struct bench *b, struct line *l, FILE *out)
{
    struct weighed w = {0, false};
    word variables = next_number(l), reading = next_number(l);
    char text[32];
    struct refusal no = weigh((struct table){variables, b->table, b->table_count}, reading, &w);
    snprintf(text, sizeof text, "%" PRIu64 " %s", w.weight, w.holds ? "holds" : "broken");
    show_outcome(out, no, text, bench_check(b));
}

static void call_rewrite(struct bench *b, struct line *l, FILE *out)
{
    word kind = next_number(l), count;
    word *named = rest_of(l, &count);
    if (!l->broken) show_change(out, rewrite(bench_desk(b), kind, named, count), b);
    free(named);
}

#include "script_texts.c"

static void call_words(struct bench *b, struct line *l, FILE *out)
{
    word from = next_number(l), to = next_number(l);
    if (l->broken || from > to || to > b->lent_count) {
        l->broken = true;
        return;
    }
    if (out == NULL) return;
    fputs("words", out);
    for (word i = from; i < to; i++) fprintf(out, " %" PRIu64, b->lent[i]);
    fputs("\n", out);
}

static void call_load(struct bench *b, struct line *l, FILE *out)
{
    word variables = next_number(l), capacity = next_number(l);
    struct table t = {variables, b->table, b->table_count};
    if (!l->broken) show_change(out, load(bench_desk(b), t, capacity), b);
}

static bool run_call(struct bench *b, const char *name, struct line *l, FILE *out)
{
    if (strcmp(name, "load") == 0) {
        call_load(b, l, out);
    } else if (strcmp(name, "wellformed") == 0) {
        show(out, well_formed(bench_desk(b)) ? "yes" : "no", bench_check(b));
    } else if (strcmp(name, "decide") == 0) {
        int64_t literal = next_literal(l);
        if (!l->broken) show_change(out, decide(bench_desk(b), literal), b);
    } else if (strcmp(name, "rewrite") == 0) {
        call_rewrite(b, l, out);
    } else if (strcmp(name, "back") == 0) {
        show_change(out, take_back(bench_desk(b)), b);
    } else if (strcmp(name, "bound") == 0) {
        call_bound(b, l, out);
    } else if (strcmp(name, "weight") == 0) {
        call_weighing(b, l, out);
    } else if (strcmp(name, "search") == 0) {
        call_search(b, l, out);
    } else if (strcmp(name, "read") == 0) {
        call_read(b, l, out);
    } else if (strcmp(name, "write") == 0) {
        call_write(b, l, out);
    } else if (strcmp(name, "readwcnf") == 0) {
        call_read_wcnf(b, l, out);
    } else if (strcmp(name, "writewcnf") == 0) {
        call_write_wcnf(b, l, out);
    } else if (strcmp(name, "answer") == 0) {
        call_answer(b, l, out);
    } else if (strcmp(name, "words") == 0) {
        call_words(b, l, out);
    } else {
        return false;
    }
    return true;
}

/* Runs one line; what it prints goes to out, or nowhere. False if the line is not of the language. */
static bool run_line(struct bench *b, const char *text, FILE *out)
{
    char name[16];
    int taken = 0;
    struct line l = {text, false};
    if (at_end(&l) || *l.at == '#') return true;
    if (sscanf(l.at, "%15s%n", name, &taken) != 1) return false;
    l.at += taken;
    bool known = run_setting(b, name, &l) || run_call(b, name, &l, out);
    return known && !l.broken && at_end(&l);
}

static struct bench new_bench(void)
{
    struct bench b = {0};
    b.table = room_for(0);
    b.text = room_for(0);
    set_lent(&b, 0, 0);
    return b;
}

static void end_bench(struct bench *b)
{
    free(b->table);
    free(b->text);
    free(b->lent);
}

/* Lines are cut at their ends in place. */
static int run_script(char *script, FILE *out)
{
    struct bench b = new_bench();
    int number = 1;
    for (char *line = script; line != NULL && *line != 0; number++) {
        char *end = strchr(line, '\n');
        if (end != NULL) *end = 0;
        if (!run_line(&b, line, out)) {
            fprintf(stderr, "line %d is not of the language\n", number);
            end_bench(&b);
            return 2;
        }
        line = end == NULL ? NULL : end + 1;
    }
    end_bench(&b);
    return 0;
}
