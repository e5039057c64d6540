/* Part of model.c: the reader, the writer and the program's answer. Each judges everything before it writes. */

#include <stdio.h>

/* Stands at the first byte not yet taken; line is the line that byte is on. */
struct cursor {
    const unsigned char *text;
    size_t length, at;
    word line;
};

/* -1 past the end. */
static int peek(const struct cursor *c) { return c->at < c->length ? c->text[c->at] : -1; }

static bool take(struct cursor *c, int byte)
{
    if (peek(c) != byte) return false;
    c->at++;
    return true;
}

static bool take_word(struct cursor *c, const char *key)
{
    for (; *key != 0; key++)
        if (!take(c, (unsigned char)*key)) return false;
    return true;
}

static bool take_number(struct cursor *c, word *value)
{
    size_t start = c->at;
    *value = 0;
    while (peek(c) >= '0' && peek(c) <= '9' && c->at - start <= MOST_DIGITS)
        *value = *value * 10 + (word)(c->text[c->at++] - '0');
    size_t digits = c->at - start;
    if (digits == 0 || digits > MOST_DIGITS) return false;
    return digits == 1 || c->text[start] != '0';
}

static bool take_end(struct cursor *c)
{
    if (!take(c, '\n')) return false;
    c->line++;
    return true;
}

static bool take_number_line(struct cursor *c, const char *key, word *value)
{
    return take_word(c, key) && take_number(c, value) && take_end(c);
}

/* One literal, on a variable above the one before it. */
static bool take_literal(struct cursor *c, word *before, word *row)
{
    word v;
    bool negative = take(c, '-');
    if (!take_number(c, &v) || v <= *before || v > MOST_VARIABLES) return false;
    row[negative ? 1 : 0] |= bit((int)v);
    *before = v;
    return true;
}

static bool take_literals_line(struct cursor *c, word *row)
{
    word before = 0;
    row[0] = row[1] = 0;
    if (!take_word(c, "lits=")) return false;
    if (take_end(c)) return true;
    do {
        if (!take_literal(c, &before, row)) return false;
    } while (take(c, ' '));
    return take_end(c);
}

/* 0 or 1. */
static bool take_mark_line(struct cursor *c, word *mark)
{
    return take_word(c, "hard=") && take_number(c, mark) && *mark <= HARD && take_end(c);
}

/* The rows after the first three lines, and nothing behind them. */
static bool take_rows(struct cursor *c, word rows, word *words)
{
    for (word r = 0; r < rows; r++) {
        word *row = words + ROW_WORDS * r;
        if (!take_number_line(c, "weight=", &row[WEIGHT]) || !take_mark_line(c, &row[MARK]) || !take_literals_line(c, row)) return false;
    }
    return c->at == c->length;
}

/* A text of so many rows at most. */
static struct refusal read_within(word most, const unsigned char *text, size_t length, struct lent out, struct header *head)
{
    struct cursor c = {text, length, 0, 1};
    word variables, budget, rows, words[ROW_WORDS * MOST_LOADED];
    if (!take_number_line(&c, "vars=", &variables) || !take_number_line(&c, "budget=", &budget)
        || !take_number_line(&c, "rows=", &rows))
        return refused_at(20, c.line);
    if (variables > MOST_VARIABLES) return refused(1);
    if (budget > MOST_BUDGET) return refused(9);
    if (rows > most) return refused(2);
    if (out.count < ROW_WORDS * rows) return refused(4);
    if (!take_rows(&c, rows, words)) return refused_at(20, c.line);
    for (word i = 0; i < ROW_WORDS * rows; i++) out.words[i] = words[i];
    *head = (struct header){variables, (uint32_t)budget, rows};
    return accepted();
}

struct refusal read_text(const unsigned char *text, size_t length, struct lent out, struct header *head)
{
    return read_within(MOST_LOADED, text, length, out, head);
}

/* Text being made; it is long enough for what an admissible table or an answer can need. */
struct page {
    char bytes[MOST_TEXT];
    size_t length;
};

static void put_word(struct page *p, const char *text)
{
    memcpy(p->bytes + p->length, text, strlen(text));
    p->length += strlen(text);
}

static void put_number(struct page *p, word value)
{
    char digits[24];
    snprintf(digits, sizeof digits, "%llu", (unsigned long long)value);
    put_word(p, digits);
}

static void put_number_line(struct page *p, const char *key, word value)
{
    put_word(p, key);
    put_number(p, value);
    put_word(p, "\n");
}

static void put_literals_line(struct page *p, const char *key, const struct clause *c)
{
    put_word(p, key);
    for (int i = 0; i < c->count; i++) {
        if (i > 0) put_word(p, " ");
        if (c->literals[i] < 0) put_word(p, "-");
        put_number(p, (word)abs(c->literals[i]));
    }
    put_word(p, "\n");
}

struct refusal write_text(struct table t, uint32_t budget, char *out, size_t room, size_t *length)
{
    static struct page p;
    struct refusal no = judge_size(t);
    if (no.number == 0) no = judge_rows(t);
    if (no.number != 0) return no;
    p.length = 0;
    put_number_line(&p, "vars=", t.variables);
    put_number_line(&p, "budget=", budget);
    put_number_line(&p, "rows=", t.count / ROW_WORDS);
    for (word r = 0; r < t.count / ROW_WORDS; r++) {
        const word *row = t.words + ROW_WORDS * r;
        struct clause c = clause_of(row);
        put_number_line(&p, "weight=", row[WEIGHT]);
        put_number_line(&p, "hard=", row[MARK]);
        put_literals_line(&p, "lits=", &c);
    }
    if (room < p.length) return refused(4);
    memcpy(out, p.bytes, p.length);
    *length = p.length;
    return accepted();
}

static void put_refusal(struct page *p, struct refusal no)
{
    put_word(p, "status=refused\n");
    put_number_line(p, "number=", no.number);
    put_number_line(p, "place=", no.place);
}

static void put_found(struct page *p, word variables, const struct found *f, const struct losses *root)
{
    struct clause reading = {0};
    put_word(p, "status=");
    put_word(p, status_of(f));
    put_word(p, "\n");
    if (f->kept) put_number_line(p, "weight=", f->weight);
    else put_word(p, "weight=none\n");
    put_number_line(p, "nodes=", f->nodes);
    for (int v = 1; (word)v <= variables; v++) add_literal(&reading, has_bit(f->reading, v) ? v : -v);
    if (f->kept) put_literals_line(p, "reading=", &reading);
    else put_word(p, "reading=none\n");
    put_number_line(p, "conceded=", root->conceded);
    put_number_line(p, "lost=", root->lost);
    put_number_line(p, "foreseen=", root->foreseen);
}

static struct refusal solve(const unsigned char *input, size_t length, word *variables, struct found *f, struct losses *root)
{
    static word words[ROW_WORDS * MOST_INPUT_ROWS], desk[MOST_DESK];
    struct header head;
    if (length > MOST_INPUT) return refused(19);
    struct refusal no = read_within(MOST_INPUT_ROWS, input, length, (struct lent){words, ROW_WORDS * MOST_INPUT_ROWS}, &head);
    if (no.number != 0) return no;
    struct table t = {head.variables, words, ROW_WORDS * head.rows};
    no = load((struct lent){desk, MOST_DESK}, t, head.rows);
    if (no.number != 0) return no;
    *variables = head.variables;
    bound((struct lent){desk, MOST_DESK}, UNITS, root);
    return search((struct lent){desk, MOST_DESK}, UNITS, head.budget, f);
}

size_t program_answer(const unsigned char *input, size_t length, char *out)
{
    static struct page p;
    struct found f;
    struct losses root;
    word variables;
    p.length = 0;
    struct refusal no = solve(input, length, &variables, &f, &root);
    if (no.number != 0) put_refusal(&p, no);
    else put_found(&p, variables, &f, &root);
    memcpy(out, p.bytes, p.length);
    return p.length;
}

struct refusal answer_text(const unsigned char *input, size_t length, char *out, size_t room, size_t *written)
{
    char answer[MOST_ANSWER];
    size_t count = program_answer(input, length, answer);
    if (count > room) return refused(4);
    memcpy(out, answer, count);
    *written = count;
    return accepted();
}
