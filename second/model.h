/* The model of document 01, written from its text: tables, the desk, its steps, the bound, the walk and the text; and document 02's files and
   hard rows.
   It prefers the obvious to the fast: a clause is a list of literals and a partial reading a list of values.
   Every figure that document 01 limits something with stands here and nowhere else. */
#ifndef MODEL_H
#define MODEL_H

#include <stdbool.h>
#include <stddef.h>
#include <stdint.h>

typedef uint64_t word;
/* Sums of lent words are true sums: a word of 64 bits for each row of a desk, or 12 times one, stay far below 128 bits. */
__extension__ typedef unsigned __int128 sum;

enum {
    MOST_VARIABLES = 64,
    MOST_LOADED = 2048,
    MOST_CAPACITY = 4096,
    MOST_STEPS = 256,
    MOST_WEIGHT = 1000000000,
    MOST_NAMED = 12,
    MOST_LINKS = 8,
    MOST_INPUT = 65536,
    MOST_INPUT_ROWS = 512, /* document 02's C-15: what both programs take; the readers take MOST_LOADED */
    MOST_DIGITS = 10,
    HEAD_WORDS = 8,
    ROW_WORDS = 4,
    ENTRY_WORDS = 16,
    ENTRIES_WORDS = MOST_STEPS * ENTRY_WORDS,
    MOST_DESK = HEAD_WORDS + ROW_WORDS * MOST_CAPACITY + ENTRIES_WORDS,
    MOST_ANSWER = 1024,
    MOST_TEXT = 560023, /* the longest text of an admissible table: 883 weights of 7 digits and 1,165 of 6, no row hard */
    MOST_FILE = 532506  /* the longest competition file of one: a weight of 10 digits, all other rows hard, with a top of 10 digits */
};
#define MOST_BUDGET 4294967295u

/* A row: two masks, then these. Its mark, document 02's C-16, is one of two. */
enum { WEIGHT = 2, MARK = 3 };
enum { SOFT, HARD };
/* The head of a desk, in its order. */
enum { VARIABLES, IN_USE, CAPACITY, STEPS, CONCEDED, DECIDED, DECIDED_TRUE, LOADED };
enum { DECIDE, MERGE, SHIFT, CHAIN, FORK };
/* A rewriting's entry; the row numbers begin at ENTRY_ROWS. A decision has its variable and value at 1 and 2. */
enum { ENTRY_KIND, ENTRY_WEIGHT, ENTRY_COUNT, ENTRY_ROWS, ENTRY_FIRST_NEW = ENTRY_WORDS - 1 };
enum { ENTRY_VARIABLE = 1, ENTRY_VALUE = 2 };

/* Number 0 is an accepted call. */
struct refusal {
    unsigned number;
    word place;
};

struct table {
    word variables;
    const word *words;
    word count;
};

struct lent {
    word *words;
    word count;
};

/* 128, since a row that is not admissible may have every variable both ways. */
struct clause {
    int count;
    signed char literals[2 * MOST_VARIABLES];
};

/* 1 true, -1 false, 0 undecided; index 0 is not used. */
struct partial {
    signed char value[MOST_VARIABLES + 1];
};

/* What a reading weighs on a table, and whether every hard row holds. */
struct weighed {
    word weight;
    bool holds;
};

struct found {
    bool done; /* whether the walk came to its end */
    bool kept; /* whether there is a reading; without one, weight and reading mean nothing, and a walk that is done has found it impossible */
    word weight;
    word reading;
    word nodes;
};
static inline const char *status_of(const struct found *f) { return !f->done ? "stopped" : f->kept ? "done" : "impossible"; }

struct header {
    word variables;
    uint32_t budget;
    word rows;
};

/* The three numbers of a competition file's header. */
struct figures {
    word variables, clauses, top;
};

/* Where a bound comes from, document 02's C-12. */
struct losses {
    word conceded, lost, foreseen; /* lost: beyond conceded */
};

/* Which bound, document 02's C-14: document 01's, or for any other number that by groups. */
enum { UNITS, GROUPS };

/* Rows that cannot all hold below a node, in the order in which they join: the conflict, then the reasons of what it needs, newest first. */
struct group {
    word cost;
    int count;
    int rows[MOST_VARIABLES + 1];
};

struct clause clause_of(const word *row);
struct clause remnant_of(const struct clause *c, const struct partial *p);
bool is_satisfied(const struct clause *c, const struct partial *p);
struct partial standing(const word *desk);
const word *desk_row(const word *desk, word number);
word desk_size(word capacity);
bool is_hard(const word *row);
/* A soft row, and a hard one. */
void put_clause(word *row, const struct clause *c, word weight);
void put_hard(word *row, const struct clause *c);

struct refusal weigh(struct table t, word reading, struct weighed *answer);
struct refusal load(struct lent out, struct table t, word capacity);
bool well_formed(struct lent desk);
struct refusal decide(struct lent desk, int64_t literal);
struct refusal rewrite(struct lent desk, word kind, const word *named, word count);
struct refusal take_back(struct lent desk);
struct refusal bound(struct lent desk, word choice, struct losses *answer);
struct refusal search(struct lent desk, word choice, uint32_t budget, struct found *answer);

/* For checks, on well-formed desks only: what one reading weighs, whether every hard row holds, what is lost, and the least weight over all
   full readings that keep the standing decisions and satisfy every hard row, with the first reading that has it (true before false, variable
   1 first); false where there is none. */
word desk_weight(const word *desk, word reading);
bool desk_holds(const word *desk, word reading);
word lost(const word *desk);
bool least_by_enumeration(const word *desk, word *weight, word *reading);
/* Likewise: the groups that the bound by groups finds, in this order, so many at most; the result is their number. */
int groups_found(const word *desk, struct group *groups, int most);

struct refusal read_text(const unsigned char *text, size_t length, struct lent out, struct header *head);
struct refusal write_text(struct table t, uint32_t budget, char *out, size_t room, size_t *length);
/* The program: the answer to the input, at most MOST_ANSWER bytes; the result is its length. */
size_t program_answer(const unsigned char *input, size_t length, char *out);
struct refusal answer_text(const unsigned char *input, size_t length, char *out, size_t room, size_t *written);

/* Competition files, document 02's C-11. The front door searches with MOST_BUDGET; a smaller budget shows what a stopped search answers. */
struct refusal read_wcnf(const unsigned char *text, size_t length, struct lent out, struct figures *figures);
struct refusal write_wcnf(struct table t, char *out, size_t room, size_t *length);
/* At most MOST_ANSWER bytes; the result is their number. */
size_t wcnf_answer(const unsigned char *input, size_t length, uint32_t budget, char *out);

#endif
