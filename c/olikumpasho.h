/* Olikumpasho: the arbiter of a register, for software in C, C++ or whatever calls C. Link target/staticlib/libolikumpasho.a, which
   `c/library` proves and writes, for x86-64-v2 and above. It needs memcpy and memset and nothing else, allocates nothing and keeps nothing between
   calls.

   WHAT IS LENT. A pointer with a count behind it is a lent slice of so many words or bytes, aligned as its kind of value asks. WHERE THE
   COUNT IS 0 IT MAY BE NULL OR POINT NOWHERE (an empty vector), AND ONLY THERE. A result (weighed, losses, found, head, size) IS NEVER NULL.
   What one call may write overlaps nothing else that the call is lent. No more is expected: any words, bytes and numbers get an answer,
   every call ends, and nothing outside what is lent is read or written.

   WHAT COMES BACK. Each function but olikumpasho_well_formed answers 0 where the call is accepted. Else it is refused, and the answer has
   the refusal's number in its low byte and its place above: the row or clause from 0 for 5 and 6, the line from 1 for 20, else 0. (A line past
   2^56 - 1, which only a competition file could have, is told as that one.) A refused call has changed no lent word or byte, results included.

   THREADS. Nothing is shared but what is lent. Calls may run at once where none of them writes what another is lent: calls on separate
   desks always, and on one desk those that only read it (well_formed, bound, search).

   NUMBERS. A budget is a 32-bit number. Of a wider one C passes the low 32 bits and no more, without a word (4,294,967,297 becomes 1): a
   budget that may be wider is to be compared with OLIKUMPASHO_MOST_BUDGET first.

   STACK. OLIKUMPASHO_STACK_.. is what a call of the function needs, in bytes, below the caller's own frame, at most and with a margin; what
   a dynamic linker needs at the first call of memcpy or memset is within it, what a signal handler needs comes on top. In a thread with
   less the call ends in a fault. The test tests/stack runs each function on a stack of that size.

   WORDS. A row is four words: mask of positive literals, mask of negative ones (variable v has bit v - 1), weight, mark. A SOFT row, its mark
   OLIKUMPASHO_SOFT, weighs on a reading that doesn't satisfy it. A HARD row, its mark OLIKUMPASHO_HARD, is beyond giving up: no reading that a
   search answers breaks it, its weight word is 0, and it is never spent. A reading is the mask of the true variables. A desk with room for
   `capacity` rows is OLIKUMPASHO_DESK_WORDS(capacity) words; words past it are never touched. It may be read, moved and copied as words.

     words         hold
     0 to 7        variables; rows in use; capacity; steps standing; conceded; mask of decided variables; mask of those decided true; rows
                   loaded
     next 4 each   rows, in the order of their numbers
     last 4,096    256 step entries of 16 words, oldest step first. A rewriting's: kind, weight w, count of rows named, their numbers (12
                   words, 0 in those not needed), and last the first new row, which is the rows in use before the step. A decision's: 0,
                   variable, 1 for true or 0 for false, thirteen zeros
   Words not in use hold 0.

   STEPS. A decision gives a variable its value. A row's remnant is its literals on undecided variables; a row is satisfied once a literal
   is decided true, and a soft one spent at weight 0. A rewriting names soft rows that are neither, by their numbers, in the order below. w is
   the smallest weight among them: each loses w, new soft rows of weight w come in the order shown, and where `empty` comes, conceded gains w
   instead. NEW ROWS TAKE THE NEXT NUMBERS: the first is the number of rows in use before the step (desk[OLIKUMPASHO_DESK_ROWS]). Every reading
   that keeps the standing decisions weighs the same before and after, and breaks the same hard rows.

     kind      rows named, as remnants                                   rows    gives                                  new rows
     1 merge   two, alike but for one variable, of opposite signs        2       the common rest                        1, or empty and 0
     2 shift   l1; (not l1, l2)                                          2       (l1, not l2); l2                       2
     3 chain   l1; k rows (not li, l(i+1)); not l(k+1)                   k + 2   empty; k rows (li, not l(i+1))         k
     4 fork    l1; k rows (not li, l(i+1)); (not a, b); (not a, c);      k + 4   empty; k rows (li, not l(i+1));        k + 2
               (not b, not c), where a is l(k+1)                                 (a, not b, not c); (not a, b, c)
   k is 0 to 8. A remnant holds just the literals shown. Taking back undoes the last standing step and frees its rows' numbers.
   docs/STEPS.md shows each with its words.

   BOUNDS. The caller of bound and search chooses which bound it is to be. OLIKUMPASHO_UNITS: what is foreseen is, of each undecided variable,
   the lighter side of what rows with nothing else left ask of it. OLIKUMPASHO_GROUPS: what is foreseen is what groups cost, rows that cannot
   all hold, found by unit propagation; it is never less, so that a finished search visits no more nodes, and a node takes longer.
   docs/GROUPS.md says which groups. Both pass over hard rows, which weigh 0. Searches that are done or impossible find the same by either.

   REFUSALS.
     number   refused because                                          by
     1        over 64 variables                                        load, weight_of, read, write, read_wcnf, write_wcnf
     2        words not a multiple of 4, or over 2,048 rows            load, weight_of, read, write, read_wcnf, write_wcnf
              over 512 rows                                            (in the text of answer)
     3        capacity below the rows or over 4,096                    load
     4        what is lent for the result is too short                 load, read, write, answer, read_wcnf, write_wcnf
     5        a row has a variable both ways or above the count        load, weight_of, write, read_wcnf, write_wcnf
     6        a soft row weighs 0 or over 1,000,000,000, a hard one
              anything, or a mark is neither                           load, weight_of, write, write_wcnf
     7        the weights sum over 1,000,000,000                       load, weight_of, write, write_wcnf
     8        the reading names a variable above the count             weight_of
     9        the budget is over 4,294,967,295                         read
     10       the desk is not well formed (a mark is neither, or a hard
              row weighs anything, too), or its last entry is bad      decide, rewrite, take_back, bound, search
     11       256 steps stand                                          decide, rewrite
     12       variable 0, above the count or decided, or literal
              outside -64 to 64                                        decide
     13       kind not 1 to 4, wrong count, row not in use or twice    rewrite
     14       a named row is hard, spent or satisfied, or remnants
              don't fit                                                rewrite
     15       rows in use plus new rows exceed the capacity            rewrite
     16       nothing to take back                                     take_back
     19       the input is over 65,536 bytes                           (in the text of answer)
     20       a line breaks the form                                   read, read_wcnf
   Where more than one holds, the first in the function's list below is given; rows are judged in order, each by 5 before 6. `answer` is
   itself refused by 4 alone: what the program refuses, 19 too, it answers in its text. The program takes fewer rows than `read` does, and
   refuses more of them where `read` would. */
#ifndef OLIKUMPASHO_H
#define OLIKUMPASHO_H

#include <stdbool.h>
#include <stddef.h>
#include <stdint.h>

/* Rises by one with each change of a name, a number or a layout below. */
#define OLIKUMPASHO_VERSION 6

/* ---- an answer, taken apart */

#define OLIKUMPASHO_NUMBER(answer) ((unsigned)((answer) & 255))
#define OLIKUMPASHO_PLACE(answer) ((uint64_t)(answer) >> 8)

#define OLIKUMPASHO_ACCEPTED 0
#define OLIKUMPASHO_TOO_MANY_VARIABLES 1
#define OLIKUMPASHO_BAD_TABLE 2
#define OLIKUMPASHO_BAD_CAPACITY 3
#define OLIKUMPASHO_NO_ROOM 4
#define OLIKUMPASHO_BAD_LITERALS 5 /* place: the row, or the clause */
#define OLIKUMPASHO_BAD_WEIGHT 6   /* or mark; place: the row */
#define OLIKUMPASHO_SUM_TOO_LARGE 7
#define OLIKUMPASHO_BAD_READING 8
#define OLIKUMPASHO_BAD_BUDGET 9
#define OLIKUMPASHO_BAD_DESK 10
#define OLIKUMPASHO_TOO_MANY_STEPS 11
#define OLIKUMPASHO_BAD_LITERAL 12
#define OLIKUMPASHO_BAD_NAMING 13
#define OLIKUMPASHO_BAD_FIT 14
#define OLIKUMPASHO_DESK_FULL 15
#define OLIKUMPASHO_NOTHING_STANDS 16
#define OLIKUMPASHO_INPUT_TOO_LONG 19
#define OLIKUMPASHO_BAD_TEXT 20 /* place: the line */

/* ---- limits */

#define OLIKUMPASHO_MOST_VARIABLES 64
#define OLIKUMPASHO_MOST_ROWS 2048 /* loaded, read or written */
#define OLIKUMPASHO_MOST_CAPACITY 4096
#define OLIKUMPASHO_MOST_STEPS 256
#define OLIKUMPASHO_MOST_WEIGHT 1000000000 /* of a row, and of all */
#define OLIKUMPASHO_MOST_BUDGET 4294967295u
#define OLIKUMPASHO_MOST_NAMED 12 /* rows of a rewriting */
#define OLIKUMPASHO_MOST_CHAIN 8  /* k */
#define OLIKUMPASHO_MOST_INPUT 65536 /* bytes that answer takes */
#define OLIKUMPASHO_MOST_INPUT_ROWS 512 /* rows of a text that answer takes */

/* ---- sizes of what is lent, of type size_t */

#define OLIKUMPASHO_ROW_WORDS ((size_t)4)
#define OLIKUMPASHO_ENTRY_WORDS ((size_t)16)
#define OLIKUMPASHO_TABLE_WORDS(rows) (OLIKUMPASHO_ROW_WORDS * (size_t)(rows))
#define OLIKUMPASHO_DESK_WORDS(capacity) \
    ((size_t)8 + OLIKUMPASHO_ROW_WORDS * (size_t)(capacity) + OLIKUMPASHO_ENTRY_WORDS * OLIKUMPASHO_MOST_STEPS)
/* Bytes that are enough for write, for write_wcnf, and for answer, whatever they are given. */
#define OLIKUMPASHO_MOST_WRITTEN ((size_t)560023)
#define OLIKUMPASHO_MOST_WRITTEN_WCNF ((size_t)532506)
#define OLIKUMPASHO_MOST_ANSWERED ((size_t)886)

/* ---- the words of a row, in a table and on a desk, and its marks */

#define OLIKUMPASHO_ROW_POSITIVE 0
#define OLIKUMPASHO_ROW_NEGATIVE 1
#define OLIKUMPASHO_ROW_WEIGHT 2
#define OLIKUMPASHO_ROW_MARK 3
#define OLIKUMPASHO_SOFT 0
#define OLIKUMPASHO_HARD 1

/* ---- the words of a desk */

#define OLIKUMPASHO_DESK_VARIABLES 0
#define OLIKUMPASHO_DESK_ROWS 1 /* in use */
#define OLIKUMPASHO_DESK_CAPACITY 2
#define OLIKUMPASHO_DESK_STEPS 3 /* standing */
#define OLIKUMPASHO_DESK_CONCEDED 4
#define OLIKUMPASHO_DESK_DECIDED 5
#define OLIKUMPASHO_DESK_TRUE 6
#define OLIKUMPASHO_DESK_LOADED 7 /* rows */
/* Where a row, and where the entry of a standing step, begins; both are counted from 0. */
#define OLIKUMPASHO_DESK_ROW(row) ((size_t)8 + OLIKUMPASHO_ROW_WORDS * (size_t)(row))
#define OLIKUMPASHO_DESK_ENTRY(capacity, step) (OLIKUMPASHO_DESK_ROW(capacity) + OLIKUMPASHO_ENTRY_WORDS * (size_t)(step))

/* ---- kinds of step; a decision is one in an entry alone */

#define OLIKUMPASHO_DECISION 0
#define OLIKUMPASHO_MERGE 1
#define OLIKUMPASHO_SHIFT 2
#define OLIKUMPASHO_CHAIN 3
#define OLIKUMPASHO_FORK 4

/* ---- which bound: any other number is OLIKUMPASHO_GROUPS too */

#define OLIKUMPASHO_UNITS 0
#define OLIKUMPASHO_GROUPS 1

/* ---- what a search found, and how it ended */

#define OLIKUMPASHO_FOUND_STATUS 0
#define OLIKUMPASHO_FOUND_READINGS 1 /* how many: 1, or 0 where it is impossible, or the search was stopped before it met one */
#define OLIKUMPASHO_FOUND_WEIGHT 2
#define OLIKUMPASHO_FOUND_READING 3
#define OLIKUMPASHO_FOUND_NODES 4
#define OLIKUMPASHO_FOUND_WORDS 5
#define OLIKUMPASHO_DONE 0
#define OLIKUMPASHO_STOPPED 1
#define OLIKUMPASHO_IMPOSSIBLE 2

/* ---- what a reading weighs */

#define OLIKUMPASHO_WEIGHED_WEIGHT 0
#define OLIKUMPASHO_WEIGHED_HOLDS 1 /* 1 where every hard row holds, else 0 */
#define OLIKUMPASHO_WEIGHED_WORDS 2

/* ---- where a bound comes from */

#define OLIKUMPASHO_LOSSES_CONCEDED 0
#define OLIKUMPASHO_LOSSES_LOST 1 /* beyond conceded */
#define OLIKUMPASHO_LOSSES_FORESEEN 2
#define OLIKUMPASHO_LOSSES_WORDS 3

/* ---- the head of a text */

#define OLIKUMPASHO_HEAD_VARIABLES 0
#define OLIKUMPASHO_HEAD_BUDGET 1
#define OLIKUMPASHO_HEAD_ROWS 2
#define OLIKUMPASHO_HEAD_WORDS 3
/* and of a competition file */
#define OLIKUMPASHO_WCNF_VARIABLES 0
#define OLIKUMPASHO_WCNF_ROWS 1
#define OLIKUMPASHO_WCNF_WORDS 2

/* ---- bytes of stack */

#define OLIKUMPASHO_STACK_WEIGHT_OF 1024
#define OLIKUMPASHO_STACK_LOAD 8192
#define OLIKUMPASHO_STACK_WELL_FORMED 1024
#define OLIKUMPASHO_STACK_DECIDE 1024
#define OLIKUMPASHO_STACK_REWRITE 8192
#define OLIKUMPASHO_STACK_TAKE_BACK 8192
#define OLIKUMPASHO_STACK_BOUND 40960
#define OLIKUMPASHO_STACK_SEARCH 65536
#define OLIKUMPASHO_STACK_READ 2048
#define OLIKUMPASHO_STACK_WRITE 2048
#define OLIKUMPASHO_STACK_ANSWER 49152
#define OLIKUMPASHO_STACK_READ_WCNF 2048
#define OLIKUMPASHO_STACK_WRITE_WCNF 2048

#ifdef __cplusplus
extern "C" {
#endif

/* The weight of a reading: weighed[0] is the sum of the weights of the rows that it doesn't satisfy, weighed[1] is 1 where it satisfies every
   hard row, else 0.
   Refused by 1, 2, 5, 6, 7, 8. */
uint64_t olikumpasho_weight_of(uint64_t variables, const uint64_t *table, size_t words, uint64_t reading, uint64_t weighed[2]);

/* Lays a table onto a desk with room for `capacity` rows, at least those of the table, and writes every word of the desk. No step stands.
   Refused by 1, 2, 3, 4, 5, 6, 7. */
uint64_t olikumpasho_load(uint64_t variables, const uint64_t *table, size_t words, uint64_t capacity, uint64_t *desk, size_t desk_words);

/* Whether a desk in these words is well formed, as every desk is that load and the calls below have made.
   Refused by none. */
#if defined(__GNUC__) && !defined(__cplusplus)
__extension__ /* C89 has no bool */
#endif
bool olikumpasho_well_formed(const uint64_t *desk, size_t desk_words);

/* Decides a literal: v for variable v true, -v for false.
   Refused by 10, 11, 12. */
uint64_t olikumpasho_decide(uint64_t *desk, size_t desk_words, int64_t literal);

/* Rewrites the rows named, by kind: OLIKUMPASHO_MERGE, _SHIFT, _CHAIN or _FORK (STEPS, above).
   Refused by 10, 11, 13, 14, 15. */
uint64_t olikumpasho_rewrite(uint64_t *desk, size_t desk_words, uint64_t kind, const uint64_t *named, size_t count);

/* Undoes the last standing step: where load and calls alone have made the desk, it is then word for word what it was before that step.
   Refused by 10 for the desk, 16, 10 for the last entry. */
uint64_t olikumpasho_take_back(uint64_t *desk, size_t desk_words);

/* The bound that is chosen, as three numbers that add up to it. losses[0] is what the desk has conceded, losses[1] what is lost beyond that:
   the weights of rows that no reading which keeps the standing decisions can satisfy. So much is certain. losses[2] is what is foreseen: no
   such reading that satisfies every hard row weighs less than the three together.
   Refused by 10. */
uint64_t olikumpasho_bound(const uint64_t *desk, size_t desk_words, uint64_t choice, uint64_t losses[3]);

/* Searches the readings that keep the standing decisions and satisfy every hard row, by the bound that is chosen and within a budget of nodes,
   and only reads the desk. found[0] is OLIKUMPASHO_DONE, OLIKUMPASHO_STOPPED or OLIKUMPASHO_IMPOSSIBLE. Done means: of all those readings this
   one weighs least, and of those that weigh as little it is the first, true before false from variable 1 on. Impossible means: there is no such
   reading. Stopped means: the budget ended before either was certain, and this is the best reading met by then. found[1] is 1 where there is
   a reading, whose weight and mask are found[2] and found[3]; the mask holds the decided variables too. Else found[1] is 0, with 0 in those.
   found[4] is the count of nodes visited, at most the budget.
   Refused by 10. */
uint64_t olikumpasho_search(const uint64_t *desk, size_t desk_words, uint64_t choice, uint32_t budget, uint64_t found[5]);

/* Reads a text: its rows' words, four to a row, to the front of the table, and variables, budget and rows to head[0], head[1], head[2]. A row is
   three lines: weight=, hard= with its mark, 0 or 1, and lits=. The rows are not judged; load does that, a hard one with a weight too.
   Refused by 20 (first three lines), 1, 9, 2, 4, 20 (the rest). */
uint64_t olikumpasho_read(const uint8_t *text, size_t count, uint64_t *table, size_t words, uint64_t head[3]);

/* Writes the text of a table to the front of the output, *size bytes. OLIKUMPASHO_MOST_WRITTEN are always enough.
   Refused by 1, 2, 5, 6, 7, 4. */
uint64_t olikumpasho_write(uint64_t variables, uint32_t budget, const uint64_t *table, size_t words, uint8_t *output, size_t room, size_t *size);

/* Writes what the program answers to an input to the front of the output, *size bytes. OLIKUMPASHO_MOST_ANSWERED are always enough.
   Refused by 4. */
uint64_t olikumpasho_answer(const uint8_t *input, size_t count, uint8_t *output, size_t room, size_t *size);

/* Reads a competition file (DIMACS WCNF, the form with a top in its header): a row for each clause, to the front of the table, and
   variables and rows to head[0], head[1]. A literal given twice counts once. A clause that weighs top or more, whatever it is, makes a hard
   row; no weight is judged, load does that.
   Refused by 20 (comments and header), 1, 2, 4, then line by line 20, 5, and 20 for what follows the last clause. */
uint64_t olikumpasho_read_wcnf(const uint8_t *text, size_t count, uint64_t *table, size_t words, uint64_t head[2]);

/* Writes a table as a competition file, its top the sum of the soft weights and one, with which hard rows are written, to the front of the
   output, *size bytes. OLIKUMPASHO_MOST_WRITTEN_WCNF are always enough.
   Refused by 1, 2, 5, 6, 7, 4. */
uint64_t olikumpasho_write_wcnf(uint64_t variables, const uint64_t *table, size_t words, uint8_t *output, size_t room, size_t *size);

#ifdef __cplusplus
}
#endif

#endif
