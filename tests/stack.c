/* Runs each function for C on a stack of a stated size, with pages behind it that may not be touched; and each with null pointers for what
   it is lent empty.

     stack                 prints each function's name and the size that the header states
     stack nulls           the null pointers
     stack NAME SIZE       runs its calls on a stack of SIZE bytes, a multiple of 64, and prints how many of them were used. A call
                           that needs more ends the process by a fault

   What a call is given takes its longest ways: full tables, the deepest search, the longest text, each rewriting with the most rows, and
   refusals early and late. What has to be done before it is done in a process aside, on memory that both have: so the first call of memcpy
   or memset, at which a dynamic linker may have to find them, is on the stated stack. */
#include "stack_lent.h"

#include <stdio.h>
#include <stdlib.h>
#include <string.h>
#include <sys/mman.h>
#include <sys/wait.h>
#include <unistd.h>

enum { GUARD = 1 << 16 };

static void fail(const char *what)
{
    fprintf(stderr, "%s\n", what);
    exit(1);
}

static void *pages(size_t bytes, int sharing)
{
    void *p = mmap(NULL, bytes, PROT_READ | PROT_WRITE, sharing | MAP_ANONYMOUS, -1, 0);
    if (p == MAP_FAILED) fail("no memory");
    return p;
}

/* Made by a process aside; it is to be accepted. */
static void aside(void (*call)(void))
{
    int status;
    pid_t child = fork();
    if (child == 0) {
        call();
        _exit(at->answer == 0 ? 0 : 1);
    }
    if (child < 0 || waitpid(child, &status, 0) != child || status != 0) fail("a call aside was not accepted");
}

/* ---- the stack */

static unsigned char *low, *top;
static size_t used;
enum { UNTOUCHED = 0xa5 };

static void make_stack(size_t bytes)
{
    size_t whole = (bytes + GUARD - 1) / GUARD * GUARD;
    unsigned char *guard = pages(GUARD + whole, MAP_PRIVATE);
    if (mprotect(guard, GUARD, PROT_NONE) != 0) fail("no guard");
    low = guard + GUARD;
    top = low + bytes;
}

static void on_stack(void (*call)(void))
{
    for (volatile unsigned char *p = low; p < top; p++) *p = UNTOUCHED;
    __asm__ volatile("movq %%rsp, %%rbx\n\t"
                     "movq %0, %%rsp\n\t"
                     "callq *%1\n\t"
                     "movq %%rbx, %%rsp"
                     :
                     : "r"(top), "r"(call)
                     : "rax", "rbx", "rcx", "rdx", "rsi", "rdi", "r8", "r9", "r10", "r11", "xmm0", "xmm1", "xmm2", "xmm3", "xmm4", "xmm5",
                       "xmm6", "xmm7", "xmm8", "xmm9", "xmm10", "xmm11", "xmm12", "xmm13", "xmm14", "xmm15", "memory", "cc");
    const unsigned char *lowest = low;
    while (lowest < top && *lowest == UNTOUCHED) lowest++;
    if ((size_t)(top - lowest) > used) used = (size_t)(top - lowest);
}

/* The call is to answer this number, 0 where it is accepted. */
static void expect(const char *what, void (*call)(void), unsigned number)
{
    on_stack(call);
    if (OLIKUMPASHO_NUMBER(at->answer) == number) return;
    fprintf(stderr, "%s: answered %u, not %u\n", what, OLIKUMPASHO_NUMBER(at->answer), number);
    exit(1);
}

/* The text of the table, as an input. */
static void take_as(void (*written)(void))
{
    at->room = sizeof at->output;
    aside(written);
    copy(at->text, at->output, at->size);
    at->text_size = at->size;
}

/* ---- the calls of each function */

static void weigh_them(void)
{
    longest_table();
    at->reading = all();
    expect("weight", weight_of, 0);
    at->reading = 0;
    expect("weight 0", weight_of, 0);
    longest_file();
    expect("hard rows", weight_of, 0);
    at->variables = 3;
    expect("over the count", weight_of, 5);
    at->words = 1;
    expect("words", weight_of, 2);
}

static void load_them(void)
{
    longest_table();
    expect("load", load, 0);
    deep_table();
    expect("load", load, 0);
    ++*last_weight();
    expect("the sum", load, 7);
    clashing_table();
    expect("hard rows", load, 0);
    ++*last_weight();
    expect("a hard row with a weight", load, 6);
    at->desk_words = 8;
    expect("a short desk", load, 4);
}

static void form_them(void)
{
    longest_table();
    aside(load);
    expect("a full desk", well_formed, 1);
    at->desk[1] = CAPACITY;
    expect("rows of 0s", well_formed, 1);
    at->desk[OLIKUMPASHO_DESK_ROW(CAPACITY - 1) + OLIKUMPASHO_ROW_MARK] = 2;
    expect("a mark", well_formed, 0);
}

static void decide_them(void)
{
    longest_table();
    aside(load);
    for (at->literal = -VARIABLES; at->literal < 0; at->literal++) expect("decide", decide, 0);
    expect("0", decide, 12);
    at->literal = 1;
    expect("decided", decide, 12);
    at->desk_words = 7;
    expect("a short desk", decide, 10);
}

static void rewrite_them(void)
{
    chained_table();
    aside(load);
    name(OLIKUMPASHO_CHAIN, a_chain, 10);
    expect("chain", rewrite, 0);
    expect("spent", rewrite, 14);
    aside(load);
    name(OLIKUMPASHO_FORK, a_fork, 12);
    expect("fork", rewrite, 0);
    aside(load);
    name(OLIKUMPASHO_SHIFT, a_chain, 2);
    expect("shift", rewrite, 0);
    aside(load);
    name(OLIKUMPASHO_MERGE, a_pair, 2);
    expect("merge", rewrite, 0);
    name(OLIKUMPASHO_MERGE, a_fork + 8, 2);
    expect("no merge", rewrite, 14);
    at->named[0] = at->named[1];
    expect("twice", rewrite, 13);
    no_rows(1);
    row(1, 0, 1);
    row(0, 1, 1);
    aside(load);
    name(OLIKUMPASHO_MERGE, a_chain, 2);
    expect("an empty rest", rewrite, 0);
    at->desk_words = 7;
    expect("a short desk", rewrite, 10);
}

static void take_them_back(void)
{
    chained_table();
    aside(load);
    at->literal = 1;
    aside(decide);
    expect("a decision", take_back, 0);
    expect("nothing", take_back, 16);
    name(OLIKUMPASHO_FORK, a_fork, 12);
    aside(rewrite);
    expect("a fork", take_back, 0);
    name(OLIKUMPASHO_CHAIN, a_chain, 10);
    aside(rewrite);
    expect("a chain", take_back, 0);
    name(OLIKUMPASHO_MERGE, a_pair, 2);
    aside(rewrite);
    expect("a merge", take_back, 0);
    aside(rewrite);
    at->desk[OLIKUMPASHO_DESK_ENTRY(CAPACITY, 0)] = 9;
    expect("a bad entry", take_back, 10);
}

static void bound_by(uint64_t choice)
{
    at->choice = choice;
    longest_table();
    aside(load);
    expect("bound", bound, 0);
    deep_table();
    aside(load);
    expect("bound", bound, 0);
    chained_table();
    aside(load);
    expect("bound", bound, 0);
}

static void bound_them(void)
{
    bound_by(OLIKUMPASHO_UNITS);
    bound_by(OLIKUMPASHO_GROUPS);
    at->desk_words = 7;
    expect("a short desk", bound, 10);
}

static void search_by(uint64_t choice)
{
    at->choice = choice;
    deep_table();
    aside(load);
    for (at->budget = 0; at->budget <= 130; at->budget++) expect("search", search, 0);
    if (at->result[OLIKUMPASHO_FOUND_STATUS] != OLIKUMPASHO_DONE || at->result[OLIKUMPASHO_FOUND_NODES] != 2 * VARIABLES + 1)
        fail("search: not down to the last variable");
    clashing_table();
    aside(load);
    expect("impossible", search, 0);
    if (at->result[OLIKUMPASHO_FOUND_STATUS] != OLIKUMPASHO_IMPOSSIBLE || at->result[OLIKUMPASHO_FOUND_NODES] != 2 * VARIABLES + 1)
        fail("search: not down to the last variable by hard rows");
}

static void search_them(void)
{
    search_by(OLIKUMPASHO_UNITS);
    search_by(OLIKUMPASHO_GROUPS);
    at->desk_words = 7;
    expect("a short desk", search, 10);
}

static void read_them(void)
{
    longest_table();
    take_as(write_text);
    at->words = sizeof at->table / sizeof *at->table;
    expect("read", read_text, 0);
    at->words--;
    expect("no room", read_text, 4);
    at->words++;
    at->text_size--;
    expect("unended", read_text, 20);
    at->text[5] = 'x';
    expect("no number", read_text, 20);
}

static void write_them(void)
{
    longest_table();
    at->room = sizeof at->output;
    expect("write", write_text, 0);
    if (at->size != OLIKUMPASHO_MOST_WRITTEN) fail("write: the longest text is not as long as the header says");
    at->room--;
    expect("no room", write_text, 4);
    at->variables = 3;
    expect("over the count", write_text, 5);
}

static void answer_them(void)
{
    deep_table();
    for (at->budget = VARIABLES - 1; at->budget <= 2 * VARIABLES + 2; at->budget++) {
        take_as(write_text);
        expect("answer", answer_text, 0);
    }
    at->room = 10;
    expect("no room", answer_text, 4);
    at->room = OLIKUMPASHO_MOST_ANSWERED;
    at->text_size--;
    expect("unended", answer_text, 0);
    at->text_size = sizeof at->text;
    expect("too long", answer_text, 0);
}

static void read_files(void)
{
    longest_file();
    take_as(write_file);
    at->words = sizeof at->table / sizeof *at->table;
    expect("read_wcnf", read_file, 0);
    at->words--;
    expect("no room", read_file, 4);
    at->words++;
    at->text_size--;
    expect("unended", read_file, 20);
    at->text[0] = 'x';
    expect("no header", read_file, 20);
}

static void write_files(void)
{
    longest_file();
    at->room = sizeof at->output;
    expect("write_wcnf", write_file, 0);
    if (at->size != OLIKUMPASHO_MOST_WRITTEN_WCNF) fail("write_wcnf: the longest text is not as long as the header says");
    at->room = at->size - 1;
    expect("no room", write_file, 4);
    at->variables = 3;
    expect("over the count", write_file, 5);
}

/* ---- nothing lent, by null pointers */

static void told(const char *what, uint64_t answer_given, unsigned number, uint64_t place)
{
    if (OLIKUMPASHO_NUMBER(answer_given) == number && OLIKUMPASHO_PLACE(answer_given) == place) return;
    fprintf(stderr, "%s: answered %u, not %u\n", what, OLIKUMPASHO_NUMBER(answer_given), number);
    exit(1);
}

static void nulls(void)
{
    static const uint8_t bare[] = "vars=0\nbudget=1\nrows=0\n", empty[] = "p wcnf 0 0 1\n";
    uint64_t *desk = at->desk, *result = at->result;
    size_t most = at->desk_words;
    told("weight_of", olikumpasho_weight_of(0, NULL, 0, 0, result), 0, 0);
    told("load, no desk", olikumpasho_load(0, NULL, 0, 0, NULL, 0), OLIKUMPASHO_NO_ROOM, 0);
    told("load", olikumpasho_load(0, NULL, 0, 0, desk, most), 0, 0);
    told("well_formed", olikumpasho_well_formed(NULL, 0), 0, 0);
    told("decide", olikumpasho_decide(NULL, 0, 1), OLIKUMPASHO_BAD_DESK, 0);
    told("rewrite", olikumpasho_rewrite(NULL, 0, OLIKUMPASHO_MERGE, NULL, 0), OLIKUMPASHO_BAD_DESK, 0);
    told("rewrite, no rows", olikumpasho_rewrite(desk, most, OLIKUMPASHO_MERGE, NULL, 0), OLIKUMPASHO_BAD_NAMING, 0);
    told("take_back", olikumpasho_take_back(NULL, 0), OLIKUMPASHO_BAD_DESK, 0);
    told("bound", olikumpasho_bound(NULL, 0, OLIKUMPASHO_GROUPS, result), OLIKUMPASHO_BAD_DESK, 0);
    told("search", olikumpasho_search(NULL, 0, OLIKUMPASHO_GROUPS, 1, result), OLIKUMPASHO_BAD_DESK, 0);
    told("read, no text", olikumpasho_read(NULL, 0, NULL, 0, result), OLIKUMPASHO_BAD_TEXT, 1);
    told("read", olikumpasho_read(bare, sizeof bare - 1, NULL, 0, result), 0, 0);
    told("write, no room", olikumpasho_write(0, 1, NULL, 0, NULL, 0, &at->size), OLIKUMPASHO_NO_ROOM, 0);
    told("write", olikumpasho_write(0, 1, NULL, 0, at->output, sizeof at->output, &at->size), 0, 0);
    if (at->size != sizeof bare - 1 || memcmp(at->output, bare, at->size) != 0) fail("write: not the text of no rows");
    told("read_wcnf, no text", olikumpasho_read_wcnf(NULL, 0, NULL, 0, result), OLIKUMPASHO_BAD_TEXT, 1);
    told("read_wcnf", olikumpasho_read_wcnf(empty, sizeof empty - 1, NULL, 0, result), 0, 0);
    told("write_wcnf, no room", olikumpasho_write_wcnf(0, NULL, 0, NULL, 0, &at->size), OLIKUMPASHO_NO_ROOM, 0);
    told("write_wcnf", olikumpasho_write_wcnf(0, NULL, 0, at->output, sizeof at->output, &at->size), 0, 0);
    if (at->size != sizeof empty - 1 || memcmp(at->output, empty, at->size) != 0) fail("write_wcnf: not the file of no clauses");
    told("answer, no room", olikumpasho_answer(NULL, 0, NULL, 0, &at->size), OLIKUMPASHO_NO_ROOM, 0);
    told("answer", olikumpasho_answer(NULL, 0, at->output, sizeof at->output, &at->size), 0, 0);
}

static const struct {
    const char *name;
    size_t stated;
    void (*calls)(void);
} functions[] = {
    {"weight_of", OLIKUMPASHO_STACK_WEIGHT_OF, weigh_them}, {"load", OLIKUMPASHO_STACK_LOAD, load_them},
    {"well_formed", OLIKUMPASHO_STACK_WELL_FORMED, form_them}, {"decide", OLIKUMPASHO_STACK_DECIDE, decide_them},
    {"rewrite", OLIKUMPASHO_STACK_REWRITE, rewrite_them}, {"take_back", OLIKUMPASHO_STACK_TAKE_BACK, take_them_back},
    {"bound", OLIKUMPASHO_STACK_BOUND, bound_them}, {"search", OLIKUMPASHO_STACK_SEARCH, search_them},
    {"read", OLIKUMPASHO_STACK_READ, read_them}, {"write", OLIKUMPASHO_STACK_WRITE, write_them},
    {"answer", OLIKUMPASHO_STACK_ANSWER, answer_them}, {"read_wcnf", OLIKUMPASHO_STACK_READ_WCNF, read_files},
    {"write_wcnf", OLIKUMPASHO_STACK_WRITE_WCNF, write_files},
};
enum { FUNCTIONS = sizeof functions / sizeof *functions };

int main(int given, char **arguments)
{
    at = pages(sizeof *at, MAP_SHARED);
    at->desk_words = sizeof at->desk / sizeof *at->desk;
    if (given == 2 && strcmp(arguments[1], "nulls") == 0) {
        nulls();
        return 0;
    }
    for (int i = 0; i < FUNCTIONS; i++) {
        if (given == 1) {
            printf("%s %zu\n", functions[i].name, functions[i].stated);
        } else if (given == 3 && strcmp(arguments[1], functions[i].name) == 0) {
            make_stack((size_t)strtoull(arguments[2], NULL, 10));
            functions[i].calls();
            printf("%zu\n", used);
            return 0;
        }
    }
    return given == 1 ? 0 : 2;
}
