/* Runs scripts of calls (second/script.c has their language) on the proved entry points, through the C interface: `calls FILE..` writes to
   FILE.proved what `second desk` is to write for each. The calls that the language knows are forwarded here. Results that are lent beside
   a desk are filled before each call; a refusal that changed one, or a result that the header rules out, ends the run.

   `calls touch PLACE` touches a byte that it may not, to show that the pages are guarded: it is ended by the system. */
#include "../c/olikumpasho.h"
#include "../second/model.h"

#include <errno.h>
#include <inttypes.h>
#include <stdio.h>
#include <stdlib.h>
#include <string.h>
#include <sys/mman.h>

#include "../second/script.c"

_Static_assert(OLIKUMPASHO_MOST_VARIABLES == MOST_VARIABLES && OLIKUMPASHO_MOST_ROWS == MOST_LOADED && OLIKUMPASHO_MOST_CAPACITY == MOST_CAPACITY
                   && OLIKUMPASHO_MOST_STEPS == MOST_STEPS && OLIKUMPASHO_MOST_WEIGHT == MOST_WEIGHT && OLIKUMPASHO_MOST_BUDGET == MOST_BUDGET
                   && OLIKUMPASHO_MOST_NAMED == MOST_NAMED && OLIKUMPASHO_MOST_CHAIN == MOST_LINKS && OLIKUMPASHO_MOST_INPUT == MOST_INPUT
                   && OLIKUMPASHO_MOST_INPUT_ROWS == MOST_INPUT_ROWS && OLIKUMPASHO_MOST_WRITTEN == MOST_TEXT
                   && OLIKUMPASHO_MOST_WRITTEN_WCNF == MOST_FILE && OLIKUMPASHO_ROW_WORDS == ROW_WORDS && OLIKUMPASHO_ROW_WEIGHT == WEIGHT
                   && OLIKUMPASHO_ROW_MARK == MARK && OLIKUMPASHO_SOFT == SOFT && OLIKUMPASHO_HARD == HARD,
               "the header's figures are not the second solver's");

static const word as_found = 0x5a5a5a5a5a5a5a5a;

/* Ends the run, with a line that no script has for an answer. */
static FILE *answers;
static void expect(bool holds, const char *what)
{
    if (holds) return;
    fprintf(answers, "%s\n", what);
    fclose(answers);
    exit(1);
}

/* --- what is lent lies in rooms between pages that may not be touched ---

   Each call is made twice, on copies that end where such a page begins, then on copies that begin where one ends, and both must come to
   the same. What is lent only to be read may not be written to during the call. A step of 65,536 bytes is a whole number of pages on
   every machine. */

enum { STEP = 65536, ROOM = (MOST_LENT * (int)sizeof(word) / STEP + 1) * STEP };
struct room {
    unsigned char *from; /* the first byte that may be touched; ROOM of them */
    unsigned char *at;   /* what is lent now */
    size_t bytes;
};
enum place { AT_END, AT_START };

static struct room desk_room, table_room, result_room, bytes_room;

static void open_room(struct room *r)
{
    unsigned char *all = mmap(NULL, ROOM + 2 * STEP, PROT_NONE, MAP_PRIVATE | MAP_ANONYMOUS, -1, 0);
    if (all == MAP_FAILED || mprotect(all + STEP, ROOM, PROT_READ | PROT_WRITE) != 0) {
        fputs("no pages\n", stderr);
        exit(2);
    }
    r->from = all + STEP;
}

/* The steps that hold what is lent now. */
static void allow(struct room *r, int what)
{
    size_t first = (size_t)(r->at - r->from) / STEP * STEP, end = (size_t)(r->at - r->from) + r->bytes;
    if (r->bytes != 0 && mprotect(r->from + first, (end - first + STEP - 1) / STEP * STEP, what) != 0) exit(2);
}

static void *lend_copy(struct room *r, enum place place, const void *bytes, size_t count)
{
    r->bytes = count;
    r->at = place == AT_END ? r->from + ROOM - count : r->from;
    memcpy(r->at, bytes, count);
    return r->at;
}

static const void *lend_to_read(struct room *r, enum place place, const void *bytes, size_t count)
{
    lend_copy(r, place, bytes, count);
    allow(r, PROT_READ);
    return r->at;
}

static void read_back(struct room *r) { allow(r, PROT_READ | PROT_WRITE); }

/* Results are filled before the call, and a refused call leaves them so. */
static word *lend_results(enum place place, int count)
{
    word filled[5] = {as_found, as_found, as_found, as_found, as_found};
    return lend_copy(&result_room, place, filled, (size_t)count * sizeof(word));
}

static struct refusal told(word answer, int results)
{
    const word *result = (const word *)result_room.at;
    for (int i = 0; answer != 0 && i < results; i++) expect(result[i] == as_found, "a refused call changed a result");
    return (struct refusal){OLIKUMPASHO_NUMBER(answer), OLIKUMPASHO_PLACE(answer)};
}

/* The first call's outcome is kept, and the second's held to it. */
static void agree(enum place place, word *kept, word answer, word *results, int count, void *lent, const struct room *changed)
{
    const word *now = (const word *)result_room.at;
    static unsigned char first[ROOM];
    expect(place == AT_END || *kept == answer, "a call answers otherwise where its words lie elsewhere");
    *kept = answer;
    for (int i = 0; i < count; i++) {
        expect(place == AT_END || results[i] == now[i], "a call has another result where its words lie elsewhere");
        results[i] = now[i];
    }
    if (changed == NULL) return;
    expect(place == AT_END || memcmp(first, changed->at, changed->bytes) == 0, "a call writes otherwise where its words lie elsewhere");
    memcpy(first, changed->at, changed->bytes);
    if (place == AT_START) memcpy(lent, changed->at, changed->bytes);
}

#define AT_BOTH_PLACES(place) (enum place place = AT_END; place <= AT_START; place++)

static size_t bytes_of(word words) { return words * sizeof(word); }

/* --- the calls that the language knows --- */

struct refusal weigh(struct table t, word reading, struct weighed *weighed)
{
    word answer = 0, got[OLIKUMPASHO_WEIGHED_WORDS];
    for AT_BOTH_PLACES(place) {
        const word *words = lend_to_read(&table_room, place, t.words, bytes_of(t.count));
        word *result = lend_results(place, OLIKUMPASHO_WEIGHED_WORDS);
        word now = olikumpasho_weight_of(t.variables, words, t.count, reading, result);
        agree(place, &answer, now, got, OLIKUMPASHO_WEIGHED_WORDS, NULL, NULL);
        read_back(&table_room);
    }
    expect(answer != 0 || got[OLIKUMPASHO_WEIGHED_HOLDS] <= 1, "a word for whether hard rows hold that the header has not");
    *weighed = (struct weighed){got[OLIKUMPASHO_WEIGHED_WEIGHT], got[OLIKUMPASHO_WEIGHED_HOLDS] == 1};
    return told(answer, OLIKUMPASHO_WEIGHED_WORDS);
}

struct refusal load(struct lent out, struct table t, word capacity)
{
    word answer = 0;
    for AT_BOTH_PLACES(place) {
        const word *words = lend_to_read(&table_room, place, t.words, bytes_of(t.count));
        word *desk = lend_copy(&desk_room, place, out.words, bytes_of(out.count));
        word now = olikumpasho_load(t.variables, words, t.count, capacity, desk, out.count);
        agree(place, &answer, now, NULL, 0, out.words, &desk_room);
        read_back(&table_room);
    }
    return told(answer, 0);
}

bool well_formed(struct lent desk)
{
    word answer = 0;
    for AT_BOTH_PLACES(place) {
        const word *words = lend_to_read(&desk_room, place, desk.words, bytes_of(desk.count));
        agree(place, &answer, olikumpasho_well_formed(words, desk.count), NULL, 0, NULL, NULL);
        read_back(&desk_room);
    }
    return answer != 0;
}

struct refusal decide(struct lent desk, int64_t literal)
{
    word answer = 0;
    for AT_BOTH_PLACES(place) {
        word *words = lend_copy(&desk_room, place, desk.words, bytes_of(desk.count));
        agree(place, &answer, olikumpasho_decide(words, desk.count, literal), NULL, 0, desk.words, &desk_room);
    }
    return told(answer, 0);
}

struct refusal rewrite(struct lent desk, word kind, const word *named, word count)
{
    word answer = 0;
    for AT_BOTH_PLACES(place) {
        const word *rows = lend_to_read(&table_room, place, named, bytes_of(count));
        word *words = lend_copy(&desk_room, place, desk.words, bytes_of(desk.count));
        agree(place, &answer, olikumpasho_rewrite(words, desk.count, kind, rows, count), NULL, 0, desk.words, &desk_room);
        read_back(&table_room);
    }
    return told(answer, 0);
}

struct refusal take_back(struct lent desk)
{
    word answer = 0;
    for AT_BOTH_PLACES(place) {
        word *words = lend_copy(&desk_room, place, desk.words, bytes_of(desk.count));
        agree(place, &answer, olikumpasho_take_back(words, desk.count), NULL, 0, desk.words, &desk_room);
    }
    return told(answer, 0);
}

struct refusal bound(struct lent desk, word choice, struct losses *losses)
{
    word answer = 0, got[3];
    for AT_BOTH_PLACES(place) {
        const word *words = lend_to_read(&desk_room, place, desk.words, bytes_of(desk.count));
        word *result = lend_results(place, 3);
        agree(place, &answer, olikumpasho_bound(words, desk.count, choice, result), got, 3, NULL, NULL);
        read_back(&desk_room);
    }
    *losses = (struct losses){got[0], got[1], got[2]};
    return told(answer, 3);
}

struct refusal search(struct lent desk, word choice, uint32_t budget, struct found *found)
{
    word answer = 0, got[5];
    for AT_BOTH_PLACES(place) {
        const word *words = lend_to_read(&desk_room, place, desk.words, bytes_of(desk.count));
        word *result = lend_results(place, 5);
        agree(place, &answer, olikumpasho_search(words, desk.count, choice, budget, result), got, 5, NULL, NULL);
        read_back(&desk_room);
    }
    expect(answer != 0 || (got[0] <= OLIKUMPASHO_IMPOSSIBLE && got[1] <= 1), "a word for status or kept that the header has not");
    expect(answer != 0 || got[0] == OLIKUMPASHO_STOPPED || (got[0] == OLIKUMPASHO_DONE) == (got[1] == 1), "done without a reading, or impossible with one");
    expect(answer != 0 || got[1] == 1 || (got[2] == 0 && got[3] == 0), "weight or reading where there is none");
    *found = (struct found){got[0] != OLIKUMPASHO_STOPPED, got[1] == 1, got[2], got[3], got[4]};
    return told(answer, 5);
}

struct refusal read_text(const unsigned char *text, size_t length, struct lent out, struct header *head)
{
    word answer = 0, got[3];
    for AT_BOTH_PLACES(place) {
        const uint8_t *bytes = lend_to_read(&bytes_room, place, text, length);
        word *words = lend_copy(&desk_room, place, out.words, bytes_of(out.count));
        word *result = lend_results(place, 3);
        agree(place, &answer, olikumpasho_read(bytes, length, words, out.count, result), got, 3, out.words, &desk_room);
        read_back(&bytes_room);
    }
    expect(answer != 0 || got[1] <= MOST_BUDGET, "a budget over 4,294,967,295");
    *head = (struct header){got[0], (uint32_t)got[1], got[2]};
    return told(answer, 3);
}

struct refusal write_text(struct table t, uint32_t budget, char *out, size_t room, size_t *length)
{
    word answer = 0, got;
    for AT_BOTH_PLACES(place) {
        const word *words = lend_to_read(&table_room, place, t.words, bytes_of(t.count));
        uint8_t *bytes = lend_copy(&bytes_room, place, out, room);
        size_t *result = (size_t *)lend_results(place, 1);
        word now = olikumpasho_write(t.variables, budget, words, t.count, bytes, room, result);
        agree(place, &answer, now, &got, 1, out, &bytes_room);
        read_back(&table_room);
    }
    *length = got;
    return told(answer, 1);
}

struct refusal read_wcnf(const unsigned char *text, size_t length, struct lent out, struct figures *figures)
{
    word answer = 0, got[2];
    for AT_BOTH_PLACES(place) {
        const uint8_t *bytes = lend_to_read(&bytes_room, place, text, length);
        word *words = lend_copy(&desk_room, place, out.words, bytes_of(out.count));
        word *result = lend_results(place, 2);
        agree(place, &answer, olikumpasho_read_wcnf(bytes, length, words, out.count, result), got, 2, out.words, &desk_room);
        read_back(&bytes_room);
    }
    *figures = (struct figures){got[0], got[1], 0};
    return told(answer, 2);
}

struct refusal write_wcnf(struct table t, char *out, size_t room, size_t *length)
{
    word answer = 0, got;
    for AT_BOTH_PLACES(place) {
        const word *words = lend_to_read(&table_room, place, t.words, bytes_of(t.count));
        uint8_t *bytes = lend_copy(&bytes_room, place, out, room);
        size_t *result = (size_t *)lend_results(place, 1);
        word now = olikumpasho_write_wcnf(t.variables, words, t.count, bytes, room, result);
        agree(place, &answer, now, &got, 1, out, &bytes_room);
        read_back(&table_room);
    }
    *length = got;
    return told(answer, 1);
}

struct refusal answer_text(const unsigned char *input, size_t length, char *out, size_t room, size_t *written)
{
    word answer = 0, got;
    for AT_BOTH_PLACES(place) {
        const uint8_t *text = lend_to_read(&table_room, place, input, length);
        uint8_t *bytes = lend_copy(&bytes_room, place, out, room);
        size_t *result = (size_t *)lend_results(place, 1);
        agree(place, &answer, olikumpasho_answer(text, length, bytes, room, result), &got, 1, out, &bytes_room);
        read_back(&table_room);
    }
    *written = got;
    return told(answer, 1);
}

static int run_file(const char *name)
{
    char proved[4096];
    size_t length;
    snprintf(proved, sizeof proved, "%s.proved", name);
    FILE *in = fopen(name, "rb");
    answers = fopen(proved, "wb");
    if (in == NULL || answers == NULL) return 2;
    char *script = read_all(in, &length);
    int result = run_script(script, answers);
    free(script);
    fclose(in);
    return fclose(answers) == 0 ? result : 2;
}

/* Beside what is lent on either side, and into what is lent to be read. */
static int touch(int where)
{
    static const unsigned char bytes[100];
    volatile unsigned char *at = where < 2 ? lend_copy(&desk_room, where == 0 ? AT_END : AT_START, bytes, sizeof bytes)
                                           : (unsigned char *)lend_to_read(&desk_room, where == 2 ? AT_END : AT_START, bytes, sizeof bytes);
    if (where == 0) return at[sizeof bytes];
    if (where == 1) return at[-1];
    at[sizeof bytes / 2] = 1;
    return 0;
}

int main(int count, char **names)
{
    int result = 0;
    open_room(&desk_room);
    open_room(&table_room);
    open_room(&result_room);
    open_room(&bytes_room);
    if (count == 3 && strcmp(names[1], "touch") == 0) return touch(atoi(names[2]));
    for (int i = 1; i < count && result == 0; i++) result = run_file(names[i]);
    return result;
}
