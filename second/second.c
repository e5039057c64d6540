/* A second solver for documents 01 and 02, to be compared with the project's own. It shares no code with it.

     second answer < TEXT                      the program's answer
     second answer FILE..                      each file's, to FILE.expected
     second copy < TEXT                        the text's table written anew, or nothing where that is refused; or FILE.., to FILE.copied
     second wcnf < TEXT                        the front door's answer to a competition file; or FILE.., to FILE.expected
     second wcnf-read < TEXT                   `ok VARS CLAUSES` and the words of each row, or `refused NUMBER PLACE`; or FILE.., to FILE.read
     second wcnf-copy < TEXT                   the table written anew, or nothing where that is refused; or FILE.., to FILE.copied
     second desk < SCRIPT                      a script of calls on a desk (the language is at the top of script.c)
     second desk FILE..                        each file's, to FILE.expected
     second generate texts SEED COUNT DIR      COUNT texts, DIR/00000-KIND.txt and on; DIR must exist
     second generate runs SEED COUNT DIR       COUNT scripts, DIR/00000-KIND.run and on
     second generate full-texts SEED COUNT DIR and full-runs: the same at the limits
     second generate group-runs SEED COUNT DIR scripts of bounds and searches, where groups are many, long or at the limits
     second generate wcnf SEED COUNT DIR       COUNT competition files, DIR/00000-KIND.wcnf and on
     second generate wcnf-runs SEED COUNT DIR  COUNT scripts that read and write such files
     second selftest                           checks of the model against document 01 and against enumeration
     second vectors FILE                       the worked examples of the source documents
     second scripts FILE DIR                   the calls of each of them, DIR/00000-vector.run and on

   Compile: cc -O2 -std=c11 -Wall -Wextra -o second second.c model.c
   The other parts are included below, so that these two files are all that is compiled. */
#include "model.h"

#include <errno.h>
#include <inttypes.h>
#include <stdio.h>
#include <stdlib.h>
#include <string.h>

#include "script.c"
#include "chance.c"
#include "hard_rows.c"
#include "texts.c"
#include "wcnf_texts.c"
#include "runs.c"
#include "wcnf_runs.c"
#include "selftest.c"
#include "vectors.c"

static int run_answer(FILE *in, FILE *to)
{
    char out[MOST_ANSWER];
    size_t length;
    char *input = read_all(in, &length);
    size_t written = program_answer((const unsigned char *)input, length, out);
    bool whole = fwrite(out, 1, written, to) == written;
    free(input);
    return whole ? 0 : 2;
}

static int run_copy(FILE *in, FILE *to)
{
    static word words[ROW_WORDS * MOST_LOADED];
    static char text[MOST_TEXT];
    struct header head;
    size_t length, written;
    char *input = read_all(in, &length);
    struct refusal no = read_text((const unsigned char *)input, length, (struct lent){words, ROW_WORDS * MOST_LOADED}, &head);
    free(input);
    if (no.number != 0) return 0;
    struct table t = {head.variables, words, ROW_WORDS * head.rows};
    if (write_text(t, head.budget, text, sizeof text, &written).number != 0) return 0;
    return fwrite(text, 1, written, to) == written ? 0 : 2;
}

static int run_wcnf(FILE *in, FILE *to)
{
    char out[MOST_ANSWER];
    size_t length;
    char *input = read_all(in, &length);
    size_t written = wcnf_answer((const unsigned char *)input, length, MOST_BUDGET, out);
    bool whole = fwrite(out, 1, written, to) == written;
    free(input);
    return whole ? 0 : 2;
}

static struct refusal read_table(FILE *in, word *words, struct figures *f)
{
    size_t length;
    char *input = read_all(in, &length);
    struct refusal no = read_wcnf((const unsigned char *)input, length, (struct lent){words, ROW_WORDS * MOST_LOADED}, f);
    free(input);
    return no;
}

static int run_wcnf_read(FILE *in, FILE *to)
{
    static word words[ROW_WORDS * MOST_LOADED];
    struct figures f;
    struct refusal no = read_table(in, words, &f);
    if (no.number != 0) return fprintf(to, "refused %u %" PRIu64 "\n", no.number, no.place) > 0 ? 0 : 2;
    fprintf(to, "ok %" PRIu64 " %" PRIu64 "\n", f.variables, f.clauses);
    for (const word *row = words; row < words + ROW_WORDS * f.clauses; row += ROW_WORDS)
        fprintf(to, "%" PRIu64 " %" PRIu64 " %" PRIu64 " %" PRIu64 "\n", row[0], row[1], row[WEIGHT], row[MARK]);
    return ferror(to) ? 2 : 0;
}

static int run_wcnf_copy(FILE *in, FILE *to)
{
    static word words[ROW_WORDS * MOST_LOADED];
    static char text[MOST_TEXT];
    struct figures f;
    size_t written;
    if (read_table(in, words, &f).number != 0) return 0;
    if (write_wcnf((struct table){f.variables, words, ROW_WORDS * f.clauses}, text, sizeof text, &written).number != 0) return 0;
    return fwrite(text, 1, written, to) == written ? 0 : 2;
}

static int run_desk(FILE *in, FILE *to)
{
    size_t length;
    char *script = read_all(in, &length);
    int result = run_script(script, to);
    free(script);
    return result;
}

static int each_file(int (*run)(FILE *in, FILE *to), char **names, const char *end)
{
    for (; *names != NULL; names++) {
        char expected[4096];
        snprintf(expected, sizeof expected, "%s.%s", *names, end);
        FILE *in = fopen(*names, "rb"), *to = fopen(expected, "wb");
        if (in == NULL || to == NULL) return 2;
        int result = run(in, to);
        fclose(in);
        if (fclose(to) != 0 || result != 0) return 2;
    }
    return 0;
}

/* From standard input to standard output, or each of the files, to one with this end to its name. */
static int run_on(int (*run)(FILE *in, FILE *to), char **names, const char *end)
{
    if (*names != NULL) return each_file(run, names, end);
    int result = run(stdin, stdout);
    return fflush(stdout) == 0 ? result : 2;
}

static int run_generate(char **words)
{
    word seed = strtoull(words[1], NULL, 10);
    int count = atoi(words[2]);
    bool full = strncmp(words[0], "full-", 5) == 0;
    const char *what = words[0] + (full ? 5 : 0);
    if (strcmp(what, "texts") == 0) return generate_texts(seed, count, words[3], full);
    if (strcmp(words[0], "runs") == 0) return generate_runs(seed, count, words[3], run_families, RUN_FAMILIES);
    if (strcmp(words[0], "full-runs") == 0) return generate_runs(seed, count, words[3], full_families, FULL_FAMILIES);
    if (strcmp(words[0], "group-runs") == 0) return generate_runs(seed, count, words[3], group_families, GROUP_FAMILIES);
    if (strcmp(words[0], "wcnf-runs") == 0) return generate_competition_runs(seed, count, words[3]);
    if (strcmp(words[0], "wcnf") == 0) return generate_competitions(seed, count, words[3]);
    return 2;
}

/* Checks the vectors of a file or, where there is a folder for them, writes their scripts. */
static int run_vectors(const char *name, const char *dir)
{
    size_t length;
    FILE *in = fopen(name, "rb");
    if (in == NULL) return 2;
    char *text = read_all(in, &length);
    fclose(in);
    int result = dir == NULL ? check_vectors(text) : write_scripts(text, dir);
    free(text);
    return result;
}

int main(int count, char **words)
{
    if (count >= 2 && strcmp(words[1], "answer") == 0) return run_on(run_answer, words + 2, "expected");
    if (count >= 2 && strcmp(words[1], "copy") == 0) return run_on(run_copy, words + 2, "copied");
    if (count >= 2 && strcmp(words[1], "wcnf") == 0) return run_on(run_wcnf, words + 2, "expected");
    if (count >= 2 && strcmp(words[1], "wcnf-read") == 0) return run_on(run_wcnf_read, words + 2, "read");
    if (count >= 2 && strcmp(words[1], "wcnf-copy") == 0) return run_on(run_wcnf_copy, words + 2, "copied");
    if (count >= 2 && strcmp(words[1], "desk") == 0) return run_on(run_desk, words + 2, "expected");
    if (count == 6 && strcmp(words[1], "generate") == 0) return run_generate(words + 2);
    if (count == 2 && strcmp(words[1], "selftest") == 0) return selftest();
    if (count == 3 && strcmp(words[1], "vectors") == 0) return run_vectors(words[2], NULL);
    if (count == 4 && strcmp(words[1], "scripts") == 0) return run_vectors(words[2], words[3]);
    fputs("second answer|copy|desk|wcnf|wcnf-read|wcnf-copy [FILE..] | generate [full-]texts|[full-|group-]runs|wcnf|wcnf-runs SEED COUNT DIR | selftest | vectors FILE |"
          " scripts FILE DIR\n", stderr);
    return 2;
}
