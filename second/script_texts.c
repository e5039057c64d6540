/* Part of script.c: the calls that read and write texts. */

static void call_read(struct bench *b, struct line *l, FILE *out)
{
    word room = next_number(l), fill = next_number(l);
    struct header head = {0, 0, 0};
    char text[80];
    if (l->broken || room > MOST_LENT) {
        l->broken = true;
        return;
    }
    word *words = room_for(room * sizeof *words);
    for (word i = 0; i < room; i++) words[i] = fill;
    struct refusal no = read_text(b->text, b->text_length, (struct lent){words, room}, &head);
    snprintf(text, sizeof text, "ok %" PRIu64 " %" PRIu32 " %" PRIu64, head.variables, head.budget, head.rows);
    show_outcome(out, no, text, check_words(words, room));
    free(words);
}

static void call_read_wcnf(struct bench *b, struct line *l, FILE *out)
{
    word room = next_number(l), fill = next_number(l);
    struct figures figures = {0, 0, 0};
    char text[60];
    if (l->broken || room > MOST_LENT) {
        l->broken = true;
        return;
    }
    word *words = room_for(room * sizeof *words);
    for (word i = 0; i < room; i++) words[i] = fill;
    struct refusal no = read_wcnf(b->text, b->text_length, (struct lent){words, room}, &figures);
    snprintf(text, sizeof text, "ok %" PRIu64 " %" PRIu64, figures.variables, figures.clauses);
    show_outcome(out, no, text, check_words(words, room));
    free(words);
}

/* Bytes that are filled before a call, or NULL. */
static char *filled_bytes(struct line *l, word room, word fill)
{
    if (room > MOST_LENT) l->broken = true;
    if (l->broken) return NULL;
    char *bytes = room_for(room);
    memset(bytes, (int)fill, room);
    return bytes;
}

static void show_bytes(FILE *out, struct refusal no, char *bytes, word room, size_t length)
{
    char text[40];
    word check = check_start();
    for (word i = 0; i < room; i++) check = check_more(check, (unsigned char)bytes[i]);
    snprintf(text, sizeof text, "ok %zu", length);
    show_outcome(out, no, text, check);
    free(bytes);
}

static void call_write(struct bench *b, struct line *l, FILE *out)
{
    word variables = next_number(l), budget = next_number(l), room = next_number(l), fill = next_number(l);
    size_t length = 0;
    if (budget > MOST_BUDGET) l->broken = true;
    char *bytes = filled_bytes(l, room, fill);
    if (bytes == NULL) return;
    struct table t = {variables, b->table, b->table_count};
    struct refusal no = write_text(t, (uint32_t)budget, bytes, room, &length);
    show_bytes(out, no, bytes, room, length);
}

static void call_write_wcnf(struct bench *b, struct line *l, FILE *out)
{
    word variables = next_number(l), room = next_number(l), fill = next_number(l);
    size_t length = 0;
    char *bytes = filled_bytes(l, room, fill);
    if (bytes == NULL) return;
    struct refusal no = write_wcnf((struct table){variables, b->table, b->table_count}, bytes, room, &length);
    show_bytes(out, no, bytes, room, length);
}

static void call_answer(struct bench *b, struct line *l, FILE *out)
{
    word room = next_number(l), fill = next_number(l);
    size_t length = 0;
    char *bytes = filled_bytes(l, room, fill);
    if (bytes == NULL) return;
    struct refusal no = answer_text(b->text, b->text_length, bytes, room, &length);
    show_bytes(out, no, bytes, room, length);
}
