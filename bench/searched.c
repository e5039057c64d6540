// The proved search as a caller in C has it, under the bound that is named, and what it answers, as the twin writes it: searched CHOICE < TEXT
#include "../c/olikumpasho.h"
#include <inttypes.h>
#include <stdio.h>
#include <stdlib.h>

enum { MOST_INPUT = 65536, ROWS = 512, WORDS = OLIKUMPASHO_DESK_WORDS(ROWS) };

static uint8_t text[MOST_INPUT];
static uint64_t table[OLIKUMPASHO_TABLE_WORDS(ROWS)], desk[WORDS];

static void asked(uint64_t no)
{
    if (no == 0)
        return;
    printf("status=refused\nnumber=%u\nplace=%" PRIu64 "\n", OLIKUMPASHO_NUMBER(no), OLIKUMPASHO_PLACE(no));
    exit(1);
}

static void write_reading(uint64_t variables, uint64_t reading)
{
    for (unsigned v = 0; v < variables; v++)
        printf("%s%s%u", v ? " " : "", reading >> v & 1 ? "" : "-", v + 1);
}

int main(int count, char **words)
{
    uint64_t choice = count > 1 ? strtoull(words[1], NULL, 10) : OLIKUMPASHO_UNITS;
    uint64_t head[3], losses[OLIKUMPASHO_LOSSES_WORDS], found[OLIKUMPASHO_FOUND_WORDS];
    asked(olikumpasho_read(text, fread(text, 1, sizeof text, stdin), table, OLIKUMPASHO_TABLE_WORDS(ROWS), head));
    asked(olikumpasho_load(head[0], table, OLIKUMPASHO_TABLE_WORDS(head[2]), ROWS, desk, WORDS));
    asked(olikumpasho_bound(desk, WORDS, choice, losses));
    asked(olikumpasho_search(desk, WORDS, choice, (uint32_t)head[1], found));
    printf("status=%s\n", (const char *[]){"done", "stopped", "impossible"}[found[OLIKUMPASHO_FOUND_STATUS]]);
    if (found[1])
        printf("weight=%" PRIu64 "\n", found[OLIKUMPASHO_FOUND_WEIGHT]);
    else
        printf("weight=none\n");
    printf("nodes=%" PRIu64 "\nreading=", found[OLIKUMPASHO_FOUND_NODES]);
    if (found[1])
        write_reading(head[0], found[OLIKUMPASHO_FOUND_READING]);
    else
        printf("none");
    printf("\nconceded=%" PRIu64 "\nlost=%" PRIu64 "\nforeseen=%" PRIu64 "\n", losses[0], losses[OLIKUMPASHO_LOSSES_LOST], losses[OLIKUMPASHO_LOSSES_FORESEEN]);
    return 0;
}
