/* The smallest host: `embed run|mark [STORE]` reads a script from standard input, runs it with a budget of 10,000 steps, and prints as
   `runscript` does, or by the marking machine as `markscript`. STORE is a file with a line `VALUE MARK` for each cell; without it every cell
   is undefined. It uses no heap; all buffers are the caller's. */
#include "drive.h"
#include <inttypes.h>
#include <stdio.h>
#include <string.h>

static uint8_t text[DRIVE_TEXT + 1]; /* one byte more, so that a text that is too long is refused and not cut */
static uint32_t work[DRIVE_WORK];
static uint64_t names[DRIVE_CELLS];
static int64_t values[DRIVE_CELLS];
static uint8_t marks[DRIVE_CELLS];

static void print_name(uint64_t at, uint64_t len)
{
    for (; at < len && text[at] > ' ' && text[at] != '(' && text[at] != ')'; at++)
        putchar(text[at] >= 'A' && text[at] <= 'Z' ? text[at] + 'a' - 'A' : text[at]);
}

static void print_outcome(drive_reply r)
{
    if (r.refusal != 0)
        printf("refused %" PRIu32 " %" PRIu64 "\n", r.refusal, r.line);
    else if (r.outcome == DRIVE_NORMAL)
        printf("normal %" PRIu32 "\n", r.steps);
    else if (r.outcome == DRIVE_EXCEPTION)
        printf("exception %" PRId64 " %" PRIu32 " %" PRIu32 "\n", r.exception, r.statement, r.steps);
    else
        printf("%s %" PRIu32 "\n", r.outcome == DRIVE_SPENT ? "spent" : "stuck", r.steps);
}

static void print_cell(uint64_t i, uint64_t len)
{
    printf("%" PRIu64 " ", i + 1u);
    print_name(names[i], len);
    if (marks[i] == 1)
        printf(" %" PRId64 "\n", values[i]);
    else
        printf(" -\n");
}

/* Reads the cells at the start; returns how many there are. */
static size_t read_store(const char *path)
{
    size_t n = 0;
    FILE *file = fopen(path, "r");
    while (file != NULL && n < DRIVE_CELLS && fscanf(file, "%" SCNd64 " %" SCNu8, &values[n], &marks[n]) == 2)
        n++;
    if (file != NULL)
        fclose(file);
    return n;
}

int main(int argc, char **argv)
{
    int mark = argc > 1 && strcmp(argv[1], "mark") == 0;
    size_t len = fread(text, 1, sizeof text, stdin);
    drive_reply r = (mark ? drive_mark_owners : drive_owners)(text, len, work, DRIVE_WORK, names, DRIVE_CELLS);
    uint64_t cells = r.cells;
    uint64_t lent = argc > 2 ? read_store(argv[2]) : cells;
    if (r.refusal == 0)
        r = (mark ? drive_mark : drive_run)(text, len, work, DRIVE_WORK, values, lent, marks, lent, 10000);
    print_outcome(r);
    for (uint64_t i = 0; r.refusal == 0 && i < cells; i++)
        print_cell(i, len);
    return r.refusal != 0 || r.outcome != DRIVE_NORMAL;
}
