/* Answers every case of a file in numbers, for host/cross-test to compare: the same program for each machine (answers.mjs is its twin for wasm32).
   usage: answers CASES OUT

   A case: `MACHINE BUDGET WORK NAMES CELLS TEXT` on a line, with MACHINE 0 for drive_run and 1 for drive_mark, the lengths to lend, CELLS -1 for
   an undefined store of the script's size; then TEXT bytes, then a line `VALUE MARK` for each of CELLS.
   Its answer: a line for each reply, whose last number is 1 if the working list was left as the header says; the names and whether those past
   the cells were left; the store. It uses no printf of 64 bits, which not every C library has. */
#include "drive.h"
#include <stdio.h>
#include <stdlib.h>
#include <string.h>

#define SPARE 8u /* elements past a length that a call may use */
#define UNTOUCHED 0xa5a5a5a5u

static uint8_t text[DRIVE_TEXT + 1u];
static uint32_t work[DRIVE_WORK + SPARE];
static uint64_t names[DRIVE_CELLS + SPARE];
static int64_t values[DRIVE_CELLS + SPARE];
static uint8_t marks[DRIVE_CELLS + SPARE];
static FILE *in, *out;

struct asked {
    int mark;
    uint32_t budget;
    uint64_t work_len, names_len, cells, text_len;
};

/* ---- numbers, as text */

static int64_t read_number(void)
{
    int c = getc(in);
    int minus = c == '-';
    uint64_t n = 0;
    for (c = minus ? getc(in) : c; c >= '0' && c <= '9'; c = getc(in))
        n = n * 10u + (uint64_t)(c - '0');
    if (c != ' ' && c != '\n') {
        fprintf(stderr, "answers: the cases are not as they should be\n");
        exit(2);
    }
    return minus ? -(int64_t)(n - 1u) - 1 : (int64_t)n;
}

static void put_number(int64_t n, char after)
{
    char digits[24];
    size_t at = sizeof digits;
    uint64_t left = n < 0 ? (uint64_t)(-(n + 1)) + 1u : (uint64_t)n;
    do {
        digits[--at] = (char)('0' + (char)(left % 10u));
        left /= 10u;
    } while (left != 0u);
    if (n < 0)
        digits[--at] = '-';
    fwrite(digits + at, 1, sizeof digits - at, out);
    putc(after, out);
}

/* ---- a call and what it left */

static void soil_work(void)
{
    for (size_t i = 0; i < DRIVE_WORK + SPARE; i++)
        work[i] = UNTOUCHED;
}

/* 0 in the first DRIVE_WORK numbers, or all if fewer were lent; the others as before. */
static int work_is_left(uint64_t lent)
{
    size_t cleared = lent < DRIVE_WORK ? (size_t)lent : DRIVE_WORK;
    int good = 1;
    for (size_t i = 0; i < DRIVE_WORK + SPARE; i++)
        good &= work[i] == (i < cleared ? 0u : UNTOUCHED);
    return good;
}

static void put_reply(drive_reply r, const struct asked *a)
{
    put_number((int64_t)r.refusal, ' ');
    put_number((int64_t)r.outcome, ' ');
    put_number((int64_t)r.line, ' ');
    put_number((int64_t)r.cells, ' ');
    put_number(r.exception, ' ');
    put_number((int64_t)r.statement, ' ');
    put_number((int64_t)r.steps, ' ');
    put_number(work_is_left(a->work_len), '\n');
    soil_work();
}

static void put_names(const struct asked *a, uint64_t cells)
{
    size_t told = (size_t)(cells < a->names_len ? cells : a->names_len);
    int good = 1;
    for (size_t i = told; i < DRIVE_CELLS + SPARE; i++)
        good &= names[i] == UNTOUCHED;
    for (size_t i = 0; i < told; i++)
        put_number((int64_t)names[i], ' ');
    put_number(good, '\n');
}

/* ---- a case */

static int next_case(struct asked *a)
{
    int c = getc(in);
    if (c == EOF)
        return 0;
    ungetc(c, in);
    a->mark = (int)read_number();
    a->budget = (uint32_t)read_number();
    a->work_len = (uint64_t)read_number();
    a->names_len = (uint64_t)read_number();
    a->cells = (uint64_t)read_number();
    a->text_len = (uint64_t)read_number();
    if (a->text_len > sizeof text || (a->cells > DRIVE_CELLS + SPARE && a->cells != UINT64_MAX) || fread(text, 1, (size_t)a->text_len, in) != a->text_len) {
        fprintf(stderr, "answers: a case is too long\n");
        exit(2);
    }
    return 1;
}

static void lend_store(struct asked *a, uint64_t cells)
{
    int undefined = a->cells == UINT64_MAX;
    memset(values, 0, sizeof values);
    memset(marks, 0, sizeof marks);
    a->cells = undefined ? cells : a->cells;
    for (size_t i = 0; !undefined && i < a->cells; i++) {
        values[i] = read_number();
        marks[i] = (uint8_t)read_number();
    }
}

static void answer(struct asked *a)
{
    drive_reply r;
    for (size_t i = 0; i < DRIVE_CELLS + SPARE; i++)
        names[i] = UNTOUCHED;
    put_reply(drive_verdict(text, a->text_len, work, a->work_len), a);
    put_reply(drive_cells(text, a->text_len, work, a->work_len), a);
    r = (a->mark ? drive_mark_owners : drive_owners)(text, a->text_len, work, a->work_len, names, a->names_len);
    put_reply(r, a);
    put_names(a, r.cells);
    lend_store(a, r.cells);
    put_reply((a->mark ? drive_mark : drive_run)(text, a->text_len, work, a->work_len, values, a->cells, marks, a->cells, a->budget), a);
    for (size_t i = 0; i < a->cells + SPARE && i < DRIVE_CELLS + SPARE; i++) {
        put_number(values[i], ' ');
        put_number((int64_t)marks[i], ' ');
    }
    putc('\n', out);
}

int main(int argc, char **argv)
{
    struct asked a;
    in = argc == 3 ? fopen(argv[1], "rb") : NULL;
    out = argc == 3 ? fopen(argv[2], "wb") : NULL;
    if (in == NULL || out == NULL) {
        fprintf(stderr, "usage: answers CASES OUT\n");
        return 2;
    }
    soil_work();
    while (next_case(&a))
        answer(&a);
    return fclose(out) != 0;
}
