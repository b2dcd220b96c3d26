/* Measures the stack that a call takes: it runs on a stack that was filled with a pattern, and the bytes that lost the pattern are counted, less
   those that are taken where nothing is called. The texts are the worst that are known.
   usage: stack LIMIT MARK_LIMIT    exit status 1 if a verdict or run takes more than LIMIT bytes, or a marking more than MARK_LIMIT
          stack texts FOLDER        writes the texts there, and measures nothing */
#define _GNU_SOURCE
#include "drive.h"
#include <stdio.h>
#include <stdlib.h>
#include <string.h>

#if defined(__ARM_ARCH_PROFILE) && __ARM_ARCH_PROFILE == 'M'
#define BARE 1
#define STACK (2u << 20)
#else
#include <pthread.h>
#define BARE 0
#define STACK (8u << 20)
#endif
#define PATTERN 0xa5

static uint8_t stack[STACK] __attribute__((aligned(4096)));
static uint8_t text[DRIVE_TEXT + 1];
static size_t len;
static uint32_t work[DRIVE_WORK];
static int64_t values[DRIVE_CELLS];
static uint8_t marks[DRIVE_CELLS];
static uint64_t names[1];
static drive_reply reply, marked;

/* ---- the calls, each a thread's work */

static void *call_nothing(void *p)
{
    return p;
}

static void *call_verdict(void *p)
{
    reply = drive_verdict(text, len, work, DRIVE_WORK);
    return p;
}

static void *call_run(void *p)
{
    uint64_t cells = drive_cells(text, len, work, DRIVE_WORK).cells;
    memset(values, 0, sizeof values);
    memset(marks, 0, sizeof marks);
    reply = drive_run(text, len, work, DRIVE_WORK, values, cells, marks, cells, 100000);
    return p;
}

static void *call_mark(void *p)
{
    uint64_t cells = drive_mark_owners(text, len, work, DRIVE_WORK, names, 0).cells;
    memset(values, 0, sizeof values);
    memset(marks, 0, sizeof marks);
    marked = drive_mark(text, len, work, DRIVE_WORK, values, cells, marks, cells, 100000);
    return p;
}

#if BARE
/* On a controller: the stack pointer is moved for the call. */
static void call_on_stack(void *(*call)(void *))
{
    __asm volatile("mov r4, sp\n\tmov sp, %0\n\tblx %1\n\tmov sp, r4"
                   :
                   : "r"(stack + STACK), "r"(call)
                   : "r0", "r1", "r2", "r3", "r4", "r12", "lr", "cc", "memory");
}
#else
static void call_on_stack(void *(*call)(void *))
{
    pthread_attr_t attr;
    pthread_t thread;
    pthread_attr_init(&attr);
    if (pthread_attr_setstack(&attr, stack, STACK) != 0 || pthread_create(&thread, &attr, call, NULL) != 0) {
        fprintf(stderr, "stack: no thread\n");
        exit(2);
    }
    pthread_join(thread, NULL);
    pthread_attr_destroy(&attr);
}
#endif

static size_t used_by(void *(*call)(void *))
{
    size_t free = 0;
    memset(stack, PATTERN, STACK);
    call_on_stack(call);
    while (free < STACK && stack[free] == PATTERN)
        free++;
    return STACK - free;
}

/* ---- texts */

static const char declarations[] = "(type t (range 0 9))\n(type s (setof t))\n(type r (array t t))\n(var a integer)\n(var b s)\n(var c r)\n";

static void put(const char *s)
{
    size_t n = strlen(s);
    if (len + n > DRIVE_TEXT) {
        fprintf(stderr, "stack: a text is too long\n");
        exit(2);
    }
    memcpy(text + len, s, n);
    len += n;
}

static void put_number(size_t n)
{
    char digits[24];
    snprintf(digits, sizeof digits, "%lu", (unsigned long)n); /* newlib may lack %zu */
    put(digits);
}

static void put_times(const char *s, size_t times)
{
    for (size_t i = 0; i < times; i++)
        put(s);
}

/* A line of one kind of part, many times. */
static void put_flat(const char *before, const char *part, size_t times, const char *after)
{
    put(declarations);
    put(before);
    put_times(part, times);
    put(after);
}

/* A line of a form within itself. */
static void put_nested(const char *head, const char *before, size_t times, const char *inmost, const char *after, const char *end)
{
    put(head);
    put_times(before, times);
    put(inmost);
    put_times(after, times);
    put(end);
}

/* Calls from `main` through 32 procedures, each from within a form that is nested; `head` opens one bracket that stays open. Each procedure has
   the parameter list, each call the arguments. */
static void put_calls(const char *list, const char *arguments, const char *head, const char *before, size_t times, const char *after)
{
    put(declarations);
    for (size_t i = 1; i <= 33; i++) {
        put(i <= 32 ? "(proc p" : "(main");
        if (i <= 32) {
            put_number(i);
            put(list);
        }
        put(head);
        put_times(before, times);
        put(i > 1 ? "(call p" : "(:= a ");
        put_number(i > 1 ? i - 1 : 1);
        put(i > 1 ? arguments : "");
        put(")");
        put_times(after, times);
        put("))\n");
    }
}

/* ---- the table */

static size_t idle, most_checked, most_ran, most_marked;
static const char *folder; /* where the texts go, if they are only written */

static void print_ending(drive_reply r)
{
    static const char *const outcomes[] = {"normal", "exception", "spent", "stuck"};
    if (r.refusal != 0)
        printf("  refused %u %lu", (unsigned)r.refusal, (unsigned long)r.line);
    else
        printf("  %s %u", outcomes[r.outcome], (unsigned)r.steps);
}

static void print_bytes(size_t checked, size_t ran, size_t by_mark)
{
    printf("%9lu %9lu %9lu", (unsigned long)checked, (unsigned long)ran, (unsigned long)by_mark);
}

/* The bytes that a call takes. */
static size_t taken(void *(*call)(void *), size_t *most)
{
    size_t used = used_by(call) - idle;
    *most = used > *most ? used : *most;
    return used;
}

static void write_text(void)
{
    static unsigned number;
    char path[512];
    FILE *f;
    snprintf(path, sizeof path, "%s/%02u.txt", folder, ++number);
    f = fopen(path, "wb");
    if (f == NULL || fwrite(text, 1, len, f) != len || fclose(f) != 0) {
        fprintf(stderr, "stack: %s cannot be written\n", path);
        exit(2);
    }
    len = 0;
}

static void measure(const char *what)
{
    size_t checked = taken(call_verdict, &most_checked);
    size_t ran = taken(call_run, &most_ran);
    size_t by_mark = taken(call_mark, &most_marked);
    printf("%-46s %6lu ", what, (unsigned long)len);
    print_bytes(checked, ran, by_mark);
    print_ending(reply);
    if (reply.refusal != marked.refusal)
        print_ending(marked);
    printf("\n");
    len = 0;
}

static void row(const char *what)
{
    if (folder != NULL)
        write_text();
    else
        measure(what);
}

static void rows_of_long_lines(void)
{
    put("(main)\n");
    row("(main)");
    put_flat("(main (:= b (members s", " 1", 4060, ")))\n");
    row("4,060 members");
    put_flat("(main (case a (arm", " 1", 16200, " (begin))))\n");
    row("16,200 labels");
    put_flat("(main", " (begin)", 2030, ")\n");
    row("2,030 statements");
    put_flat("(main ", "a()", 10850, ")\n");
    row("21,700 nodes on a line");
    put_flat("(proc p(", "(x t)", 6500, "))\n");
    row("6,500 parameters");
    put_flat("(proc p ((x t)))\n(main (call p", " a", 16200, "))\n");
    row("16,200 arguments");
}

static void nested(const char *what, const char *before, size_t times, const char *inmost, const char *after)
{
    put(declarations);
    put_nested("(main ", before, times, inmost, after, ")\n");
    row(what);
}

static void expression(const char *what, const char *before, size_t times, const char *inmost, const char *after)
{
    put(declarations);
    put_nested("(main (:= a ", before, times, inmost, after, "))\n");
    row(what);
}

static void rows_of_depth(void)
{
    nested("15 cases, one in another", "(case 1 (arm 1 ", 15, "(begin)", "))");
    nested("15 cases, one in another's else", "(case 1 (arm 2 (begin)) (else ", 15, "(begin)", "))");
    nested("30 ifs", "(if true ", 30, "(begin)", ")");
    nested("30 ifs, one in another's second part", "(if false (begin) ", 30, "(begin)", ")");
    nested("30 begins", "(begin ", 30, "(begin)", ")");
    nested("30 whiles", "(while true ", 30, "(begin)", ")");
    put(declarations);
    put_nested("(proc p ((x integer) (y integer)))\n(main (call p 1 ", "(+ 1 ", 29, "1", ")", "))\n");
    row("an argument of 29 sums");
    expression("30 sums", "(+ 1 ", 30, "1", ")");
    expression("30 minus signs", "(- ", 30, "a", ")");
    expression("30 indices", "(at c ", 30, "1", ")");
    expression("15 sets", "(setmin (members s ", 15, "1", "))");
    expression("a power", "(** 1 2147483647", 1, "", ")");
    expression("30 sums, the inmost of kinds that do not fit", "(+ 1 ", 30, "true", ")");
}

static void calls(const char *what, const char *head, const char *before, size_t times, const char *after)
{
    put_calls("", "", head, before, times, after);
    row(what);
}

static void calls_with_arguments(const char *what, const char *head, const char *before, size_t times, const char *after)
{
    put_calls(" ((x t) (y t) (z integer))", " 1 2 3", head, before, times, after);
    row(what);
}

static void rows_of_calls(void)
{
    calls("32 calls", " (begin ", "", 0, "");
    calls("32 calls, each from a handler", " (raise 1) (exception ", "", 0, "");
    calls("32 calls, each in 30 begins", " (begin ", "(begin ", 29, ")");
    calls("32 calls, each in 29 begins in a handler", " (raise 1) (exception ", "(begin ", 29, ")");
    calls("32 calls, each in 30 ifs", " (if true ", "(if true ", 29, ")");
    calls("32 calls, each in 14 cases", " (begin ", "(case 1 (arm 1 ", 14, "))");
    calls("32 calls, each in 30 whiles", " (while true ", "(while true ", 29, ")");
    calls("32 calls, each in 29 whiles in a handler", " (raise 1) (exception ", "(while true ", 29, ")");
    calls_with_arguments("32 calls of 3 arguments", " (begin ", "", 0, "");
    calls_with_arguments("32 calls of 3 arguments, in 30 begins", " (begin ", "(begin ", 29, ")");
    calls_with_arguments("32 calls of 3 arguments, in 14 cases", " (begin ", "(case 1 (arm 1 ", 14, "))");
}

static void all_rows(void)
{
    rows_of_long_lines();
    rows_of_depth();
    rows_of_calls();
}

int main(int argc, char **argv)
{
    size_t limit = argc == 3 ? strtoul(argv[1], NULL, 10) : 0;
    size_t mark_limit = argc == 3 ? strtoul(argv[2], NULL, 10) : 0;
    folder = argc == 3 && strcmp(argv[1], "texts") == 0 ? argv[2] : NULL;
    if (folder != NULL) {
        all_rows();
        return 0;
    }
    idle = used_by(call_nothing);
    printf("%-46s %6s %9s %9s %9s  bytes of stack\n", "text", "bytes", "verdict", "run", "mark");
    all_rows();
    printf("%-46s %6s ", "most", "");
    print_bytes(most_checked, most_ran, most_marked);
    printf("\n");
    return most_checked > limit || most_ran > limit || most_marked > mark_limit;
}
