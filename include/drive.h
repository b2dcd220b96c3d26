/* Drive scripts, checked, run and marked: the functions of libhostlink.a (`rt lib` in crates/hostlink). Each function is proved to do what
   it says here, for every text, list and budget; docs/EMBEDDING.md says what that covers on machines other than x86-64 (`tools/cross`).

   All widths are fixed, lengths too: the proof's lengths have 64 bits, on every machine. C99, C11 or later, or C++11 or later.

   What the caller provides
     - Each pointer points to at least as many elements as the length beside it says; it is not null, also where the length
       is 0. The buffers of one call do not overlap.
     - Any length is allowed. One that a call cannot use is answered by a refusal; nothing past a length is read or written.
     - Stack: see docs/EMBEDDING.md. No heap, no global state, no input or output: calls in several threads need only
       buffers of their own.

   What every call leaves
     - The first DRIVE_WORK numbers of the working list, or all if there are fewer, are 0; any further ones are untouched.
       What they were before does not matter.
     - The text is only read.  */
#ifndef DRIVE_H
#define DRIVE_H

#include <stddef.h>
#include <stdint.h>

#ifdef __cplusplus
extern "C" {
#endif

/* The header's version. A host that was written for another major number must be changed. */
#define DRIVE_VERSION_MAJOR 1 /* raised where a layout, a signature or a promise changes so that a host's code no longer fits */
#define DRIVE_VERSION_MINOR 3 /* the language: how many requests of document 02 have landed */

#define DRIVE_WORK 16384u /* numbers in the working list; with fewer every text is refused by DRIVE_BENCH */
#define DRIVE_TEXT 32768u /* most bytes of a text */
#define DRIVE_CELLS 2048u /* most cells of a script */

/* Refusals. The order: 1, 2, then 3 at the first such byte, then the first faulty line by the lowest of 4 to 9 that applies
   to it, then 10, 11. */
enum {
    DRIVE_BENCH = 1,   /* working list shorter than DRIVE_WORK */
    DRIVE_LENGTH = 2,  /* text over DRIVE_TEXT bytes */
    DRIVE_BYTE = 3,    /* a byte that no script may have */
    DRIVE_BRACKET = 4, /* line not one balanced form, depth over 32, or no line feed at its end */
    DRIVE_WORD = 5,    /* a word that is no name, number or operator */
    DRIVE_FORM = 6,    /* shape not in the list, as an empty parameter list; line after `main`; `main` missing */
    DRIVE_NAME = 7,    /* name unknown, of the wrong sort, or declared twice, as a parameter named like a variable before it */
    DRIVE_TYPE = 8,    /* kinds don't fit; more or fewer arguments than parameters; a parameter of an array or record; range reversed;
                          label repeated; loop variable assigned */
    DRIVE_LIMIT = 9,   /* a ceiling passed; parameters count among the variables and cells */
    DRIVE_STORE = 10,  /* a store list whose length isn't the script's cell count */
    DRIVE_CELL = 11    /* mark not 0 or 1; mark 0 with a value other than 0; mark 1 with a value outside its type */
};

/* Outcomes of a run. */
enum {
    DRIVE_NORMAL = 0,    /* the script came to its end */
    DRIVE_EXCEPTION = 1, /* an exception that nothing handled */
    DRIVE_SPENT = 2,     /* the budget was used up and one more step was due */
    DRIVE_STUCK = 3      /* drive_mark only: kinds that do not fit were met */
};

/* Exceptions. Any other number is the script's own, by `raise`. */
enum {
    DRIVE_NUMERIC_ERROR = -101,   /* result outside -2147483648 to 2147483647, divisor, exponent */
    DRIVE_SYSTEM_ERROR = -102,    /* `raise 0` before any exception */
    DRIVE_RANGE_ERROR = -103,     /* index, assignment, argument, `for` bound or member outside its type; pred, succ, setmin, setmax of nothing */
    DRIVE_UNDEFINED_ERROR = -104, /* an undefined cell was read; a loop's variable is one after the loop */
    DRIVE_CASE_ERROR = -105       /* no label and no else */
};

/* The answer of a call. What a call has nothing to say of is 0. */
typedef struct drive_reply {
    uint32_t refusal;   /* 0, or a refusal; then only `line` says more */
    uint32_t outcome;   /* drive_run, drive_mark: DRIVE_NORMAL, DRIVE_EXCEPTION or DRIVE_SPENT; drive_mark also DRIVE_STUCK */
    uint64_t line;      /* of a refusal, from 1; 0 for refusals 1, 2, 10, 11; one past the last for a missing `main` */
    uint64_t cells;     /* drive_cells, drive_owners, drive_mark_owners: how many cells the script's `var` lines have, 0 to DRIVE_CELLS */
    int64_t exception;  /* the exception's number, in 32 bits */
    uint32_t statement; /* the exception's statement, counted from 1 over the text by opening bracket */
    uint32_t steps;     /* drive_run, drive_mark: the steps taken, at most the budget */
} drive_reply;

/* A compiler that lays things out in another way is told so here, and not by a wrong answer. */
#if defined(__cplusplus)
#define DRIVE_ASSERT(what, is_so) static_assert(is_so, #what)
#elif defined(__STDC_VERSION__) && __STDC_VERSION__ >= 201112L
#define DRIVE_ASSERT(what, is_so) _Static_assert(is_so, #what)
#else
#define DRIVE_ASSERT(what, is_so) typedef char what[(is_so) ? 1 : -1]
#endif
DRIVE_ASSERT(drive_outcome_at_4, offsetof(drive_reply, outcome) == 4u);
DRIVE_ASSERT(drive_line_at_8, offsetof(drive_reply, line) == 8u);
DRIVE_ASSERT(drive_cells_at_16, offsetof(drive_reply, cells) == 16u);
DRIVE_ASSERT(drive_exception_at_24, offsetof(drive_reply, exception) == 24u);
DRIVE_ASSERT(drive_statement_at_32, offsetof(drive_reply, statement) == 32u);
DRIVE_ASSERT(drive_steps_at_36, offsetof(drive_reply, steps) == 36u);
DRIVE_ASSERT(drive_reply_has_40_bytes, sizeof(drive_reply) == 40u);
DRIVE_ASSERT(drive_pointers_fit_8_bytes, sizeof(void *) <= 8u);
#undef DRIVE_ASSERT

/* The verdict on a text: a refusal of 1 to 9, or none, and then the text may be loaded. */
drive_reply drive_verdict(const uint8_t *text, uint64_t text_len, uint32_t *work, uint64_t work_len);

/* The same, and the number of cells. */
drive_reply drive_cells(const uint8_t *text, uint64_t text_len, uint32_t *work, uint64_t work_len);

/* The same as drive_cells; and where there is no refusal, names[i] becomes the offset in the text of the name of cell i's variable, for
   each cell that `names` has room for. The name goes up to the next space, bracket or line feed; case is ignored in names.
   All other elements of `names` stay as they were: those past the cells, and on a refusal all of them. */
drive_reply drive_owners(const uint8_t *text, uint64_t text_len, uint32_t *work, uint64_t work_len, uint64_t *names, uint64_t names_len);

/* Checks a text, tests the store, and runs the script on it for at most `budget` steps. Any refusal of 1 to 11 leaves the store
   as lent. The store is two lists, each as long as the script has cells: values, and marks (0 undefined, then the value is 0;
   1 defined). The cells of a variable lie together, variables in the order of their lines; parameters are not among them. After an exception and after a spent
   run too, the store is as the steps taken left it, and may be lent again. */
drive_reply drive_run(const uint8_t *text, uint64_t text_len, uint32_t *work, uint64_t work_len, int64_t *values, uint64_t values_len,
                      uint8_t *marks, uint64_t marks_len, uint32_t budget);

/* ---- the marking machine, for a desk program. It keeps a type with every value, and runs a text also where kinds do not fit inside the
   bodies of `proc` and `main`, until it meets such a place. It is slower than drive_run. The chair runs nothing by it. */

/* As drive_owners, of a text that drive_mark takes: a refusal of 1 to 9, where 8 for kinds that do not fit inside a body is left out, or
   none. With names_len 0 it only counts the cells. */
drive_reply drive_mark_owners(const uint8_t *text, uint64_t text_len, uint32_t *work, uint64_t work_len, uint64_t *names, uint64_t names_len);

/* As drive_run, by the marking machine: the refusals are those of drive_mark_owners, 10 and 11. Where the next part to be carried out
   meets kinds that do not fit, the outcome is DRIVE_STUCK, which no handler takes; the steps include that of the statement that met
   them, and the store is as the steps taken left it. For a text that drive_verdict accepts, reply and store are those of drive_run. */
drive_reply drive_mark(const uint8_t *text, uint64_t text_len, uint32_t *work, uint64_t work_len, int64_t *values, uint64_t values_len,
                       uint8_t *marks, uint64_t marks_len, uint32_t budget);

#ifdef __cplusplus
}
#endif

#endif
