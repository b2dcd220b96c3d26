/* Counts the instructions that calls take on a Cortex-M7 in QEMU: with `-icount shift=3` an instruction takes 8 ns of the board's time, and its
   dual timer counts one for 40 ns, so for 5 instructions. A loop whose instructions are known is counted first, and must come out.
   usage: instructions FILE ..    for each script: bytes, verdict, a run that takes no step, a run of up to STEPS, its steps, instructions a step */
#include "drive.h"
#include <stdio.h>

#define STEPS 100000u
#define TICK 5u /* instructions */
#define KNOWN 1000000u

#define TIMER_VALUE (*(volatile uint32_t *)0x40002004u)
#define TIMER_CONTROL (*(volatile uint32_t *)0x40002008u)
#define TIMER_ON 0x82u /* free running, 32 bits, not divided */

static uint8_t text[DRIVE_TEXT + 1u];
static size_t len;
static uint32_t work[DRIVE_WORK];
static int64_t values[DRIVE_CELLS];
static uint8_t marks[DRIVE_CELLS];
static uint64_t cells;
static drive_reply reply;

static void loop_of_known_length(void)
{
    uint32_t left = KNOWN / 2u;
    __asm volatile("1: subs %0, %0, #1\n\tbne 1b" : "+r"(left) : : "cc");
}

static void check(void)
{
    reply = drive_verdict(text, len, work, DRIVE_WORK);
}

/* On an undefined store, which must be made before. */
static void run_for(uint32_t budget)
{
    reply = drive_run(text, len, work, DRIVE_WORK, values, cells, marks, cells, budget);
}

static void run_nothing(void)
{
    run_for(0);
}

static void run_on(void)
{
    run_for(STEPS);
}

static unsigned long counted(void (*call)(void))
{
    uint32_t before;
    for (size_t i = 0; i < DRIVE_CELLS; i++) {
        values[i] = 0;
        marks[i] = 0;
    }
    before = TIMER_VALUE;
    call();
    return (unsigned long)(before - TIMER_VALUE) * TICK;
}

static int count_script(const char *path)
{
    FILE *f = fopen(path, "rb");
    unsigned long checked, ready, ran;
    if (f == NULL)
        return 1;
    len = fread(text, 1, sizeof text, f);
    fclose(f);
    cells = drive_cells(text, len, work, DRIVE_WORK).cells;
    checked = counted(check);
    ready = counted(run_nothing);
    ran = counted(run_on);
    printf("%-24s %6lu %10lu %10lu %12lu %7lu", path, (unsigned long)len, checked, ready, ran, (unsigned long)reply.steps);
    if (reply.steps > 0u)
        printf(" %6lu", (ran - ready) / (unsigned long)reply.steps);
    printf("\n");
    return reply.refusal != 0u;
}

int main(int argc, char **argv)
{
    unsigned long known;
    int bad = 0;
    TIMER_CONTROL = TIMER_ON;
    known = counted(loop_of_known_length);
    printf("%u instructions count as %lu\n", KNOWN, known);
    if (known < KNOWN - KNOWN / 1000u || known > KNOWN + KNOWN / 1000u)
        return 2;
    printf("%-24s %6s %10s %10s %12s %7s %6s\n", "script", "bytes", "verdict", "no step", "run", "steps", "a step");
    for (int i = 1; i < argc; i++)
        bad |= count_script(argv[i]);
    return bad;
}
