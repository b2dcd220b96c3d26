/* The start of a test program on a bare Cortex-M7: the vector table, the floating-point unit for the C library, and an end for every fault. */
#include <stdint.h>

#define CPACR (*(volatile uint32_t *)0xe000ed88u)
#define CPACR_FPU (0xfu << 20)
#define FAULTS 14u /* exceptions 2 to 15: all end the test */
#define EXIT_EXTENDED 0x20u
#define APPLICATION_EXIT 0x20026u
#define FAULT_STATUS 70u

extern char __stack[];
void _start(void);
void reset(void);

void reset(void)
{
    CPACR |= CPACR_FPU;
    __asm volatile("dsb\n\tisb");
    _start();
}

/* Ends QEMU with a status that is no test's own. */
static void fault(void)
{
    static const uint32_t ending[2] = {APPLICATION_EXIT, FAULT_STATUS};
    register uint32_t what __asm("r0") = EXIT_EXTENDED;
    register const uint32_t *told __asm("r1") = ending;
    __asm volatile("bkpt 0xab" : : "r"(what), "r"(told) : "memory");
    for (;;) {
    }
}

static const struct {
    char *stack;
    void (*reset)(void);
    void (*faults[FAULTS])(void);
} vectors __attribute__((section(".vectors"), used)) = {
    __stack, reset, {fault, fault, fault, fault, fault, fault, fault, fault, fault, fault, fault, fault, fault, fault}};
