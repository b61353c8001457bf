/* What a program of newlib needs to start on a bare Cortex-M4, here qemu's mps2-an386: the table of vectors at 0, which names the stack's end and
 * what runs first, and the unit for floating point switched on, for programs that use it. */
#include <stdint.h>

extern void _start(void);

static void reset(void) {
    *(volatile uint32_t *)0xE000ED88 |= 0xFu << 20; /* CPACR */
    __asm volatile("dsb\n\tisb");
    _start();
}

__attribute__((section(".vectors"), used)) static const struct {
    void *stack;
    void (*first)(void);
} vectors = {(void *)0x22000000, reset};
