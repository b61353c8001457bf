/* Measures the stack that each function of nafelode.h uses: a random list of calls, each on a stack
 * that was painted before, of which the calls then have changed the upper part. A call uses what lies
 * below the stack pointer that it is made with, and x86-64's return address. Usage: stack; exit
 * status 0 if none used more than NAFELODE_STACK, every function was accepted at least once,
 * an allocation added masters, a create dropped pages, and a census went by lent limits. */
#define _XOPEN_SOURCE 700
#include <stdio.h>
#include <string.h>
#include <ucontext.h>
#include "nafelode.h"

enum { CALLS = 27, LIST = 40000, STACK = 32768, LENGTH = 2048 };
static uint8_t zone[LENGTH], second[4096], limits[NAFELODE_LIMITS_LENGTH], stack[STACK];
static uint32_t which, a, b, c, d, e, walker, number, counts[NAFELODE_STRATA];
static uint32_t value, other, third; /* what a call answers beside its number */
static ucontext_t here, there;

/* The stack pointer that a call is made with. Paint does not show it: the caller's frame ends with
 * places for arguments, which a call without any leaves as they are. */
uintptr_t made_with(void);
#if defined __x86_64__ /* what read, write and view are passed on the stack is pushed, and counts as theirs */
#define MADE_WITH "lea 8(%rsp), %rax\n ret"
#elif defined __aarch64__
#define MADE_WITH "mov x0, sp\n ret"
#elif defined __riscv
#define MADE_WITH "mv a0, sp\n ret"
#elif defined __arm__ && !defined __thumb__
#define MADE_WITH "mov r0, sp\n bx lr"
#else
#error "the stack pointer of this processor is not read here"
#endif
__asm__(".text\n.globl made_with\n.type made_with, %function\nmade_with: " MADE_WITH);
static uintptr_t pointer;

static uint32_t random_below(uint32_t n) {
    static uint64_t state = 20260311;
    state = state * 6364136223846793005u + 1442695040888963407u;
    return (uint32_t)(state >> 33) % n;
}

/* by handle, by pointer or by name */
static uint32_t block(void) { return d % 3 == 0 ? a : d % 3 == 1 ? b : e; }

/* Pages by the walker, which is none of the calls that are measured then. */
static unsigned pages(void) {
    unsigned n = 0;
    uint32_t at = nafelode_walker_start(zone, LENGTH), block_type, offset, size;
    while (at && nafelode_walker_step(zone, LENGTH, &at, &block_type, &offset, &size) == 0 && size) n += block_type == NAFELODE_TYPE_PAGE;
    return n;
}

#define Z zone, LENGTH
#define CASE(n, call) case n: number = (call); break
static void call(void) {
    switch (which) {
        CASE(0, nafelode_initialize(Z, 1024 + 4 * a, d));
        CASE(1, nafelode_allocate_relocatable(Z, c, &value));
        CASE(2, nafelode_allocate_fixed(Z, c, &value));
        CASE(3, nafelode_free_handle(Z, a));
        CASE(4, nafelode_free_pointer(Z, b));
        CASE(5, nafelode_resize(Z, a, c));
        CASE(6, nafelode_size(Z, d % 3, block(), &value));
        CASE(7, nafelode_read(Z, d % 3, block(), 0, c, second, sizeof second));
        CASE(8, nafelode_write(Z, d % 3, block(), 0, c, second, sizeof second));
        CASE(9, (nafelode_view(Z, d % 3, block(), 0, c, &value), value == 0));
        CASE(10, nafelode_compact(Z, &value));
        CASE(11, nafelode_sum(Z, &value, &other));
        CASE(12, nafelode_check(Z, &value) == 0);
        CASE(13, nafelode_length(Z, &value));
        CASE(14, nafelode_enlarge(Z, c));
        CASE(15, nafelode_shrink(Z, c, &value));
        CASE(16, nafelode_roster(Z, second, sizeof second, &value));
        CASE(17, nafelode_census(Z, limits, d % 2 ? sizeof limits : 0, counts));
        CASE(18, (walker = nafelode_walker_start(Z)) == 0);
        CASE(19, nafelode_walker_step(Z, &walker, &value, &other, &third));
        CASE(20, nafelode_create_page(Z, e, c, &value));
        CASE(21, nafelode_use_page(Z, e, &value));
        CASE(22, nafelode_set_dirty(Z, e));
        CASE(23, nafelode_clear_dirty(Z, e));
        CASE(24, nafelode_set_lock(Z, e));
        CASE(25, nafelode_clear_lock(Z, e));
        CASE(26, nafelode_drop_page(Z, e));
        default: pointer = made_with();
    }
}

/* The lowest byte of the stack that a call has changed. */
static size_t lowest(void) {
    size_t low = 0;
    memset(stack, 0xA5, STACK);
    getcontext(&there);
    there.uc_stack.ss_sp = stack, there.uc_stack.ss_size = STACK, there.uc_link = &here;
    makecontext(&there, call, 0);
    swapcontext(&here, &there);
    while (low < STACK && stack[low] == 0xA5) low++;
    return low;
}

int main(void) {
    static const char *name[CALLS] = {"initialize", "allocate_relocatable", "allocate_fixed", "free_handle", "free_pointer",
        "resize", "size", "read", "write", "view", "compact", "sum", "check", "length", "enlarge", "shrink", "roster", "census",
        "walker_start", "walker_step", "create_page", "use_page", "set_dirty", "clear_dirty", "set_lock", "clear_lock", "drop_page"};
    size_t most[CALLS] = {0}, worst = 0;
    unsigned accepted[CALLS] = {0}, grown = 0, dropped = 0, by_limits = 0;
    for (unsigned i = 0; i < NAFELODE_STRATA; i++) limits[4 * i + 3] = (uint8_t)(2 + 3 * i); /* in words */
    which = CALLS;
    lowest();
    size_t top = (size_t)(pointer - (uintptr_t)stack);
    for (unsigned i = 0; i < LIST; i++) {
        which = i % 1000 ? 1 + random_below(CALLS - 1) : 0;
        a = 16 + 4 * random_below(24), c = random_below(8) ? random_below(60) : random_below(33000);
        d = 4 + random_below(20), b = 0, e = random_below(24);
        uint32_t at = nafelode_walker_start(Z), stop = random_below(30); /* b: the pointer of some fixed block */
        for (uint32_t k = 0; at && k < 60; k++) {
            uint32_t block_type, offset, size;
            nafelode_walker_step(Z, &at, &block_type, &offset, &size);
            if (block_type == NAFELODE_TYPE_FIXED) b = offset + NAFELODE_FIXED_HEADER;
            if (k >= stop && b) break;
        }
        unsigned masters = zone[11], before = pages();
        size_t low = lowest(), n = low < top ? top - low : 0;
        dropped += which == 20 && number == 0 && pages() <= before;
        grown += which == 1 && number == 0 && zone[11] > masters;
        by_limits += which == 17 && number == 0 && d % 2;
        if (n > most[which]) most[which] = n;
        if (number == 0) accepted[which]++;
    }
    int bad = 0;
    for (unsigned i = 0; i < CALLS; i++) {
        printf("  %4zu bytes of stack, %5u calls accepted: %s\n", most[i], accepted[i], name[i]);
        if (most[i] > worst) worst = most[i];
        bad |= accepted[i] == 0;
    }
    printf("allocations that added masters: %u; creates that dropped pages: %u; ", grown, dropped);
    printf("censuses by lent limits: %u\n", by_limits);
    printf("at most %zu bytes of stack; the header says %u\n", worst, NAFELODE_STACK);
    return bad || grown == 0 || dropped == 0 || by_limits == 0 || worst == 0 || worst > NAFELODE_STACK;
}
