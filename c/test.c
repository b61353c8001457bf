/* Every function of nafelode.h: the rig sheet's rows, each refusal, that every value is written, and
 * that nothing around the lent buffers is touched. Both buffers lie flush against pages that nobody may read or write: first at
 * the end of their page, then at its start. Usage: test; exit status 0 if all is as expected. */
#define _DEFAULT_SOURCE
#include <stdio.h>
#include <string.h>
#include <sys/mman.h>
#include "nafelode.h"

enum { PAGE = 4096, LENGTH = 85, SECOND = 29 }; /* odd: at the end of a page both start at an odd address */
enum { STRATA = NAFELODE_STRATA, LIMITS = NAFELODE_LIMITS_LENGTH };
static uint8_t *zone_page, *second_page, *zone, *second;
static uint8_t zone_kept[PAGE], second_kept[PAGE];
static unsigned tests, wrong;

static void expect(int line, const char *what, uint32_t got, uint32_t want) {
    tests++;
    if (got != want) wrong++, printf("test.c:%d: %s is %u, not %u\n", line, what, got, want);
}

static int outside(const uint8_t *page, const uint8_t *kept, const uint8_t *at, size_t length) {
    size_t low = (size_t)(at - page), high = low + length;
    return memcmp(page, kept, low) == 0 && memcmp(page + high, kept + high, PAGE - high) == 0;
}

static void keep(void) { memcpy(zone_kept, zone_page, PAGE), memcpy(second_kept, second_page, PAGE); }

/* After a call: what it may not write is as it was. */
static void stayed(int line, uint32_t number, int zone_too, int second_too) {
    int whole_zone = memcmp(zone_page, zone_kept, PAGE) == 0, whole_second = memcmp(second_page, second_kept, PAGE) == 0;
    expect(line, "what lies around the zone has changed, which", !outside(zone_page, zone_kept, zone, LENGTH), 0);
    expect(line, "what lies around the second buffer has changed, which", !outside(second_page, second_kept, second, SECOND), 0);
    if (number || zone_too) expect(line, "the zone has changed, which", !whole_zone, 0);
    if (number || second_too) expect(line, "the second buffer has changed, which", !whole_second, 0);
}

static uint32_t number, value, other, third, counts[STRATA + 1]; /* what a call answers, and what goes through its pointers */
#define Z zone, LENGTH
#define V &value
/* Each value is set to this before a call, which has to write it. */
enum { UNWRITTEN = 0x0BAD0BAD };
static void unset(void) {
    value = other = third = UNWRITTEN;
    for (int i = 0; i <= STRATA; i++) counts[i] = UNWRITTEN;
}
/* a call with a value; one that moreover leaves the zone; one without a value; one that writes to the second buffer alone */
#define TOLD(call, n, v) (keep(), unset(), number = call, expect(__LINE__, #call, number, n), \
    expect(__LINE__, #call ", whose value", value, v), stayed(__LINE__, number, 0, 1))
#define TELLS(call, n, v) (TOLD(call, n, v), stayed(__LINE__, number, 1, 1))
#define DOES(call, n) (keep(), number = call, expect(__LINE__, #call, number, n), stayed(__LINE__, number, 0, 1))
#define READS(call, n) (keep(), unset(), number = call, expect(__LINE__, #call, number, n), stayed(__LINE__, number, 1, 0))
/* a call on another zone, with a value */
#define GIVES(call, n, v) (unset(), expect(__LINE__, #call, call, n), expect(__LINE__, #call ", whose value", value, v))
#define STEP(walker) nafelode_walker_step(Z, &(walker), &third, &other, V) /* type, offset and size */
#define IS(got, want) expect(__LINE__, #got, got, want)
#define FRESH() DOES(nafelode_initialize(Z, 64, 4), 0)

static uint32_t at(const uint8_t *p) { return (uint32_t)p[0] << 24 | (uint32_t)p[1] << 16 | (uint32_t)p[2] << 8 | p[3]; }

static void rig_sheet(void) {
    static const uint32_t r1[16] = {0x40, 0x20, 4, 0x00100000, 0x14, 0x18, 0x1C, 0, 0x10, 0, 0, 0, 0, 0, 0, 0};
    FRESH(); /* R1 */
    for (int i = 0; i < 16; i++) IS(at(zone + 4 * i), r1[i]);
    IS(zone[64], 0xA5); /* bytes beyond L are left alone */
    TOLD(nafelode_allocate_relocatable(Z, 6, V), 0, 16); /* R2 */
    IS(at(zone + 16), 36);
    IS(at(zone + 32), 0x80060010);
    TELLS(nafelode_size(Z, NAFELODE_HANDLE, 16, V), 0, 8);
    TOLD(nafelode_allocate_relocatable(Z, 8, V), 0, 20); /* R3 */
    IS(at(zone + 20), 48);
    DOES(nafelode_free_handle(Z, 16), 0);
    TELLS(nafelode_sum(Z, V, &other), 0, 20), IS(other, 20);
    TELLS(nafelode_census(Z, NULL, 0, counts), 0, UNWRITTEN); /* 12 bytes are 6 words, 8 bytes are 4 */
    for (int i = 0; i < STRATA; i++) IS(counts[i], i == 2 ? 2 : 0);
    IS(counts[STRATA], UNWRITTEN);
    TOLD(nafelode_allocate_relocatable(Z, 13, V), 0, 16);
    IS(at(zone + 20), 36), IS(at(zone + 16), 48);
    TELLS(nafelode_size(Z, NAFELODE_HANDLE, 16, V), 0, 16);
    TOLD(nafelode_allocate_relocatable(Z, 0, V), 5, 0); /* R4 */
    DOES(nafelode_resize(Z, 20, 4), 0);
    TOLD(nafelode_allocate_relocatable(Z, 0, V), 0, 24);
    TELLS(nafelode_size(Z, NAFELODE_HANDLE, 24, V), 0, 0);
    FRESH(); /* R5 */
    TOLD(nafelode_allocate_fixed(Z, 5, V), 0, 56);
    TELLS(nafelode_size(Z, NAFELODE_POINTER, 56, V), 0, 8);
    IS(at(zone + 52), 0x40060000);
    TOLD(nafelode_allocate_relocatable(Z, 17, V), 5, 0);
    TOLD(nafelode_allocate_relocatable(Z, 16, V), 0, 16);
    FRESH(); /* R6 */
    TOLD(nafelode_allocate_fixed(Z, 0, V), 0, 64);
    TOLD(nafelode_allocate_fixed(Z, 8, V), 0, 52);
    TOLD(nafelode_allocate_fixed(Z, 0, V), 0, 48);
    DOES(nafelode_free_pointer(Z, 52), 0);
    TOLD(nafelode_allocate_relocatable(Z, 9, V), 5, 0);
    TOLD(nafelode_compact(Z, V), 0, 12);
    TOLD(nafelode_allocate_relocatable(Z, 8, V), 0, 16);
    TOLD(nafelode_allocate_relocatable(Z, 8, V), 0, 20);
    IS(at(zone + 16), 36), IS(at(zone + 20), 52);
    FRESH(); /* R7 */
    TOLD(nafelode_shrink(Z, 10, V), 0, 8);
    TELLS(nafelode_length(Z, V), 0, 56);
    DOES(nafelode_enlarge(Z, 24), 0);
    TELLS(nafelode_length(Z, V), 0, 80);
    FRESH(); /* R8 to R10 */
    TOLD(nafelode_shrink(Z, 1000, V), 0, 32);
    FRESH();
    DOES(nafelode_enlarge(Z, 3), 9);
    TOLD(nafelode_allocate_relocatable(Z, 32761, V), 3, 0);
}

static void bytes(void) {
    FRESH();
    TOLD(nafelode_allocate_relocatable(Z, 8, V), 0, 16);
    TOLD(nafelode_allocate_fixed(Z, 6, V), 0, 56);
    memcpy(second, "basis weight", 12);
    DOES(nafelode_write(Z, NAFELODE_HANDLE, 16, 2, 5, second, SECOND), 0);
    DOES(nafelode_write(Z, NAFELODE_POINTER, 56, 0, 6, second + 6, 6), 0);
    IS(memcmp(zone + 38, "basis", 5) != 0, 0);
    IS(memcmp(zone + 56, "weight\0", 8) != 0, 0);
    READS(nafelode_read(Z, NAFELODE_HANDLE, 16, 1, 7, second, SECOND), 0);
    IS(memcmp(second, "\0basis\0eight", 12) != 0, 0); /* seven bytes come, the later ones stay */
    READS(nafelode_read(Z, NAFELODE_POINTER, 56, 4, 2, second, 2), 0);
    IS(memcmp(second, "htasis", 6) != 0, 0);
    TELLS(nafelode_view(Z, NAFELODE_HANDLE, 16, 2, 5, V), 38, 5);
    TELLS(nafelode_view(Z, NAFELODE_POINTER, 56, 0, 9, V), 0, 0);
    READS(nafelode_roster(Z, second, SECOND, V), 0);
    IS(value, 1), IS(at(second), 16), IS(at(second + 4), 8);
    TELLS(nafelode_check(Z, V), 1, 1);
    uint32_t walker = nafelode_walker_start(Z), blocks = 0;
    IS(walker, 32);
    for (; walker < 64 && blocks < 9; blocks++) {
        static const uint32_t type[3] = {NAFELODE_TYPE_RELOCATABLE, NAFELODE_TYPE_FREE, NAFELODE_TYPE_FIXED}, size[3] = {12, 8, 12};
        uint32_t old = walker;
        READS(STEP(walker), 0);
        IS(other, old), IS(walker, old + value);
        if (blocks < 3) IS(third, type[blocks]), IS(value, size[blocks]);
    }
    TELLS(STEP(walker), 0, 0);
    IS(blocks, 3), IS(walker, 64), IS(third, 0), IS(other, 0);
}

/* A fixed block's data lie on a four-byte line; without data its pointer is its end: L, or where the next block begins. */
static void fixed_blocks(void) {
    FRESH();
    TOLD(nafelode_allocate_fixed(Z, 0, V), 0, 64);
    TOLD(nafelode_allocate_fixed(Z, 0, V), 0, 60);
    TOLD(nafelode_allocate_fixed(Z, 1, V), 0, 52);
    IS(at(zone + 48), 0x40040000), IS(at(zone + 56), 0x40020000), IS(at(zone + 60), 0x40020000);
    for (uint32_t p = 0; p < 80; p++) TELLS(nafelode_size(Z, NAFELODE_POINTER, p, V), p == 52 || p == 60 || p == 64 ? 0 : 7, p == 52 ? 4 : 0);
    for (uint32_t p = 60; p <= 64; p += 4) {
        READS(nafelode_read(Z, NAFELODE_POINTER, p, 0, 0, second, SECOND), 0);
        READS(nafelode_read(Z, NAFELODE_POINTER, p, 0, 1, second, SECOND), 8);
        DOES(nafelode_write(Z, NAFELODE_POINTER, p, 0, 0, NULL, 0), 0);
        DOES(nafelode_write(Z, NAFELODE_POINTER, p, 0, 1, second, SECOND), 8);
        TELLS(nafelode_view(Z, NAFELODE_POINTER, p, 0, 0, V), p, 0);
        DOES(nafelode_free_pointer(Z, p), 0);
        DOES(nafelode_free_pointer(Z, p), 7);
    }
    IS(at(zone + 56), 4), IS(at(zone + 60), 0), IS(at(zone + 48), 0x40040000);
    for (int i = 50; i < 52; i++) { /* a second word that is not zero: an older image has data there */
        zone[i] = 1;
        IS(nafelode_check(Z, V), 0);
        TELLS(nafelode_size(Z, NAFELODE_POINTER, 52, V), 1, 0);
        zone[i] = 0;
        IS(nafelode_check(Z, V), 1);
    }
}

/* The roster comes by rising handle: the blocks stand as 20, 24 and, in the second bay, 16, and were made as 24, 20, 16. */
static void roster_order(void) {
    static const uint8_t records[24] = {0, 0, 0, 16, 0, 0, 0, 12, 0, 0, 0, 20, 0, 0, 0, 4, 0, 0, 0, 24, 0, 0, 0, 8};
    DOES(nafelode_initialize(Z, 80, 4), 0);
    TOLD(nafelode_allocate_fixed(Z, 0, V), 0, 80);
    TOLD(nafelode_allocate_fixed(Z, 12, V), 0, 64);
    TOLD(nafelode_allocate_fixed(Z, 0, V), 0, 60);
    DOES(nafelode_free_pointer(Z, 64), 0);
    TOLD(nafelode_allocate_relocatable(Z, 0, V), 0, 16);
    TOLD(nafelode_allocate_relocatable(Z, 0, V), 0, 20);
    TOLD(nafelode_allocate_relocatable(Z, 8, V), 0, 24);
    DOES(nafelode_free_handle(Z, 16), 0);
    DOES(nafelode_free_handle(Z, 20), 0);
    TOLD(nafelode_allocate_relocatable(Z, 4, V), 0, 20);
    TOLD(nafelode_allocate_relocatable(Z, 12, V), 0, 16);
    IS(at(zone + 20) < at(zone + 24) && at(zone + 24) < at(zone + 16), 1);
    memset(second, 0x5A, SECOND);
    READS(nafelode_roster(Z, second, SECOND, V), 0);
    IS(value, 3);
    IS(memcmp(second, records, sizeof records) != 0, 0);
    for (int i = sizeof records; i < SECOND; i++) IS(second[i], 0x5A);
}

/* Of the holes that are big enough the smallest is taken, the lowest of equals: by an allocation, and by a resize to another bay. */
static void tightest_hole(void) {
    DOES(nafelode_initialize(Z, 80, 5), 0);
    TOLD(nafelode_allocate_fixed(Z, 0, V), 0, 80);
    TOLD(nafelode_allocate_fixed(Z, 0, V), 0, 76);
    DOES(nafelode_free_pointer(Z, 80), 0);
    TOLD(nafelode_allocate_relocatable(Z, 12, V), 0, 16);
    TOLD(nafelode_allocate_relocatable(Z, 0, V), 0, 20);
    TOLD(nafelode_allocate_relocatable(Z, 4, V), 0, 24);
    TOLD(nafelode_allocate_relocatable(Z, 4, V), 0, 28);
    TOLD(nafelode_allocate_relocatable(Z, 0, V), 0, 32); /* in the upper bay: the lower one is full */
    DOES(nafelode_free_handle(Z, 16), 0);
    DOES(nafelode_free_handle(Z, 24), 0);
    IS(at(zone + 36), 8), IS(at(zone + 56), 4); /* holes of 16 and 8 bytes, in words */
    TOLD(nafelode_allocate_relocatable(Z, 4, V), 0, 24);
    IS(at(zone + 24), 60);
    DOES(nafelode_free_handle(Z, 24), 0);
    DOES(nafelode_resize(Z, 32, 4), 0);
    IS(at(zone + 32), 60);
    TOLD(nafelode_allocate_relocatable(Z, 4, V), 0, 24);
    DOES(nafelode_free_handle(Z, 32), 0);
    IS(at(zone + 44), 4), IS(at(zone + 56), 4); /* two of 8 bytes */
    TOLD(nafelode_allocate_relocatable(Z, 4, V), 0, 32);
    IS(at(zone + 32), 48);
}

/* Where no master is free eight are added, from 32 bytes of the first bay: its blocks close up behind them, handles and pointers stay. */
static void more_masters(void) {
    uint32_t walker = 24;
    DOES(nafelode_initialize(Z, 84, 2), 0);
    TOLD(nafelode_allocate_fixed(Z, 4, V), 0, 80);
    TOLD(nafelode_allocate_relocatable(Z, 0, V), 0, 16);
    TOLD(nafelode_allocate_relocatable(Z, 36, V), 0, 20);
    DOES(nafelode_free_handle(Z, 16), 0);
    TOLD(nafelode_allocate_relocatable(Z, 4, V), 0, 16);
    DOES(nafelode_resize(Z, 20, 4), 0);
    memcpy(second, "markcoreHARD", 12);
    DOES(nafelode_write(Z, NAFELODE_HANDLE, 20, 0, 4, second, SECOND), 0);
    DOES(nafelode_write(Z, NAFELODE_HANDLE, 16, 0, 4, second + 4, 4), 0);
    DOES(nafelode_write(Z, NAFELODE_POINTER, 80, 0, 4, second + 8, 4), 0);
    IS(at(zone + 24), 2), IS(at(zone + 20), 32), IS(at(zone + 36), 16), IS(at(zone + 16), 72); /* holes of 4 and 32 bytes */
    TOLD(nafelode_allocate_relocatable(Z, 1, V), 5, 0); /* 36 bytes are free, 4 after the masters: no master is added */
    TOLD(nafelode_allocate_relocatable(Z, 32, V), 5, 0);
    TOLD(nafelode_allocate_relocatable(Z, 32760, V), 5, 0);
    TOLD(nafelode_allocate_relocatable(Z, 32761, V), 3, 0);
    TOLD(nafelode_allocate_relocatable(Z, 0, V), 0, 24);
    IS(at(zone), 84), IS(at(zone + 4), 56), IS(at(zone + 8), 10), IS(at(zone + 12), 28u << 16); /* L, bkFst, m, the chain */
    IS(at(zone + 20), 60), IS(at(zone + 16), 68), IS(at(zone + 24), 76); /* up by 28 bytes, down by 4; the new block */
    for (uint32_t i = 28; i < 56; i += 4) IS(at(zone + i), i < 52 ? i + 4 : 0);
    IS(at(zone + 56), 0x80040014), IS(at(zone + 64), 0x80040010), IS(at(zone + 72), 0x80020018);
    IS(memcmp(zone + 60, "mark", 4) || memcmp(zone + 68, "core", 4) || memcmp(zone + 80, "HARD", 4), 0);
    READS(nafelode_read(Z, NAFELODE_POINTER, 80, 0, 4, second, 4), 0);
    TELLS(nafelode_check(Z, V), 1, 3);
    IS(nafelode_walker_start(Z), 56), TELLS(STEP(walker), 0, 0), IS(walker, 24); /* no block starts at 24 now */
    TOLD(nafelode_allocate_relocatable(Z, 0, V), 5, 0); /* a handle is free, no byte is */
    DOES(nafelode_free_handle(Z, 16), 0);
    TOLD(nafelode_allocate_relocatable(Z, 0, V), 0, 16);
    TOLD(nafelode_allocate_relocatable(Z, 0, V), 0, 28);
    for (uint32_t length = 72; length <= 76; length += 4) { /* 28 bytes of the first bay are too few, 32 are just enough; the block goes to the next bay */
        DOES(nafelode_initialize(Z, length, 1), 0);
        TOLD(nafelode_allocate_fixed(Z, 8, V), 0, length - 8);
        TOLD(nafelode_allocate_fixed(Z, 0, V), 0, length - 12);
        DOES(nafelode_free_pointer(Z, length - 8), 0);
        TOLD(nafelode_allocate_relocatable(Z, 4, V), 0, 16);
        TOLD(nafelode_allocate_relocatable(Z, 9, V), length == 72 ? 4 : 5, 0);
        TOLD(nafelode_allocate_relocatable(Z, 8, V), length == 72 ? 4 : 0, length == 72 ? 0 : 20);
    }
    IS(at(zone + 4), 52), IS(at(zone + 8), 9), IS(at(zone + 16), 56), IS(at(zone + 20), 68);
    TELLS(nafelode_size(Z, NAFELODE_POINTER, 64, V), 0, 0);
}

/* Pages: a create stamps, a use stamps anew, the marks stay beside the stamp; size, read, write and view by name. */
static void page_by_name(void) {
    DOES(nafelode_initialize(Z, 80, 0), 0);
    TOLD(nafelode_create_page(Z, 7, 5, V), 0, 24);
    IS(at(zone + 16), 0xC0080000), IS(at(zone + 20), 0x00070001), IS(zone[14], 1); /* type and size, name, status; the clock */
    TOLD(nafelode_create_page(Z, 9, 12, V), 0, 40);
    IS(at(zone + 32), 0xC00A0000), IS(at(zone + 36), 0x00090002), IS(zone[14], 2);
    TELLS(nafelode_size(Z, NAFELODE_NAME, 7, V), 0, 8);
    memcpy(second, "newsprint", 9);
    DOES(nafelode_write(Z, NAFELODE_NAME, 9, 1, 9, second, SECOND), 0);
    IS(memcmp(zone + 40, "\0newsprint\0\0", 12) != 0, 0), IS(at(zone + 36), 0x00090002); /* a write makes no page dirty */
    READS(nafelode_read(Z, NAFELODE_NAME, 9, 4, 6, second, SECOND), 0);
    IS(memcmp(second, "sprintint", 9) != 0, 0);
    TELLS(nafelode_view(Z, NAFELODE_NAME, 9, 2, 4, V), 42, 4);
    TOLD(nafelode_use_page(Z, 7, V), 0, 24);
    IS(at(zone + 20), 0x00070003), IS(zone[14], 3);
    DOES(nafelode_set_dirty(Z, 9), 0);
    IS(at(zone + 36), 0x00098002);
    DOES(nafelode_set_lock(Z, 9), 0);
    IS(at(zone + 36), 0x0009C002);
    DOES(nafelode_clear_dirty(Z, 9), 0);
    DOES(nafelode_set_lock(Z, 9), 0);
    IS(at(zone + 36), 0x00094002), IS(zone[14], 3); /* marks step no clock */
    DOES(nafelode_clear_lock(Z, 9), 0);
    IS(at(zone + 36), 0x00090002);
    TELLS(nafelode_check(Z, V), 1, 0), TELLS(nafelode_sum(Z, V, &other), 0, 28);
    TELLS(nafelode_roster(Z, second, SECOND, V), 0, 0);
    static const uint32_t type[3] = {NAFELODE_TYPE_PAGE, NAFELODE_TYPE_PAGE, NAFELODE_TYPE_FREE}, size[3] = {16, 20, 28};
    uint32_t walker = nafelode_walker_start(Z);
    for (int i = 0; i < 3; i++) {
        TELLS(STEP(walker), 0, size[i]), IS(third, type[i]);
    }
    DOES(nafelode_drop_page(Z, 7), 0);
    IS(at(zone + 16), 8), IS(at(zone + 20), 0); /* free, and zero */
    TOLD(nafelode_compact(Z, V), 0, 44);
    TELLS(nafelode_view(Z, NAFELODE_NAME, 9, 0, 12, V), 24, 12); /* it slid */
    IS(memcmp(zone + 25, "newsprint", 9) != 0, 0);
}

static void refused_11_and_13(void) {
    DOES(nafelode_initialize(Z, 80, 0), 0);
    TOLD(nafelode_create_page(Z, 7, 5, V), 0, 24);
    TOLD(nafelode_create_page(Z, 7, 0, V), 11, 0);
    TOLD(nafelode_create_page(Z, 7, 32757, V), 11, 0); /* 11 comes before 3, */
    TOLD(nafelode_create_page(Z, 8, 32757, V), 3, 0); /* and 3 before 5 */
    TOLD(nafelode_create_page(Z, 8, 32756, V), 5, 0);
    TOLD(nafelode_use_page(Z, 8, V), 13, 0);
    DOES(nafelode_set_dirty(Z, 8), 13);
    DOES(nafelode_clear_dirty(Z, 8), 13);
    DOES(nafelode_set_lock(Z, 8), 13);
    DOES(nafelode_clear_lock(Z, 8), 13);
    DOES(nafelode_drop_page(Z, 8), 13);
    TELLS(nafelode_size(Z, NAFELODE_NAME, 8, V), 13, 0);
    READS(nafelode_read(Z, NAFELODE_NAME, 8, 9, 9, second, 0), 13); /* 13 comes before 8 and 10 */
    DOES(nafelode_write(Z, NAFELODE_NAME, 8, 0, 0, second, SECOND), 13);
    TELLS(nafelode_view(Z, NAFELODE_NAME, 8, 0, 0, V), 0, 0);
    READS(nafelode_read(Z, NAFELODE_NAME, 7, 4, 5, second, SECOND), 8);
    DOES(nafelode_write(Z, NAFELODE_NAME, 7, 4, 4, second, 3), 10);
    TELLS(nafelode_size(Z, NAFELODE_HANDLE, 7, V), 6, 0);
    TELLS(nafelode_size(Z, NAFELODE_POINTER, 24, V), 7, 0); /* a page's data are no fixed block's, */
    TELLS(nafelode_size(Z, NAFELODE_TYPE_PAGE, 24, V), 7, 0); /* and by any other number, a type too, a block is named by its pointer */
    DOES(nafelode_free_pointer(Z, 24), 7);
    TOLD(nafelode_create_page(Z, 0, 0, V), 0, 40); /* 0 is a name, */
    TOLD(nafelode_create_page(Z, 0xFFFFFFFF, 0, V), 0, 48); /* and so is every other number */
    TELLS(nafelode_size(Z, NAFELODE_NAME, 0xFFFFFFFF, V), 0, 0);
}

/* Pages that are not locked go where a create has no space: greatest age first, the smaller name among equals, no dirty one. */
static void dropping(void) {
    DOES(nafelode_initialize(Z, 80, 0), 0);
    TOLD(nafelode_create_page(Z, 7, 5, V), 0, 24);
    TOLD(nafelode_create_page(Z, 9, 12, V), 0, 40);
    memcpy(second, "newsprint", 9);
    DOES(nafelode_write(Z, NAFELODE_NAME, 9, 1, 9, second, SECOND), 0);
    TOLD(nafelode_use_page(Z, 7, V), 0, 24);
    DOES(nafelode_set_lock(Z, 9), 0);
    TOLD(nafelode_allocate_fixed(Z, 28, V), 5, 0); /* 28 bytes are free: for no other block a page goes */
    TOLD(nafelode_create_page(Z, 8, 37, V), 5, 0); /* 44 would be, without the page that is not locked */
    TOLD(nafelode_create_page(Z, 8, 28, V), 0, 44);
    TELLS(nafelode_size(Z, NAFELODE_NAME, 7, V), 13, 0);
    IS(at(zone + 16), 0xC00A0000), IS(at(zone + 20), 0x00094002), IS(memcmp(zone + 25, "newsprint", 9) != 0, 0); /* the locked one slid */
    IS(at(zone + 36), 0xC0120000), IS(at(zone + 40), 0x00080004), IS(zone[14], 4);
    for (int i = 44; i < 72; i++) IS(zone[i], 0);
    DOES(nafelode_set_dirty(Z, 8), 0);
    TOLD(nafelode_create_page(Z, 7, 4, V), 12, 8); /* the value is the dirty page's name; nothing is dropped */
    TOLD(nafelode_create_page(Z, 7, 40, V), 5, 0); /* 5 comes before 12 */
    DOES(nafelode_clear_lock(Z, 9), 0);
    TOLD(nafelode_create_page(Z, 7, 4, V), 0, 24); /* 9 is older and clean: its room is enough, and nothing slides */
    TELLS(nafelode_size(Z, NAFELODE_NAME, 9, V), 13, 0);
    TOLD(nafelode_create_page(Z, 1, 20, V), 12, 8); /* 8 is older than 7 */
    TOLD(nafelode_use_page(Z, 8, V), 0, 44);
    IS(at(zone + 40), 0x00088006);
    TOLD(nafelode_create_page(Z, 1, 20, V), 0, 60); /* now 7 is */
    TELLS(nafelode_size(Z, NAFELODE_NAME, 7, V), 13, 0);
    DOES(nafelode_set_lock(Z, 8), 0);
    DOES(nafelode_drop_page(Z, 8), 0); /* neither mark prevents that */
    GIVES(nafelode_sum(Z, V, &other), 0, 36), IS(zone[14], 7);
    TOLD(nafelode_create_page(Z, 5, 4, V), 0, 24);
    for (int i = 0; i < 255; i++) TOLD(nafelode_use_page(Z, 1, V), 0, 60);
    IS(zone[14], 7); /* the clock went round */
    TOLD(nafelode_create_page(Z, 4, 4, V), 0, 36);
    IS(zone[23], 8), IS(zone[35], 8); /* one age */
    DOES(nafelode_set_lock(Z, 1), 0);
    TOLD(nafelode_create_page(Z, 6, 12, V), 0, 36); /* 4 goes, whose name is smaller */
    TELLS(nafelode_size(Z, NAFELODE_NAME, 4, V), 13, 0);
    TOLD(nafelode_use_page(Z, 5, V), 0, 24);
    IS(nafelode_check(Z, V), 1);
}

/* A census by limits, which lie flush against the second buffer's page; `length` bytes of them, after 76 from the front again.
 * `low` and `high` are the strata in which free blocks of 4 and of 6 words are counted. */
static void census_by(int line, const uint32_t *steps, size_t length, uint32_t refusal, int low, int high) {
    uint8_t *limits = second == second_page ? second_page : second_page + PAGE - length;
    for (size_t i = 0; i < length; i++) limits[i] = (uint8_t)(steps[i / 4 % STRATA] >> (24 - 8 * (i % 4)));
    keep(), unset(), number = nafelode_census(Z, limits, length, counts);
    stayed(line, number, 1, 1);
    expect(line, "the census", number, refusal);
    for (int i = 0; i < STRATA; i++) expect(line, "a count of the census", counts[i], (uint32_t)(!refusal && i == low) + (!refusal && i == high));
    expect(line, "what lies behind the counts", counts[STRATA], UNWRITTEN);
}
#define CENSUS(steps, length, low, high) census_by(__LINE__, steps, length, 0, low, high)
#define REFUSED_LIMITS(steps, length, number) census_by(__LINE__, steps, length, number, 0, 0)

static const uint32_t mill[STRATA] = {2, 4, 5, 6, 7, 10, 20, 30, 40, 50, 60, 70, 80, 90, 100, 200, 300, 400, NAFELODE_HIGHEST_LIMIT};

static void mills_limits(void) {
    uint32_t steps[STRATA];
    FRESH();
    TOLD(nafelode_allocate_relocatable(Z, 6, V), 0, 16);
    TOLD(nafelode_allocate_relocatable(Z, 8, V), 0, 20);
    DOES(nafelode_free_handle(Z, 16), 0); /* blocks of 6 words and of 4 are free */
    CENSUS(mill, 0, 2, 2);
    for (uint32_t i = 0; i < STRATA; i++) steps[i] = 1u << i;
    CENSUS(steps, LIMITS, 2, 2);
    CENSUS(mill, LIMITS, 1, 3);
    memcpy(steps, mill, sizeof mill), steps[1] = 3, steps[3] = 7, steps[4] = 8;
    CENSUS(steps, LIMITS, 1, 2);
    for (uint32_t i = 0; i < STRATA; i++) steps[i] = 1 + i;
    CENSUS(steps, LIMITS, 3, 5);
    for (uint32_t i = 1; i < STRATA; i++) steps[i] = NAFELODE_HIGHEST_LIMIT - STRATA + 1 + i; /* above every free block */
    CENSUS(steps, LIMITS, 0, 0);
    static const size_t wrong_length[] = {1, 4, 72, 75, 77, 80, 152, PAGE};
    for (size_t i = 0; i < sizeof wrong_length / sizeof *wrong_length; i++) REFUSED_LIMITS(mill, wrong_length[i], NAFELODE_BAD_LIMITS);
    memcpy(steps, mill, sizeof mill);
    steps[0] = 1, CENSUS(steps, LIMITS, 1, 3);
    steps[0] = 0, REFUSED_LIMITS(steps, LIMITS, NAFELODE_BAD_LIMITS);
    steps[0] = 3, REFUSED_LIMITS(steps, LIMITS, NAFELODE_BAD_LIMITS);
    steps[0] = mill[0], steps[STRATA - 1] = NAFELODE_HIGHEST_LIMIT + 1, REFUSED_LIMITS(steps, LIMITS, NAFELODE_BAD_LIMITS);
    for (int i = 1; i < STRATA; i++) {
        memcpy(steps, mill, sizeof mill);
        steps[i] = mill[i - 1], REFUSED_LIMITS(steps, LIMITS, NAFELODE_BAD_LIMITS);
        steps[i] = mill[i - 1] - 1, REFUSED_LIMITS(steps, LIMITS, NAFELODE_BAD_LIMITS);
    }
    zone[15] = 1; /* 1 comes before 14 */
    REFUSED_LIMITS(mill, LIMITS, NAFELODE_NOT_WELL_FORMED);
    REFUSED_LIMITS(steps, LIMITS, NAFELODE_NOT_WELL_FORMED);
    REFUSED_LIMITS(mill, LIMITS - 1, NAFELODE_NOT_WELL_FORMED);
}

/* Limits that a mill keeps in a block of the zone: both buffers are only read. */
static void limits_in_the_zone(void) {
    static uint8_t own[256], kept[256];
    IS(nafelode_initialize(own, sizeof own, sizeof own, 2), 0);
    GIVES(nafelode_allocate_relocatable(own, sizeof own, LIMITS, V), 0, NAFELODE_ZONE_HEADER);
    uint32_t place = at(own + value);
    for (int i = 0; i < LIMITS; i++) own[place + i] = (uint8_t)(mill[i / 4] >> (24 - 8 * (i % 4)));
    memcpy(kept, own, sizeof own);
    IS(nafelode_census(own, sizeof own, own + place, LIMITS, counts), 0); /* one free block, of 76 words */
    for (int i = 0; i < STRATA; i++) IS(counts[i], i == 11);
    IS(memcmp(own, kept, sizeof own) != 0, 0);
}

static void refused_1(void) {
    uint32_t walker = 32;
    FRESH();
    zone[15] = 1;
    TOLD(nafelode_create_page(Z, 7, 40000, V), 1, 0);
    TOLD(nafelode_use_page(Z, 7, V), 1, 0);
    DOES(nafelode_set_dirty(Z, 7), 1);
    DOES(nafelode_clear_dirty(Z, 7), 1);
    DOES(nafelode_set_lock(Z, 7), 1);
    DOES(nafelode_clear_lock(Z, 7), 1);
    DOES(nafelode_drop_page(Z, 7), 1);
    TELLS(nafelode_size(Z, NAFELODE_NAME, 7, V), 1, 0);
    TOLD(nafelode_allocate_relocatable(Z, 40000, V), 1, 0);
    TOLD(nafelode_allocate_fixed(Z, 0, V), 1, 0);
    DOES(nafelode_free_handle(Z, 16), 1);
    DOES(nafelode_free_pointer(Z, 56), 1);
    DOES(nafelode_resize(Z, 16, 4), 1);
    TELLS(nafelode_size(Z, NAFELODE_HANDLE, 16, V), 1, 0);
    READS(nafelode_read(Z, NAFELODE_HANDLE, 16, 0, 0, second, SECOND), 1);
    DOES(nafelode_write(Z, NAFELODE_HANDLE, 16, 0, 0, second, SECOND), 1);
    TOLD(nafelode_compact(Z, V), 1, 0);
    TELLS(nafelode_length(Z, V), 1, 0);
    DOES(nafelode_enlarge(Z, 4), 1);
    TOLD(nafelode_shrink(Z, 4, V), 1, 0);
    TELLS(nafelode_roster(Z, second, SECOND, V), 1, 0);
    TELLS(nafelode_sum(Z, V, &other), 1, 0), IS(other, 0);
    TELLS(nafelode_census(Z, NULL, 0, counts), 1, UNWRITTEN), IS(counts[3], 0);
    TELLS(nafelode_view(Z, NAFELODE_HANDLE, 16, 0, 0, V), 0, 0);
    TELLS(nafelode_check(Z, V), 0, 0);
    IS(nafelode_walker_start(Z), 0), TELLS(STEP(walker), 1, 0), IS(third, 0), IS(other, 0), IS(walker, 32);
}

static void refused_2_to_10(void) {
    DOES(nafelode_initialize(Z, 63, 4), 2);
    DOES(nafelode_initialize(Z, 28, 4), 2);
    DOES(nafelode_initialize(Z, 88, 4), 2);
    DOES(nafelode_initialize(Z, 64, 8189), 2);
    DOES(nafelode_initialize(Z, 64, 0xFFFFFFFF), 2);
    DOES(nafelode_initialize(Z, 44, 0), 0); /* 28 bytes: too few for eight masters */
    TOLD(nafelode_allocate_relocatable(Z, 32761, V), 3, 0);
    TOLD(nafelode_allocate_relocatable(Z, 32760, V), 4, 0);
    FRESH();
    TOLD(nafelode_allocate_fixed(Z, 32761, V), 3, 0);
    TOLD(nafelode_allocate_fixed(Z, 32760, V), 5, 0);
    DOES(nafelode_free_handle(Z, 16), 6);
    DOES(nafelode_free_pointer(Z, 56), 7);
    DOES(nafelode_resize(Z, 16, 0xFFFFFFFF), 6); /* 6 comes before 3 */
    TOLD(nafelode_allocate_relocatable(Z, 8, V), 0, 16);
    DOES(nafelode_resize(Z, 16, 32761), 3);
    DOES(nafelode_resize(Z, 16, 29), 5);
    TELLS(nafelode_size(Z, NAFELODE_HANDLE, 20, V), 6, 0);
    TELLS(nafelode_size(Z, NAFELODE_POINTER, 36, V), 7, 0);
    READS(nafelode_read(Z, NAFELODE_HANDLE, 20, 0, 0, second, SECOND), 6);
    READS(nafelode_read(Z, NAFELODE_POINTER, 16, 0, 0, second, SECOND), 7);
    READS(nafelode_read(Z, NAFELODE_HANDLE, 16, 0xFFFFFFFF, 1, second, SECOND), 8);
    READS(nafelode_read(Z, NAFELODE_HANDLE, 16, 4, 5, second, 0), 8); /* 8 comes before 10 */
    READS(nafelode_read(Z, NAFELODE_HANDLE, 16, 4, 4, second, 3), 10);
    DOES(nafelode_write(Z, NAFELODE_HANDLE, 20, 0, 0, second, SECOND), 6);
    DOES(nafelode_write(Z, NAFELODE_POINTER, 16, 0, 0, second, SECOND), 7);
    DOES(nafelode_write(Z, NAFELODE_HANDLE, 16, 1, 0xFFFFFFFF, second, SECOND), 8);
    DOES(nafelode_write(Z, NAFELODE_HANDLE, 16, 4, 4, second, 3), 10);
    DOES(nafelode_enlarge(Z, 24), 9);
    DOES(nafelode_enlarge(Z, 0xFFFFFFFC), 9);
    TELLS(nafelode_roster(Z, second, 7, V), 10, 0);
}

/* A pointer that goes with length 0 may be NULL. */
static void empty(void) {
    uint32_t walker = 0;
    IS(nafelode_initialize(NULL, 0, 0, 0), 2);
    IS(nafelode_allocate_relocatable(NULL, 0, 4, V), 1);
    IS(nafelode_compact(NULL, 0, V), 1);
    IS(nafelode_create_page(NULL, 0, 7, 4, V), 1);
    IS(nafelode_drop_page(NULL, 0, 7), 1);
    IS(nafelode_census(NULL, 0, NULL, 0, counts), 1);
    IS(nafelode_check(NULL, 0, V), 0);
    IS(nafelode_walker_step(NULL, 0, &walker, &third, &other, V), 1);
    FRESH();
    TOLD(nafelode_allocate_relocatable(Z, 4, V), 0, 16);
    READS(nafelode_read(Z, NAFELODE_HANDLE, 16, 4, 0, NULL, 0), 0);
    DOES(nafelode_write(Z, NAFELODE_HANDLE, 16, 4, 0, NULL, 0), 0);
    TELLS(nafelode_roster(Z, NULL, 0, V), 10, 0);
}

static uint8_t big[NAFELODE_LONGEST_ZONE + 8];

/* The header's constants are the library's numbers: each is accepted, and one beyond it refused; each length and place is met in the bytes. */
static void constants(void) {
    const size_t n = sizeof big;
    const uint32_t first = NAFELODE_ZONE_HEADER + NAFELODE_MASTER_SIZE * NAFELODE_MOST_MASTERS;
    uint32_t free_bytes, walker = first;
    IS(nafelode_initialize(big, n, NAFELODE_LONGEST_ZONE + 4, 0), NAFELODE_BAD_INITIALIZE);
    IS(nafelode_initialize(big, n, NAFELODE_LONGEST_ZONE, NAFELODE_MOST_MASTERS + 1), NAFELODE_BAD_INITIALIZE);
    IS(nafelode_initialize(big, n, first - 4, NAFELODE_MOST_MASTERS), NAFELODE_BAD_INITIALIZE);
    IS(nafelode_initialize(big, n, NAFELODE_LONGEST_ZONE, NAFELODE_MOST_MASTERS), 0);
    IS(at(big + NAFELODE_LENGTH_AT), NAFELODE_LONGEST_ZONE), IS(at(big + NAFELODE_FIRST_AT), first);
    IS(at(big + NAFELODE_MASTERS_AT), NAFELODE_MOST_MASTERS);
    IS(nafelode_enlarge(big, n, 4), NAFELODE_BAD_ENLARGE);
    IS(nafelode_allocate_relocatable(big, n, NAFELODE_LARGEST_RELOCATABLE + 1, V), NAFELODE_TOO_LARGE);
    IS(nafelode_allocate_relocatable(big, n, NAFELODE_LARGEST_RELOCATABLE, V), 0);
    IS(nafelode_allocate_fixed(big, n, NAFELODE_LARGEST_FIXED + 1, V), NAFELODE_TOO_LARGE);
    IS(nafelode_allocate_fixed(big, n, NAFELODE_LARGEST_FIXED, V), 0);
    IS(nafelode_create_page(big, n, 7, NAFELODE_LARGEST_PAGE + 1, V), NAFELODE_TOO_LARGE);
    IS(nafelode_create_page(big, n, 7, NAFELODE_LARGEST_PAGE, V), 0);
    for (uint32_t type = NAFELODE_TYPE_RELOCATABLE; type <= NAFELODE_TYPE_PAGE; type++) {
        int page = type == NAFELODE_TYPE_PAGE;
        uint32_t size = page ? NAFELODE_PAGE_HEADER + NAFELODE_LARGEST_PAGE : NAFELODE_RELOCATABLE_HEADER + NAFELODE_LARGEST_RELOCATABLE;
        GIVES(nafelode_walker_step(big, n, &walker, &third, &other, V), 0, size), IS(third, type);
        IS(at(big + other + NAFELODE_TAG_AT) >> (page ? 0 : 16), page ? 7 : NAFELODE_ZONE_HEADER);
    }
    IS(nafelode_initialize(big, n, NAFELODE_ZONE_HEADER - 4, 0), NAFELODE_BAD_INITIALIZE);
    IS(nafelode_initialize(big, n, NAFELODE_ZONE_HEADER, 0), 0);
    for (uint32_t k = 1; k < NAFELODE_SMALLEST_BLOCK; k++) IS(nafelode_enlarge(big, n, k), NAFELODE_BAD_ENLARGE);
    IS(nafelode_enlarge(big, n, NAFELODE_SMALLEST_BLOCK), 0);
    GIVES(nafelode_sum(big, n, V, &other), 0, NAFELODE_SMALLEST_BLOCK);
    IS(nafelode_enlarge(big, n, 252), 0);
    IS(at(big + NAFELODE_ZONE_HEADER + NAFELODE_FREE_HEADER - 4), 128); /* the free block's size in words, and behind it zeros */
    big[NAFELODE_ZONE_HEADER + NAFELODE_FREE_HEADER] = 1, IS(nafelode_check(big, n, V), 0);
    big[NAFELODE_ZONE_HEADER + NAFELODE_FREE_HEADER] = 0, IS(nafelode_check(big, n, V), 1);
    IS(nafelode_sum(big, n, &free_bytes, &other), 0);
    IS(nafelode_allocate_fixed(big, n, 0, V), 0), GIVES(nafelode_sum(big, n, V, &other), 0, free_bytes -= NAFELODE_FIXED_HEADER);
    IS(nafelode_create_page(big, n, 0, 0, V), 0), GIVES(nafelode_sum(big, n, V, &other), 0, free_bytes -= NAFELODE_PAGE_HEADER);
    IS(nafelode_allocate_relocatable(big, n, 0, V), 0); /* adds masters */
    GIVES(nafelode_sum(big, n, V, &other), 0, free_bytes -= NAFELODE_ADDED_BYTES + NAFELODE_RELOCATABLE_HEADER);
    IS(at(big + NAFELODE_MASTERS_AT), NAFELODE_ADDED_MASTERS), IS(at(big + NAFELODE_FIRST_AT), NAFELODE_ZONE_HEADER + NAFELODE_ADDED_BYTES);
    IS(nafelode_roster(big, n, second, NAFELODE_ROSTER_RECORD - 1, V), NAFELODE_SHORT_BUFFER);
    IS(nafelode_roster(big, n, second, NAFELODE_ROSTER_RECORD, V), 0);
}

/* The largest zone. */
static void largest(void) {
    IS(nafelode_initialize(big, sizeof big, 1048580, 0), 2);
    IS(nafelode_initialize(big, sizeof big, 1048576, 8188), 0);
    IS(nafelode_enlarge(big, sizeof big, 4), 9);
    IS(nafelode_allocate_fixed(big, sizeof big, 32761, V), 3);
    GIVES(nafelode_allocate_fixed(big, sizeof big, 32760, V), 0, 1048576 - 32760);
    for (uint32_t i = 0; i < 30; i++) GIVES(nafelode_allocate_relocatable(big, sizeof big, 32760, V), 0, 16 + 4 * i);
    IS(nafelode_allocate_relocatable(big, sizeof big, 32760, V), 5);
}

/* The most masters: eight are added to 8180 in use, none to 8181, though the first bay has the bytes. */
static void most_masters(void) {
    enum { SHORT = 65536 };
    for (uint32_t m = 8180; m <= 8181; m++) {
        IS(nafelode_initialize(big, sizeof big, SHORT, m), 0);
        for (uint32_t i = 0; i < m; i++) GIVES(nafelode_allocate_relocatable(big, sizeof big, 0, V), 0, 16 + 4 * i);
        GIVES(nafelode_sum(big, sizeof big, V, &other), 0, SHORT - 16 - 8 * m);
        IS(nafelode_allocate_relocatable(big, sizeof big, 0, V), m == 8180 ? 0 : 4);
        IS(at(big + 8), m == 8180 ? 8188 : 8181);
    }
}

/* The largest page, and as many as there is room for. */
static void many_pages(void) {
    IS(nafelode_initialize(big, sizeof big, NAFELODE_LONGEST_ZONE, 0), 0);
    for (uint32_t i = 0; i < 32; i++) GIVES(nafelode_create_page(big, sizeof big, i, 32756, V), 0, 24 + 32764 * i);
    GIVES(nafelode_create_page(big, sizeof big, 32, 32756, V), 0, 24); /* the oldest goes */
    IS(nafelode_use_page(big, sizeof big, 0, V), 13);
    IS(nafelode_initialize(big, sizeof big, 65536, 0), 0);
    for (uint32_t i = 0; i < 8190; i++) GIVES(nafelode_create_page(big, sizeof big, 9000 - i, 0, V), 0, 24 + 8 * i);
    GIVES(nafelode_sum(big, sizeof big, V, &other), 0, 0);
    GIVES(nafelode_create_page(big, sizeof big, 1, 0, V), 0, 24 + 8 * 7934); /* of those with age 255 the last has the smallest name */
    IS(nafelode_use_page(big, sizeof big, 9000 - 7934, V), 13);
    IS(nafelode_check(big, sizeof big, V), 1);
}

int main(void) {
    uint8_t *pages = mmap(NULL, 5 * PAGE, PROT_NONE, MAP_PRIVATE | MAP_ANONYMOUS, -1, 0);
    if (pages == MAP_FAILED) return perror("mmap"), 2;
    zone_page = pages + PAGE, second_page = pages + 3 * PAGE;
    if (mprotect(zone_page, PAGE, PROT_READ | PROT_WRITE) || mprotect(second_page, PAGE, PROT_READ | PROT_WRITE)) return perror("mprotect"), 2;
    for (int low = 0; low < 2; low++) {
        memset(zone_page, 0xA5, PAGE), memset(second_page, 0xA5, PAGE);
        zone = low ? zone_page : zone_page + PAGE - LENGTH;
        second = low ? second_page : second_page + PAGE - SECOND;
        rig_sheet(), bytes(), fixed_blocks(), roster_order(), tightest_hole(), more_masters(), page_by_name(), dropping();
        refused_1(), refused_2_to_10(), refused_11_and_13(), mills_limits(), empty();
    }
    constants(), largest(), most_masters(), many_pages(), limits_in_the_zone();
    printf("%u tests, %u wrong\n", tests, wrong);
    return wrong != 0;
}
