/* Runs the code of docs/C.md, which c/check takes out of the page as page.inc: each function does what the page says of it, and the
 * loop over the bytes meets what the walker meets, with the names that the library knows. Exit status 0 if all is as expected. */
#include <stdio.h>
#include <stdlib.h>
#include <string.h>
#include "nafelode.h"

enum { RECIPE = 12 };
static void save(uint32_t name);
static void load(uint32_t grade, uint8_t *out);
#include "page.inc"

static unsigned tests, wrong, saved;
static struct { uint32_t block_type, offset, size; } met[8192];
static uint32_t blocks, value;

static void expect(int line, const char *what, uint32_t got, uint32_t want) {
    tests++;
    if (got != want) wrong++, printf("page.c:%d: %s is %u, not %u\n", line, what, got, want);
}
#define IS(value, want) expect(__LINE__, #value, value, want)
#define Z zone, sizeof zone

static void save(uint32_t name) { saved = name; }
static void load(uint32_t grade, uint8_t *out) { memset(out, (int)grade, RECIPE); }

static void note(uint32_t block_type, uint32_t offset, uint32_t size) {
    if (blocks == sizeof met / sizeof *met) puts("page.c: the loop over the bytes does not end"), exit(1);
    met[blocks].block_type = block_type, met[blocks].offset = offset, met[blocks++].size = size;
}

/* The loop and the walker, and of each block what names it: a read by that gives the bytes that stand behind its header. */
static unsigned same_blocks(void) {
    uint32_t walker = nafelode_walker_start(Z), n = 0, end, type, offset, size;
    unsigned types = 0;
    blocks = 0;
    IS(nafelode_length(Z, &end), 0);
    IS(every_block(note) == 0, 1);
    for (; walker < end && n < blocks; n++) {
        IS(nafelode_walker_step(Z, &walker, &type, &offset, &size), 0);
        IS(met[n].block_type, type), IS(met[n].offset, offset), IS(met[n].size, size);
        types |= 1u << type;
        if (type == NAFELODE_TYPE_FREE) continue;
        uint32_t by = type == NAFELODE_TYPE_FIXED ? NAFELODE_POINTER : type == NAFELODE_TYPE_PAGE ? NAFELODE_NAME : NAFELODE_HANDLE;
        uint32_t header = type == NAFELODE_TYPE_PAGE ? NAFELODE_PAGE_HEADER : NAFELODE_FIXED_HEADER, block = name_of(type, offset);
        IS(nafelode_view(Z, by, block, 0, size - header, &value), offset + header), IS(value, size - header);
        IS(nafelode_size(Z, by, block, &value), 0);
    }
    IS(n, blocks), IS(walker, end);
    return types;
}

static uint32_t random_below(uint32_t n) {
    static uint64_t state = 20261117;
    state = state * 6364136223846793005u + 1442695040888963407u;
    return (uint32_t)(state >> 33) % n;
}

/* The largest block of each type: every bit of a size counts. */
static void largest(void) {
    for (uint32_t type = NAFELODE_TYPE_FREE; type <= NAFELODE_TYPE_PAGE; type++) {
        IS(nafelode_initialize(Z, sizeof zone, 2), 0);
        if (type == NAFELODE_TYPE_FIXED) IS(nafelode_allocate_fixed(Z, NAFELODE_LARGEST_FIXED, &value), 0);
        if (type == NAFELODE_TYPE_RELOCATABLE) IS(nafelode_allocate_relocatable(Z, NAFELODE_LARGEST_RELOCATABLE, &value), 0);
        if (type == NAFELODE_TYPE_PAGE) IS(nafelode_create_page(Z, 0xFFFFFFFF, NAFELODE_LARGEST_PAGE, &value), 0);
        IS(same_blocks(), 1u << type | 1u);
    }
}

/* Zones at random, of all types of blocks. */
static void walks(void) {
    unsigned all = 0;
    for (uint32_t list = 0; list < 60; list++) {
        IS(nafelode_initialize(Z, 1024 + 4 * random_below(3000), random_below(20)), 0);
        for (uint32_t i = 0, pages = 0; i < 120; i++) {
            uint32_t c = random_below(4) ? random_below(60) : random_below(900);
            switch (random_below(6)) {
                case 0: nafelode_allocate_fixed(Z, c, &value); break;
                case 1: nafelode_create_page(Z, (pages++) * 2654435761u, c, &value); break;
                case 2: nafelode_free_handle(Z, NAFELODE_ZONE_HEADER + NAFELODE_MASTER_SIZE * random_below(40)); break;
                case 3: nafelode_drop_page(Z, random_below(pages + 1) * 2654435761u); break;
                default: nafelode_allocate_relocatable(Z, c, &value);
            }
        }
        all |= same_blocks();
    }
    IS(all, 15); /* each type was met */
    zone[15] = 1, blocks = 0;
    IS(every_block(note) == 0, 0), IS(blocks, 0); /* no zone: the loop meets nothing */
}

int main(void) {
    uint32_t handle = 0;
    volatile uint8_t *samples = NULL;
    uint8_t out[RECIPE];
    IS(start(&handle, &samples) == 0, 1);
    IS(nafelode_size(Z, NAFELODE_HANDLE, handle, &value), 0), IS(value, 4), IS(number(number(handle, 4), 4), 80250); /* through the master */
    IS(samples != NULL && nafelode_size(Z, NAFELODE_POINTER, (uint32_t)(samples - zone), &value) == 0, 1), IS(value, 512);

    IS(nafelode_initialize(Z, 60, 0), 0); /* room for two recipes */
    for (uint32_t grade = 1; grade <= 2; grade++) IS(recipe(grade, out), 0), IS(out[0], grade), IS(saved, 0);
    memset(out, 0, RECIPE), IS(recipe(1, out), 0), IS(out[RECIPE - 1], 1); /* it was there */
    IS(nafelode_set_dirty(Z, 2), 0), IS(recipe(3, out), 0), IS(saved, 2), IS(nafelode_size(Z, NAFELODE_NAME, 2, &value), NAFELODE_NAME_ABSENT);

    IS(nafelode_initialize(Z, 1000, 0), 0), IS(holes(984 - 4), 1), IS(holes(984), 0), IS(holes(984 / 2 - 4), 0);
    zone[15] = 1, IS(holes(984 - 4), 0); /* no zone: each count is 0 */

    largest();
    walks();
    printf("the page's code: %u tests, %u wrong\n", tests, wrong);
    return wrong != 0;
}
