/* Makes a check, reads and a compact in two zones of the benchmark, with marks around them that count.c sees: the zones of bench/src/main.rs
 * with 40 and with 4,000 blocks, byte for byte, from the same random numbers. Prints what was run up to each mark: zone, call, how
 * many times. Exit status 0 if every answer is as expected. */
#define _DEFAULT_SOURCE
#include <stdint.h>
#include <stdio.h>
#include <string.h>
#include <unistd.h>
#include "nafelode.h"

enum { MARK = 99999, LENGTH = 65536, BEYOND = 1024, FIXED_DATA = 12, READS = 24, READ = 64, ROWS = 16, CHAIN_AT = 12 }; /* the first free master stands in the zone at 12 */
static uint8_t zone[LENGTH + BEYOND], kept[sizeof zone], out[READ];
static uint32_t data_size[4100]; /* of a master's block */
static uint64_t state;
static struct { const char *zone, *call; unsigned times; } rows[ROWS];
static unsigned marks;

static uint32_t any(void) { /* splitmix64, as compare/src/random.rs has it */
    uint64_t z = state += 0x9E3779B97F4A7C15u;
    z = (z ^ (z >> 30)) * 0xBF58476D1CE4E5B9u;
    z = (z ^ (z >> 27)) * 0x94D049BB133111EBu;
    return (uint32_t)((z ^ (z >> 31)) >> 32);
}
static uint32_t below(uint32_t n) { return (uint32_t)((uint64_t)any() * n >> 32); }

static void put(uint32_t at, uint32_t value, int bytes) { /* high byte first */
    for (int k = bytes - 1; k >= 0; k--) zone[at++] = (uint8_t)(value >> (8 * k));
}

static uint32_t handle_of(uint32_t master) { return NAFELODE_ZONE_HEADER + NAFELODE_MASTER_SIZE * master; }

typedef struct { const char *name; uint32_t masters, relocatable, fixed, most_data, hole_every; } plan;

/* A zone by a plan: blocks evenly mixed, holes, the rest free at the end, the masters that are left in a chain. */
static void make(const plan *p) {
    uint32_t blocks = p->relocatable + p->fixed, fixed = 0, used = 0, hole = 0, at = handle_of(p->masters);
    state = 1;
    memset(zone, 0, sizeof zone);
    put(NAFELODE_LENGTH_AT, LENGTH, 4), put(NAFELODE_FIRST_AT, at, 4), put(NAFELODE_MASTERS_AT, p->masters, 4);
    for (uint32_t i = 0; i < blocks; i++) {
        int is_fixed = (i + 1) * p->fixed / blocks > fixed;
        uint32_t data = is_fixed ? FIXED_DATA : 4 * (below(p->most_data / 4) + 1), size = NAFELODE_FIXED_HEADER + data; /* both headers have 4 bytes */
        put(at, (is_fixed ? NAFELODE_TYPE_FIXED : NAFELODE_TYPE_RELOCATABLE) << 14 | size / 2, 2);
        for (uint32_t k = 0; k < data; k++) zone[at + NAFELODE_FIXED_HEADER + k] = (uint8_t)(is_fixed ? 0xF1 : any());
        if (is_fixed) fixed++;
        else {
            data_size[used] = data;
            put(at + NAFELODE_TAG_AT, handle_of(used), 2), put(handle_of(used++), at + NAFELODE_RELOCATABLE_HEADER, 4);
        }
        at += size, hole = 0;
        if (i % p->hole_every == p->hole_every - 1) hole = at, at += 4 * below(p->most_data / 4) + 4, put(hole, (at - hole) / 2, 4);
    }
    if (!hole) hole = at;
    put(hole, (LENGTH - hole) / 2, 4);
    put(CHAIN_AT, handle_of(used), 2);
    for (; used + 1 < p->masters; used++) put(handle_of(used), handle_of(used + 1), 4);
}

/* What was run since the last mark: calls of one kind, or what counts for none. */
static void mark(const char *zone_name, const char *call, unsigned times) {
    rows[marks].zone = zone_name, rows[marks].call = call, rows[marks++].times = times;
    syscall(MARK);
}

int main(void) {
    static const plan plans[] = {{"64 KiB with 40 blocks", 64, 36, 4, 1500, 6}, {"64 KiB with 4,000 blocks", 4100, 4000, 20, 10, 40}};
    uint32_t value, bad = 0;
    for (unsigned i = 0; i < sizeof plans / sizeof *plans; i++) {
        const plan *p = &plans[i];
        make(p), memcpy(kept, zone, sizeof zone);
        mark(p->name, "making it", 0);
        mark(p->name, "a mark", 1);
        bad += nafelode_check(zone, sizeof zone, &value) != 1;
        mark(p->name, "check", 1);
        bad += value != p->relocatable;
        for (uint32_t k = 0, m; k < READS; k++) { /* blocks at equal distances */
            m = k * p->relocatable / READS;
            bad += nafelode_read(zone, sizeof zone, NAFELODE_HANDLE, handle_of(m), 0, data_size[m] < READ ? data_size[m] : READ, out, READ) != NAFELODE_DONE;
        }
        mark(p->name, "read", READS);
        bad += memcmp(zone, kept, sizeof zone) != 0;
        mark(p->name, "comparing", 0);
        bad += nafelode_compact(zone, sizeof zone, &value) != NAFELODE_DONE;
        mark(p->name, "compact", 1);
    }
    for (unsigned i = 0; i < marks; i++) printf("%s\t%s\t%u\n", rows[i].zone, rows[i].call, rows[i].times);
    if (bad) fprintf(stderr, "cost: %u answers are not as expected\n", (unsigned)bad);
    return bad != 0;
}
