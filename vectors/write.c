/* Makes the calls of a .calls file (standard input) and writes them with each answer and the zone's bytes
 * (standard output), as FORMAT.md says. It calls nafelode.h's functions alone: linked with another zone's
 * functions of these names, it writes what that zone answers.
 *
 * It takes no memory from a heap. A small machine sets what there is when this is compiled, as in -DBUFFER=512 -DLINE=320;
 * FORMAT.md says which files that does for. */
#include <inttypes.h>
#include <stdio.h>
#include <stdlib.h>
#include <string.h>
#include "nafelode.h"

#ifndef BUFFER
#define BUFFER 2097152 /* bytes of the longest buffer that a file lends; there are four such buffers */
#endif
#ifndef LINE
#define LINE 4096 /* characters of a file's longest line */
#endif
enum { WORDS = 16, RUN = 32 };
static uint8_t zone_room[BUFFER], before[BUFFER], given_room[BUFFER], second_room[BUFFER];
static uint8_t *zone;
static size_t length;
static unsigned long line_number;
static char line[LINE + 2], *words[WORDS]; /* with the line's end, and that of the string */
static unsigned count;

static void fail(const char *what) {
    fprintf(stderr, "write: line %lu: %s\n", line_number, what);
    exit(1);
}

static uint32_t number(unsigned i) {
    char *end;
    unsigned long long n = i < count ? strtoull(words[i], &end, 10) : 0;
    if (i >= count || *words[i] < '0' || *words[i] > '9' || *end || n > UINT32_MAX) fail("a decimal number of 32 bits is wanted");
    return (uint32_t)n;
}

static void too_long(void) { fail("more bytes than BUFFER, which is set when this is compiled"); }

static uint8_t *lend(uint8_t *room, size_t size) { /* at the room's end, so that a sanitizer sees a step behind what is lent */
    return room + (BUFFER - size);
}

/* The bytes that a word spells, laid down at `out` if that is not null; answers how many. */
static size_t spell(const char *word, uint8_t *out) {
    static const char digits[] = "0123456789ABCDEF";
    size_t size = 0;
    while (*word && strcmp(word, "-")) {
        unsigned long times = 1;
        char *end = (char *)word + 2;
        if (strspn(word, digits) < 2) fail("bytes are wanted");
        uint8_t byte = (uint8_t)((strchr(digits, word[0]) - digits) * 16 + (strchr(digits, word[1]) - digits));
        if (*end == '*' && (times = strtoul(end + 1, &end, 10), *end++ != '.')) fail("a run is 'HH*COUNT.'");
        if (times > BUFFER - size) too_long();
        if (out) memset(out + size, byte, times);
        size += times;
        word = end;
    }
    return size;
}

static uint8_t *bytes(uint8_t *room, unsigned i, size_t *size) {
    if (i >= count) fail("bytes are wanted");
    *size = spell(words[i], NULL);
    uint8_t *p = lend(room, *size);
    spell(words[i], p);
    return p;
}

static void tell(const char *word, const uint8_t *p, size_t size, int same) {
    printf(same ? "%s same" : size ? "%s " : "%s -", word);
    for (size_t k = 0, run; k < size && !same; k += run) {
        for (run = 1; k + run < size && p[k + run] == p[k]; run++) {}
        if (run < RUN) run = 1; /* short runs byte by byte */
        printf(run == 1 ? "%02X" : "%02X*%lu.", p[k], (unsigned long)run);
    }
    putchar('\n');
}

static int is(const char *name, unsigned arguments) {
    if (strcmp(words[1], name)) return 0;
    if (count != 2 + arguments) fail("another number of arguments is wanted");
    return 1;
}

static uint32_t by(void) { /* the two words that say which block */
    if (!strcmp(words[2], "handle")) return NAFELODE_HANDLE;
    if (!strcmp(words[2], "name")) return NAFELODE_NAME;
    if (strcmp(words[2], "pointer")) fail("'handle', 'pointer' or 'name' is wanted");
    return NAFELODE_POINTER;
}

static void numbers(const char *word, unsigned how_many, const uint32_t *p) {
    fputs(word, stdout);
    for (unsigned i = 0; i < how_many; i++) printf(" %" PRIu32, p[i]);
    putchar('\n');
}

/* What a call answers: the refusal number and its value, 0 for a call that has none. The value is that of the call: it is read after it. */
static uint32_t value;
static void told(uint32_t refusal) { numbers("answer", 2, (uint32_t[]){refusal, value}); }
static void done(uint32_t refusal) { value = 0, told(refusal); }

static int changing_call(void) {
    if (is("initialize", 2)) done(nafelode_initialize(zone, length, number(2), number(3)));
    else if (is("allocate_relocatable", 1)) told(nafelode_allocate_relocatable(zone, length, number(2), &value));
    else if (is("allocate_fixed", 1)) told(nafelode_allocate_fixed(zone, length, number(2), &value));
    else if (is("free_handle", 1)) done(nafelode_free_handle(zone, length, number(2)));
    else if (is("free_pointer", 1)) done(nafelode_free_pointer(zone, length, number(2)));
    else if (is("resize", 2)) done(nafelode_resize(zone, length, number(2), number(3)));
    else if (is("compact", 0)) told(nafelode_compact(zone, length, &value));
    else if (is("enlarge", 1)) done(nafelode_enlarge(zone, length, number(2)));
    else if (is("shrink", 1)) told(nafelode_shrink(zone, length, number(2), &value));
    else return 0;
    return 1;
}

static int page_call(void) {
    if (is("create_page", 2)) told(nafelode_create_page(zone, length, number(2), number(3), &value));
    else if (is("use_page", 1)) told(nafelode_use_page(zone, length, number(2), &value));
    else if (is("set_dirty", 1)) done(nafelode_set_dirty(zone, length, number(2)));
    else if (is("clear_dirty", 1)) done(nafelode_clear_dirty(zone, length, number(2)));
    else if (is("set_lock", 1)) done(nafelode_set_lock(zone, length, number(2)));
    else if (is("clear_lock", 1)) done(nafelode_clear_lock(zone, length, number(2)));
    else if (is("drop_page", 1)) done(nafelode_drop_page(zone, length, number(2)));
    else return 0;
    return 1;
}

/* A census goes by limits where the call has any. */
static int census(void) {
    if (!is("census", count > 2)) return 0;
    size_t size = 0;
    uint8_t *given = count > 2 ? bytes(given_room, 2, &size) : NULL, *limits = count > 2 ? bytes(second_room, 2, &size) : NULL;
    uint32_t counts[NAFELODE_STRATA];
    printf("answer %" PRIu32, nafelode_census(zone, length, limits, size, counts));
    numbers("", NAFELODE_STRATA, counts);
    if (size && memcmp(limits, given, size)) fail("a census has changed its limits");
    return 1;
}

static int telling_call(void) {
    if (is("size", 2)) told(nafelode_size(zone, length, by(), number(3), &value));
    else if (is("length", 0)) told(nafelode_length(zone, length, &value));
    else if (is("walker_start", 0)) printf("walker %" PRIu32 "\n", nafelode_walker_start(zone, length));
    else if (is("view", 4)) {
        uint32_t part[2];
        part[0] = nafelode_view(zone, length, by(), number(3), number(4), number(5), &part[1]);
        numbers("view", 2, part);
    } else if (is("sum", 0)) {
        uint32_t sums[3];
        sums[0] = nafelode_sum(zone, length, &sums[1], &sums[2]);
        numbers("answer", 3, sums);
    } else if (is("check", 0)) { /* never refused */
        uint32_t checked[2];
        checked[0] = nafelode_check(zone, length, &checked[1]);
        numbers("answer 0", 2, checked);
    } else if (is("walker_step", 1)) {
        uint32_t walker = number(2), step[4];
        step[0] = nafelode_walker_step(zone, length, &walker, &step[1], &step[2], &step[3]);
        numbers("answer", 4, step);
        numbers("walker", 1, &walker);
    } else return 0;
    return 1;
}

static int call_with_second(void) {
    if (!is("read", 5) && !is("write", 5) && !is("roster", 1)) return 0;
    size_t size;
    uint8_t *given = bytes(given_room, count - 1, &size), *second = bytes(second_room, count - 1, &size);
    if (is("read", 5)) printf("answer %" PRIu32 "\n", nafelode_read(zone, length, by(), number(3), number(4), number(5), second, size));
    else if (is("write", 5)) printf("answer %" PRIu32 "\n", nafelode_write(zone, length, by(), number(3), number(4), number(5), second, size));
    else told(nafelode_roster(zone, length, second, size, &value));
    tell("second", second, size, !memcmp(second, given, size));
    return 1;
}

static void do_line(void) {
    if (!strcmp(words[0], "buffer") && count == 3) {
        if (number(1) > BUFFER) too_long();
        length = (size_t)number(1);
        zone = lend(zone_room, length);
        memset(zone, (int)number(2), length);
    } else if (!strcmp(words[0], "set") && count == 3) {
        size_t size;
        uint8_t *p = bytes(given_room, 2, &size);
        if (!zone || size > length || number(1) > length - size) fail("outside the buffer");
        memcpy(zone + number(1), p, size);
    } else if (!strcmp(words[0], "call") && count > 1 && zone) {
        memcpy(before, zone, length);
        if (!changing_call() && !page_call() && !telling_call() && !census() && !call_with_second()) fail("no call of this name");
        tell("zone", zone, length, !memcmp(zone, before, length));
    } else if (strcmp(words[0], "list") && *words[0] != '#') fail("not understood");
}

int main(void) {
    while (fgets(line, sizeof line, stdin)) {
        if (!strchr(line, '\n')) fail("longer than LINE, or no line end");
        if (line_number++ == 0 && strcmp(line, "nafelode-vectors 3\n")) fail("'nafelode-vectors 3' is wanted");
        fputs(line, stdout);
        if (line_number == 1) puts("# written by Nafelode " NAFELODE_VERSION);
        count = 0;
        for (char *w = strtok(line, " \n"); w && count < WORDS; w = strtok(NULL, " \n")) words[count++] = w;
        if (line_number > 1 && count > 0) do_line();
    }
    if (line_number == 0) fail("nothing to read");
    return ferror(stdin) || fflush(stdout) != 0;
}
