/* Reel B: two splices, and a profile grows between them. The recipe slides each time; upstairs, which
 * has the zone's bytes and nothing else, must still find its basis weight through the master. */
#include <stdio.h>
#include "nafelode.h"

static uint8_t zone[76]; /* the zone's buffer; a head would have up to 1048576 bytes */
static int wrong;        /* how many calls were refused, and how many weights were wrong */

static void done(uint32_t number) { wrong += number != NAFELODE_DONE; }

static uint32_t high_byte_first(const uint8_t *p) {
    return (uint32_t)p[0] << 24 | (uint32_t)p[1] << 16 | (uint32_t)p[2] << 8 | p[3];
}

static void upstairs(const char *when, uint32_t recipe) {
    uint32_t place = high_byte_first(zone + recipe); /* the master at the handle's offset */
    uint32_t weight = high_byte_first(zone + place); /* in thousandths of a gram per square metre */
    printf("%-20s recipe at %2u, basis weight %u.%03u g/m2\n", when, place, weight / 1000, weight % 1000);
    wrong += weight != 80250;
}

int main(void) {
    static const uint8_t weight[4] = {0x00, 0x01, 0x39, 0x7A}; /* 80250 */
    uint32_t profile, recipe, mark, other; /* handles */

    done(nafelode_initialize(zone, sizeof zone, sizeof zone, 4));
    done(nafelode_allocate_relocatable(zone, sizeof zone, 8, &profile));
    done(nafelode_allocate_relocatable(zone, sizeof zone, sizeof weight, &recipe));
    done(nafelode_write(zone, sizeof zone, NAFELODE_HANDLE, recipe, 0, 4, weight, sizeof weight));
    upstairs("start of the reel", recipe);
    done(nafelode_allocate_relocatable(zone, sizeof zone, 4, &mark)); /* the splice mark, right after the recipe */
    upstairs("first splice", recipe);
    done(nafelode_resize(zone, sizeof zone, profile, 20)); /* pushes the recipe up */
    upstairs("the profile grows", recipe);
    done(nafelode_free_handle(zone, sizeof zone, profile));
    done(nafelode_allocate_relocatable(zone, sizeof zone, 24, &other)); /* needs 28: 24 and 4 lie free, all slides */
    upstairs("second splice", recipe);
    puts(wrong ? "WRONG: good paper would go to the pulper" : "the reel passes");
    return wrong != 0;
}
