/*
 * A tiny picture stored as 9/7 coefficients and viewed, how far that may lead
 * from what was scanned, and what viewing refuses.
 *
 * From the root of the work tree, after `tools/library`:
 *
 *   cc -std=c99 -Wall -Wextra -Iinclude examples/view.c \
 *      target/staticlib/libengine.a -o view && ./view
 */
#include <inttypes.h>
#include <stdio.h>
#include <string.h>

#include "suzdrepa.h"

enum { WIDTH = 8, HEIGHT = 6, COUNT = WIDTH * HEIGHT, DEPTH = 8, LEVELS = 2 };

/* Prints an answer in words; gives 1 where the call was refused. */
static int tell(const char *call, uint32_t answer)
{
    if (answer == 0) {
        printf("%s: done\n", call);
        return 0;
    }
    printf("%s: refused %u: %s\n", call, SUZ_NUMBER(answer), suz_refusal_text(answer));
    return 1;
}

/* Kept nodes have so many integer bits and 12 fractional bits; all others are
 * as wide as they get, and so are the constants. */
static uint32_t make_table(uint8_t table[SUZ_TABLE_LENGTH(LEVELS)], uint8_t integer_bits)
{
    uint8_t constants[SUZ_TABLE_CONSTANTS], widths[SUZ_TABLE_WIDTHS] = {0};

    memset(constants, SUZ_MAX_CONSTANT_BITS, sizeof constants);
    for (int level = 1; level <= LEVELS; level++) {
        for (int pass = 1; pass <= 3; pass++) {
            for (int node = 1; node <= 6; node++) {
                int low_low = pass == 2 && node == 5;
                int kept = pass > 1 && node > 4 && (!low_low || level == LEVELS);
                uint8_t *width = widths + 2 * (18 * (level - 1) + 6 * (pass - 1) + node - 1);
                width[0] = kept ? integer_bits : SUZ_MAX_INTEGER_BITS;
                width[1] = kept ? 12 : SUZ_MAX_FRACTION_BITS;
            }
        }
    }
    return suz_table_write(DEPTH, LEVELS, constants, widths, table, SUZ_TABLE_LENGTH(LEVELS));
}

static void print(const uint16_t pixels[COUNT])
{
    for (int y = 0; y < HEIGHT; y++) {
        for (int x = 0; x < WIDTH; x++)
            printf("%5u", pixels[y * WIDTH + x]);
        printf("\n");
    }
}

int main(void)
{
    uint8_t table[SUZ_TABLE_LENGTH(LEVELS)], wide[SUZ_TABLE_LENGTH(LEVELS)];
    uint16_t scanned[COUNT], shown[COUNT];
    int32_t plane[COUNT], work[COUNT];
    int64_t view_work[COUNT];
    uint64_t distance;

    /* Light paper with a dark hole. */
    for (int y = 0; y < HEIGHT; y++)
        for (int x = 0; x < WIDTH; x++)
            scanned[y * WIDTH + x] = x >= 3 && x < 6 && y >= 2 && y < 4 ? 12 : 220 + x;

    if (tell("making the table", make_table(table, 5)))
        return 1;
    if (tell("can its planes be viewed", suz_table_view(table, sizeof table)))
        return 1;
    if (tell("how far may that lead", suz_view_distance(table, sizeof table, &distance)))
        return 1;
    /* A grey is 2^(32 - DEPTH) units. */
    double greys = (double)distance / (double)((uint64_t)1 << (32 - DEPTH));
    printf("before rounding at most %.2f greys\n", greys);

    if (tell("forward97", suz_forward97(table, sizeof table, scanned, COUNT, WIDTH, HEIGHT,
                                        plane, COUNT, work, COUNT)))
        return 1;
    if (tell("view97", suz_view97(table, sizeof table, plane, COUNT, WIDTH, HEIGHT,
                                  shown, COUNT, view_work, COUNT)))
        return 1;
    print(shown);
    int most = 0;
    for (int i = 0; i < COUNT; i++) {
        int off = shown[i] > scanned[i] ? shown[i] - scanned[i] : scanned[i] - shown[i];
        if (off > most)
            most = off;
    }
    printf("the picture shown is at most %d greys from the one scanned\n", most);
    if (most > greys + 0.5)
        return 1;

    /* A coefficient that its node does not hold is refused 12. */
    plane[COUNT - 1] = INT32_MAX;
    if (!tell("view97 of a damaged plane",
              suz_view97(table, sizeof table, plane, COUNT, WIDTH, HEIGHT, shown, COUNT,
                         view_work, COUNT)))
        return 1;

    /* With integer bits that no coefficient needs, viewing is refused 13. */
    if (tell("making a wide table", make_table(wide, 12)))
        return 1;
    if (tell("is it accepted", suz_table_check(wide, sizeof wide)))
        return 1;
    return tell("can its planes be viewed", suz_table_view(wide, sizeof wide)) ? 0 : 1;
}
