/*
 * An exact copy of a tiny picture and back, the picture of a copy made earlier,
 * and two width tables judged.
 *
 * From the root of the work tree, after `tools/library`:
 *
 *   cc -std=c99 -Wall -Wextra -Iinclude examples/copy.c \
 *      target/staticlib/libengine.a -o copy && ./copy
 */
#include <inttypes.h>
#include <stdio.h>
#include <string.h>

#include "suzdrepa.h"

enum { WIDTH = 8, HEIGHT = 6, COUNT = WIDTH * HEIGHT, DEPTH = 8, LEVELS = 2 };

/* Prints an answer in words; gives 1 where the call was refused. */
static int tell(const char *call, uint32_t answer)
{
    if (answer == 0) {
        printf("%s: done\n", call);
        return 0;
    }
    printf("%s: refused %u: %s", call, SUZ_NUMBER(answer), suz_refusal_text(answer));
    if (SUZ_LEVEL(answer) != 0)
        printf(" (level %u, pass %u, node %u)", SUZ_LEVEL(answer), SUZ_PASS(answer),
               SUZ_NODE(answer));
    printf("\n");
    return 1;
}

/* A table of one level: every node 12 integer bits; kept nodes 2 fractional
 * bits, all others 20; constants with 24 bits. */
static void make_table(uint8_t table[SUZ_TABLE_LENGTH(1)])
{
    static const uint8_t head[20] = {1, 0, 1, DEPTH, 2, 0, 1, 1, 3, 0, 6,
                                     24, 24, 24, 24, 24, 24, 4, 0, 36};
    memcpy(table, head, sizeof head);
    for (int pass = 1; pass <= 3; pass++) {
        for (int node = 1; node <= 6; node++) {
            uint8_t *width = table + 20 + 2 * (6 * (pass - 1) + node - 1);
            width[0] = 12;
            width[1] = pass > 1 && node > 4 ? 2 : 20;
        }
    }
}

int main(void)
{
    uint16_t pixels[COUNT], back[COUNT];
    int32_t plane[COUNT], work[COUNT];

    /* Light paper with a dark hole. */
    for (int y = 0; y < HEIGHT; y++)
        for (int x = 0; x < WIDTH; x++)
            pixels[y * WIDTH + x] = x >= 3 && x < 6 && y >= 2 && y < 4 ? 12 : 220 + x;

    if (tell("forward53", suz_forward53(DEPTH, LEVELS, pixels, COUNT, WIDTH, HEIGHT,
                                        plane, COUNT, work, COUNT)))
        return 1;
    for (int y = 0; y < HEIGHT; y++) {
        for (int x = 0; x < WIDTH; x++)
            printf("%5" PRId32, plane[y * WIDTH + x]);
        printf("\n");
    }
    if (tell("inverse53", suz_inverse53(DEPTH, LEVELS, plane, COUNT, WIDTH, HEIGHT,
                                        back, COUNT, work, COUNT)))
        return 1;
    if (memcmp(pixels, back, sizeof pixels) != 0) {
        printf("the picture came back changed\n");
        return 1;
    }
    printf("the picture came back the same\n");

    /* A coefficient that no picture has is refused 11. */
    plane[0] = 100000;
    if (!tell("inverse53 of a damaged copy",
              suz_inverse53(DEPTH, LEVELS, plane, COUNT, WIDTH, HEIGHT, back, COUNT, work,
                            COUNT)))
        return 1;

    /* A copy made earlier, rows first, has a way back of its own. */
    static const int32_t earlier[4] = {1, 1, -2, -2};
    if (tell("inverse53_rows_first", suz_inverse53_rows_first(3, 1, earlier, 4, 2, 2, back, 4,
                                                              work, 4)))
        return 1;
    printf("the picture of the earlier copy: %u %u over %u %u\n", (unsigned)back[0],
           (unsigned)back[1], (unsigned)back[2], (unsigned)back[3]);

    uint8_t table[SUZ_TABLE_LENGTH(1)], narrow[SUZ_TABLE_LENGTH(1)];
    make_table(table);
    if (tell("check of a wide table", suz_table_check(table, sizeof table)))
        return 1;
    if (tell("change of P1 to two integer bits",
             suz_table_change(table, sizeof table, 1, 1, 1, 2, 20, narrow, sizeof narrow)))
        return 1;
    return tell("check of the narrow table", suz_table_check(narrow, sizeof narrow)) ? 0 : 1;
}
