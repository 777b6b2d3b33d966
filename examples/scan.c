/*
 * A strip scanned line by line, with memory for eleven lines, and what a scan
 * refuses. The lines that are given are held against the transform of the whole
 * strip.
 *
 * From the root of the work tree, after `tools/library`:
 *
 *   cc -std=c99 -Wall -Wextra -Iinclude examples/scan.c \
 *      target/staticlib/libengine.a -o scan && ./scan
 */
#include <stdio.h>
#include <string.h>

#include "suzdrepa.h"

enum { WIDTH = 8, HEIGHT = 7, COUNT = WIDTH * HEIGHT, DEPTH = 8 };

/* A scan and its memory. Real strips are longer: this does not grow with them. */
struct scan {
    uint8_t state[SUZ_SCAN_LENGTH];
    int32_t held[SUZ_SCAN_HELD_LINES * WIDTH];
    int32_t out[SUZ_SCAN_OUT_LINES * WIDTH];
    uint32_t given;
    unsigned came; /* lines that were given so far */
};

/* Prints an answer in words; gives 1 where the call was refused. */
static int tell(const char *call, uint32_t answer)
{
    if (answer == 0) {
        printf("%s: done\n", call);
        return 0;
    }
    printf("%s: refused %u: %s\n", call, SUZ_NUMBER(answer), suz_refusal_text(answer));
    return 1;
}

/* One level. Kept nodes have 5 integer and 12 fractional bits; all others are
 * as wide as they get, and so are the constants. */
static uint32_t make_table(uint8_t table[SUZ_TABLE_LENGTH(1)])
{
    uint8_t constants[SUZ_TABLE_CONSTANTS], widths[SUZ_TABLE_WIDTHS] = {0};

    memset(constants, SUZ_MAX_CONSTANT_BITS, sizeof constants);
    for (int i = 0; i < SUZ_TABLE_LEVEL / 2; i++) {
        int kept = i >= 6 && i % 6 >= 4;
        widths[2 * i] = kept ? 5 : SUZ_MAX_INTEGER_BITS;
        widths[2 * i + 1] = kept ? 12 : SUZ_MAX_FRACTION_BITS;
    }
    return suz_table_write(DEPTH, 1, constants, widths, table, SUZ_TABLE_LENGTH(1));
}

static uint32_t take_line(struct scan *scan, const uint16_t *pixels, size_t width)
{
    return suz_scan_line(scan->state, SUZ_SCAN_LENGTH, pixels, width, width,
                         scan->held, SUZ_SCAN_HELD_LINES * WIDTH,
                         scan->out, SUZ_SCAN_OUT_LINES * WIDTH, &scan->given);
}

static uint32_t end(struct scan *scan)
{
    return suz_scan_end(scan->state, SUZ_SCAN_LENGTH,
                        scan->held, SUZ_SCAN_HELD_LINES * WIDTH,
                        scan->out, SUZ_SCAN_OUT_LINES * WIDTH, &scan->given);
}

/* Puts the lines that were given into their rows of the plane. */
static void keep(struct scan *scan, const char *call, int32_t plane[COUNT])
{
    if (scan->given > 0)
        printf("%s gives", call);
    for (uint32_t i = 0; i < scan->given; i++, scan->came++) {
        /* Low and high lines come in turn. */
        unsigned number = scan->came / 2, high = scan->came % 2;
        size_t row = high ? (HEIGHT + 1) / 2 + number : number;
        memcpy(plane + row * WIDTH, scan->out + i * WIDTH, WIDTH * sizeof *plane);
        printf("%s %s %u", i > 0 ? "," : "", high ? "high" : "low", number);
    }
    if (scan->given > 0)
        printf("\n");
}

int main(void)
{
    uint8_t table[SUZ_TABLE_LENGTH(1)];
    uint16_t strip[COUNT], light[WIDTH] = {0};
    int32_t plane[COUNT], whole[COUNT], work[COUNT];
    struct scan scan = {.came = 0};
    char call[16];

    /* Light paper with a dark hole. */
    for (int y = 0; y < HEIGHT; y++)
        for (int x = 0; x < WIDTH; x++)
            strip[y * WIDTH + x] = x >= 3 && x < 6 && y >= 2 && y < 4 ? 12 : 220 + x;
    light[WIDTH - 1] = 1 << DEPTH;

    if (tell("making the table", make_table(table)))
        return 1;
    if (tell("begin", suz_scan_begin(table, sizeof table, scan.state, SUZ_SCAN_LENGTH)))
        return 1;
    for (int y = 0; y < HEIGHT; y++) {
        if (take_line(&scan, strip + y * WIDTH, WIDTH) != 0)
            return 1;
        snprintf(call, sizeof call, "line %d", y);
        keep(&scan, call, plane);
        /* A refused line counts as not there. */
        if (y == 2 && !tell("a line of another width", take_line(&scan, strip, WIDTH - 1)))
            return 1;
        if (y == 5 && !tell("a line too light", take_line(&scan, light, WIDTH)))
            return 1;
    }
    if (end(&scan) != 0)
        return 1;
    keep(&scan, "the end", plane);
    if (!tell("a second end", end(&scan)))
        return 1;

    if (tell("forward97 of the whole strip",
             suz_forward97(table, sizeof table, strip, COUNT, WIDTH, HEIGHT,
                           whole, COUNT, work, COUNT)))
        return 1;
    if (scan.came != HEIGHT || memcmp(plane, whole, sizeof plane) != 0)
        return 1;
    printf("%u lines of coefficients came, those of the whole strip\n", scan.came);
    return 0;
}
