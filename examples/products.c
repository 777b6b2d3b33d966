/*
 * A width table with product widths: made, judged, one width changed, and a tiny
 * picture worked under it and under the same table without them.
 *
 * From the root of the work tree, after `tools/library`:
 *
 *   cc -std=c99 -Wall -Wextra -Iinclude examples/products.c \
 *      target/staticlib/libengine.a -o products && ./products
 */
#include <inttypes.h>
#include <stdio.h>
#include <string.h>

#include "suzdrepa.h"

enum { WIDTH = 8, HEIGHT = 6, COUNT = WIDTH * HEIGHT, DEPTH = 8, LEVELS = 1 };

/* Prints an answer in words; gives 1 where the call was refused. */
static int tell(const char *call, uint32_t answer)
{
    if (answer == 0) {
        printf("%s: done\n", call);
        return 0;
    }
    printf("%s: refused %u: %s", call, SUZ_NUMBER(answer), suz_refusal_text(answer));
    if (SUZ_LEVEL(answer) != 0)
        printf(" (level %u, pass %u, node %u)", SUZ_LEVEL(answer), SUZ_PASS(answer),
               SUZ_NODE(answer));
    printf("\n");
    return 1;
}

/* Kept nodes have 12 integer and 8 fractional bits; all others are as wide as
 * they get, and so are the constants. Every product is cut to so many fractional
 * bits before it is added. */
static uint32_t make_table(uint8_t table[SUZ_TABLE_LENGTH_PRODUCTS(LEVELS)], uint8_t bits)
{
    uint8_t constants[SUZ_TABLE_CONSTANTS], widths[SUZ_TABLE_WIDTHS] = {0};
    uint8_t products[SUZ_TABLE_PRODUCTS] = {0};

    memset(constants, SUZ_MAX_CONSTANT_BITS, sizeof constants);
    for (int i = 0; i < SUZ_TABLE_LEVEL / 2; i++) {
        int kept = i >= 6 && i % 6 >= 4;
        widths[2 * i] = SUZ_MAX_INTEGER_BITS;
        widths[2 * i + 1] = kept ? 8 : SUZ_MAX_FRACTION_BITS;
    }
    memset(products, bits, LEVELS * SUZ_TABLE_PRODUCT_LEVEL);
    return suz_table_write_products(DEPTH, LEVELS, constants, widths, 1, products, table,
                                    SUZ_TABLE_LENGTH_PRODUCTS(LEVELS));
}

static void print(const char *name, const int32_t plane[COUNT])
{
    printf("%s:\n", name);
    for (int y = 0; y < HEIGHT; y++) {
        for (int x = 0; x < WIDTH; x++)
            printf("%6" PRId32, plane[y * WIDTH + x]);
        printf("\n");
    }
}

int main(void)
{
    uint8_t table[SUZ_TABLE_LENGTH_PRODUCTS(LEVELS)], rough[SUZ_TABLE_LENGTH_PRODUCTS(LEVELS)];
    uint16_t pixels[COUNT];
    int32_t plane[COUNT], uncut[COUNT], work[COUNT];
    uint32_t start, length;

    /* Light paper with a dark hole. */
    for (int y = 0; y < HEIGHT; y++)
        for (int x = 0; x < WIDTH; x++)
            pixels[y * WIDTH + x] = x >= 3 && x < 6 && y >= 2 && y < 4 ? 12 : 220 + x;

    if (tell("a table with products of 13 bits", make_table(table, 13)))
        return 1;
    if (tell("is it accepted", suz_table_check(table, sizeof table)))
        return 1;
    if (tell("where its product widths stand",
             suz_table_value(table, sizeof table, 5, &start, &length)))
        return 1;
    printf("bytes %" PRIu32 " to %" PRIu32 " of %u\n", start, start + length - 1,
           (unsigned)sizeof table);

    /* The first product, of the rows' P1, cut to 6 bits: too rough for steps of
     * 2^-8. */
    if (tell("one product of 6 bits",
             suz_table_change_product(table, sizeof table, 1, 1, 1, 6, rough, sizeof rough)))
        return 1;
    if (!tell("is it accepted", suz_table_check(rough, sizeof rough)))
        return 1;

    /* Without tag 5 it is the same table but for its products: none is cut, and
     * there is no width of one to name or to change. */
    size_t without = SUZ_TABLE_LENGTH(LEVELS);
    if (!tell("product widths of a table without tag 5",
              suz_table_value(table, without, 5, &start, &length)))
        return 1;
    if (!tell("one changed there",
              suz_table_change_product(table, without, 1, 1, 1, 6, rough, sizeof rough)))
        return 1;

    if (tell("forward97", suz_forward97(table, sizeof table, pixels, COUNT, WIDTH, HEIGHT,
                                        plane, COUNT, work, COUNT)))
        return 1;
    if (tell("forward97 without tag 5",
             suz_forward97(table, without, pixels, COUNT, WIDTH, HEIGHT, uncut, COUNT, work,
                           COUNT)))
        return 1;
    print("products of 13 bits", plane);
    print("no product cut", uncut);

    /* Both are less than two steps from the exact plane. */
    int32_t most = 0;
    for (int i = 0; i < COUNT; i++) {
        int32_t off = plane[i] > uncut[i] ? plane[i] - uncut[i] : uncut[i] - plane[i];
        if (off > most)
            most = off;
    }
    printf("the coefficients differ by at most %" PRId32 " of their steps\n", most);
    return most < 4 ? 0 : 1;
}
