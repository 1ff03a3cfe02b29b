/*
 * Plans the channel of docs/FORMAT.md, Desk text, writes its field and prints the plan as the desk does
 * (examples/tie.plan), then the lines of its page that show bins. Then it reads the field back and compares. Exits
 * with 0 if all went well, else with 1 and a word on standard error.
 *
 *   cc -std=c99 -Wall -Wextra -Werror -Iinclude examples/c/plan.c crates/fathrugg/out/libfathrugg.a -o target/plan
 *
 * or, once tools/install has put the library where pkg-config finds it,
 *
 *   cc -std=c99 -Wall -Wextra -Werror examples/c/plan.c $(pkg-config --cflags --libs fathrugg) -o plan
 */
#include <stdio.h>
#include <string.h>

#include "fathrugg.h"

#define START 0
#define END 2

/* hebap 8: six mantissas of 3 bits; hebap 0: nothing is coded */
static const uint8_t hebap[END] = {8, 0};

static const float x[6 * END] = {
    0.25f, 0.0f, -0.25f, 0.0f, 0.0f, 0.0f,
    0.0f,  0.0f, 0.0f,   0.0f, 0.0f, 0.0f,
};

static int refused(const char *call, uint8_t number)
{
    fprintf(stderr, "plan: %s is refused with %d: %s\n", call, number, fathrugg_refusal_text(number));
    return 1;
}

static int differs(const char *what)
{
    fprintf(stderr, "plan: %s: something else is read than was planned\n", what);
    return 1;
}

int main(void)
{
    uint8_t mode, gains[FATHRUGG_GAINS];
    size_t count;
    uint32_t payload;
    uint8_t number = fathrugg_plan_aht_channel(hebap, END, START, END, x, 6 * END, &mode, gains, &count, &payload);
    if (number != FATHRUGG_OK)
        return refused("the plan", number);

    /* the field, from the first bit on; the bits behind it stay 0 */
    uint8_t field[FATHRUGG_FIELD_BYTES] = {0};
    size_t byte = 0;
    uint32_t bit = 0;
    number = fathrugg_write_aht_channel(mode, gains, count, payload, hebap, END, START, END, x, 6 * END,
                                        field, sizeof field, &byte, &bit);
    if (number != FATHRUGG_OK)
        return refused("the write", number);
    size_t bytes = bit > 0 ? byte + 1 : byte;

    printf("(plan\n(mode %d)\n(gains", mode);
    for (size_t i = 0; i < count; i++)
        printf(" %d", gains[i]);
    printf(")\n(payload %lu)\n(total %lu)\n(field", (unsigned long)payload, (unsigned long)payload + 2);
    for (size_t i = 0; i < bytes; i++)
        printf(" %02x", field[i]);
    printf(")\n)\n");

    /* the plan on a page: of its lines of 65 bytes those that show bins, four to a line */
    uint8_t pages[FATHRUGG_PAGES_BYTES];
    size_t length;
    number = fathrugg_print_pages(mode, gains, count, payload, hebap, END, START, END, x, 6 * END,
                                  pages, sizeof pages, &length);
    if (number != FATHRUGG_OK)
        return refused("the print", number);
    fwrite(pages, 65, (END - START + 3) / 4, stdout);
    if (fflush(stdout) != 0) {
        fprintf(stderr, "plan: standard output cannot be written\n");
        return 1;
    }

    /* only the bytes that were written are lent to the reader */
    float values[6 * END];
    int32_t exact[6 * END];
    uint16_t indices[END];
    uint8_t mode_read, gains_read[FATHRUGG_GAINS];
    size_t count_read;
    uint32_t bits;
    size_t byte_read = 0;
    uint32_t bit_read = 0;
    number = fathrugg_read_aht_channel(field, bytes, &byte_read, &bit_read, hebap, END, START, END, values, 6 * END, exact, 6 * END,
                                       indices, END, &mode_read, gains_read, &count_read, &bits);
    if (number != FATHRUGG_OK)
        return refused("the read", number);
    if (mode_read != mode)
        return differs("mode");
    if (count_read != count || memcmp(gains_read, gains, sizeof gains) != 0)
        return differs("gains");
    if (bits != payload + 2 || byte_read != byte || bit_read != bit)
        return differs("bits");
    /* each component of this channel is a level of the quantiser, so it comes back as it went in */
    for (size_t i = 0; i < 6 * END; i++)
        if (values[i] != x[i] || exact[i] != (int32_t)(x[i] * 1073741824.0f))
            return differs("values");
    return 0;
}
