/*
 * Each call of include/fathrugg.h once or more, as C sees it: answers worked out by hand from ATSC A/52 Annex E, 3.4
 * (vectors of the books are also searched for again), and refusals that leave what was lent as it was. Exits with 0
 * if all is as expected, else with 1 and the line on standard error.
 */
#include <stdio.h>
#include <stdlib.h>
#include <string.h>

#include "fathrugg.h"

static int wrong;

static void expect(int holds, int line)
{
    if (!holds) {
        fprintf(stderr, "calls: line %d: not as expected\n", line);
        wrong = 1;
    }
}

#define EXPECT(holds) expect(holds, __LINE__)

static void bits(void)
{
    /* nine bits from bit 3 on: 111 0 1010 0101 0000 1111 1111 */
    uint8_t out[3] = {0xff, 0x00, 0xff};
    const uint8_t want[3] = {0xea, 0x50, 0xff};
    size_t byte = 0;
    uint32_t bit = 3, value = 7;
    EXPECT(fathrugg_write_u32(out, 3, &byte, &bit, 0xa5, 9) == FATHRUGG_OK);
    EXPECT(memcmp(out, want, 3) == 0 && byte == 1 && bit == 4);
    byte = 0;
    bit = 3;
    EXPECT(fathrugg_read_u32(out, 3, &byte, &bit, 9, &value) == FATHRUGG_OK && value == 0xa5 && byte == 1 && bit == 4);
    value = 7;
    EXPECT(fathrugg_read_u32(out, 3, &byte, &bit, 13, &value) == FATHRUGG_INPUT_ENDS);
    EXPECT(fathrugg_read_u32(out, 3, &byte, &bit, 33, &value) == FATHRUGG_OUT_OF_RANGE);
    EXPECT(fathrugg_write_u32(out, 3, &byte, &bit, 0, 13) == FATHRUGG_OUTPUT_FULL);
    EXPECT(fathrugg_write_u32(out, 3, &byte, &bit, 0, 33) == FATHRUGG_OUT_OF_RANGE);
    EXPECT(memcmp(out, want, 3) == 0 && byte == 1 && bit == 4 && value == 7);
}

static void gains(void)
{
    uint8_t hebap = 77, endbap = 77, gain = 77;
    size_t active = 77, sections = 77, count = 77;
    EXPECT(fathrugg_hebap_from_address(0, 1, &hebap) == FATHRUGG_OK && hebap == 0);
    EXPECT(fathrugg_hebap_from_address(8 * 32, 0, &hebap) == FATHRUGG_OK && hebap == 8);
    EXPECT(fathrugg_hebap_from_address(32767, -65536, &hebap) == FATHRUGG_OK && hebap == 19);
    EXPECT(fathrugg_hebap_from_address(0, 65537, &hebap) == FATHRUGG_OUT_OF_RANGE && hebap == 19);

    EXPECT(fathrugg_endbap_for_gaqmod(1, &endbap) == FATHRUGG_OK && endbap == 12);
    EXPECT(fathrugg_endbap_for_gaqmod(2, &endbap) == FATHRUGG_OK && endbap == 17);
    EXPECT(fathrugg_endbap_for_gaqmod(4, &endbap) == FATHRUGG_OUT_OF_RANGE && endbap == 17);

    const uint8_t row[8] = {0, 7, 8, 11, 12, 16, 17, 19};
    const int8_t marks[8] = {0, 0, 1, 1, -1, -1, -1, -1};
    int8_t gaqbin[8];
    EXPECT(fathrugg_fill_gaqbin(row, 8, 1, gaqbin, 8, &active) == FATHRUGG_OK && active == 2);
    EXPECT(memcmp(gaqbin, marks, 8) == 0);
    EXPECT(fathrugg_fill_gaqbin(row, 8, 4, gaqbin, 8, &active) == FATHRUGG_OUT_OF_RANGE && active == 2);
    EXPECT(memcmp(gaqbin, marks, 8) == 0);

    EXPECT(fathrugg_gaq_sections(3, 4, &sections) == FATHRUGG_OK && sections == 2);
    EXPECT(fathrugg_gaq_sections(4, 4, &sections) == FATHRUGG_OUT_OF_RANGE && sections == 2);
    EXPECT(fathrugg_gaq_gain_value(1, 2, &gain) == FATHRUGG_OK && gain == 4);
    EXPECT(fathrugg_gaq_gain_value(1, 4, &gain) == FATHRUGG_OUT_OF_RANGE && gain == 4);

    /* the words 15 and 31: codes 1, 2, 0, and 2 (cut), 1, 1 */
    const uint8_t words[2] = {0x7f, 0xc0}, want[7] = {1, 2, 0, 2, 1, 1, 9};
    uint8_t codes[7] = {9, 9, 9, 9, 9, 9, 9};
    size_t byte = 0;
    uint32_t bit = 0;
    EXPECT(fathrugg_read_gaq_gains(words, 2, &byte, &bit, 3, 2, codes, 7, &count) == FATHRUGG_OK && count == 6);
    EXPECT(memcmp(codes, want, 7) == 0 && byte == 1 && bit == 2);
    EXPECT(fathrugg_read_gaq_gains(words, 2, &byte, &bit, 3, 2, codes, 7, &count) == FATHRUGG_INPUT_ENDS);
    EXPECT(fathrugg_read_gaq_gains(words, 2, &byte, &bit, 4, 2, codes, 7, &count) == FATHRUGG_OUT_OF_RANGE);
    EXPECT(memcmp(codes, want, 7) == 0 && byte == 1 && bit == 2 && count == 6);
}

static void mantissas(void)
{
    /* hebap 19 at Gk 1: 16 bits over 2^15; Table E3.6 has a = b = 0 there */
    const uint8_t src[12] = {0x40, 0x00, 0xc0, 0x00, 0x00, 0x01, 0x00, 0x00, 0xff, 0xff, 0x7f, 0xff};
    const float unit = 1.0f / 32768.0f, want[6] = {0.5f, -0.5f, unit, 0.0f, -unit, 1.0f - unit};
    float out[6] = {9, 9, 9, 9, 9, 9};
    size_t byte = 0;
    uint32_t bit = 0;
    EXPECT(fathrugg_read_scalar_aht_mantissas(src, 12, &byte, &bit, 19, 0, -1, 0, out) == FATHRUGG_OK);
    EXPECT(memcmp(out, want, sizeof out) == 0 && byte == 12 && bit == 0);
    EXPECT(fathrugg_read_scalar_aht_mantissas(src, 12, &byte, &bit, 19, 0, -1, 0, out) == FATHRUGG_INPUT_ENDS);
    EXPECT(fathrugg_read_scalar_aht_mantissas(src, 12, &byte, &bit, 20, 0, -1, 0, out) == FATHRUGG_HEBAP_ABOVE_19);
    EXPECT(fathrugg_read_scalar_aht_mantissas(src, 12, &byte, &bit, 20, 4, -1, 0, out) == FATHRUGG_OUT_OF_RANGE);
    EXPECT(memcmp(out, want, sizeof out) == 0 && byte == 12 && bit == 0);
}

static void books(void)
{
    const size_t sizes[8] = {0, 4, 8, 16, 32, 128, 256, 512};
    /* the first vector of Table E4.1, over 32768 */
    const float first[6] = {7167 / 32768.0f, 4739 / 32768.0f, 1106 / 32768.0f, 4269 / 32768.0f, 10412 / 32768.0f, 4820 / 32768.0f};
    float out[6];
    EXPECT(fathrugg_vq_lookup(1, 0, out) == FATHRUGG_OK && memcmp(out, first, sizeof out) == 0);
    for (uint8_t hebap = 1; hebap <= 7; hebap++) {
        float v[6], again[6];
        size_t index = 4711;
        /* a vector of a book is its own nearest, and the index is counted round the book */
        EXPECT(fathrugg_vq_lookup(hebap, sizes[hebap] - 1, v) == FATHRUGG_OK);
        EXPECT(fathrugg_vq_search(hebap, v, &index) == FATHRUGG_OK && index == sizes[hebap] - 1);
        EXPECT(fathrugg_vq_lookup(hebap, 2 * sizes[hebap] - 1, again) == FATHRUGG_OK && memcmp(v, again, sizeof v) == 0);
        /* 16384 is the largest size */
        v[5] = 0x1.000002p14f;
        EXPECT(fathrugg_vq_search(hebap, v, &index) == FATHRUGG_COMPONENT && index == sizes[hebap] - 1);
    }
    /* far out the distance is about 2^28 less the sixth number, or more by it; of hebap 1 they are 4820, 849, -2636, -3062 */
    const float far[6] = {0, 0, 0, 0, 0, 0x1p14f}, below[6] = {0, 0, 0, 0, 0, -0x1p14f};
    size_t index = 4711;
    EXPECT(fathrugg_vq_search(1, far, &index) == FATHRUGG_OK && index == 0);
    EXPECT(fathrugg_vq_search(1, below, &index) == FATHRUGG_OK && index == 3);
}

static void quantiser(void)
{
    uint8_t large = 9;
    uint32_t code = 9, count = 9;
    float value = 9, err = 9;
    /* hebap 8 at Gk 2: 2 bits a small code, steps of 1/4; 0.25 is the level 1 */
    EXPECT(fathrugg_quantise_scalar(8, 2, 0.25f, &large, &code, &value) == FATHRUGG_OK && large == 0 && code == 1 && value == 0.25f);
    EXPECT(fathrugg_quantise_scalar(17, 2, 0.25f, &large, &code, &value) == FATHRUGG_NO_QUANTISER);
    EXPECT(fathrugg_quantise_scalar(8, 2, 0x1.000002p14f, &large, &code, &value) == FATHRUGG_COMPONENT);
    EXPECT(fathrugg_quantise_scalar(8, 2, -0x1.000002p14f, &large, &code, &value) == FATHRUGG_COMPONENT);
    EXPECT(large == 0 && code == 1 && value == 0.25f);
    /* the largest sizes take the end codes, of 2 bits here: the levels 1 and -2 */
    EXPECT(fathrugg_quantise_scalar(8, 2, 0x1p14f, &large, &code, &value) == FATHRUGG_OK && large == 1 && code == 1);
    EXPECT(fathrugg_quantise_scalar(8, 2, -0x1p14f, &large, &code, &value) == FATHRUGG_OK && large == 1 && code == 2);

    const float x[6] = {0.25f, 0.0f, -0.25f, 0.0f, 0.0f, 0.0f};
    float values[6];
    EXPECT(fathrugg_quantise_bin(8, 2, x, values, &count, &err) == FATHRUGG_OK && count == 12 && err == 0.0f);
    EXPECT(memcmp(values, x, sizeof x) == 0);
    EXPECT(fathrugg_quantise_bin(7, 1, x, values, &count, &err) == FATHRUGG_NO_QUANTISER && count == 12 && err == 0.0f);
    EXPECT(memcmp(values, x, sizeof x) == 0);
}

static void channel(void)
{
    /* the channel of docs/FORMAT.md, Desk text: 15 bits, 69 80 */
    const uint8_t hebap[2] = {8, 0}, want[2] = {0x69, 0x80};
    const float x[12] = {0.25f, 0.0f, -0.25f, 0.0f, 0.0f, 0.0f};
    uint8_t mode = 9, gk[FATHRUGG_GAINS], field[2] = {0, 0};
    size_t count = 9, byte = 0;
    uint32_t payload = 9, bit = 0, length = 9;
    EXPECT(fathrugg_plan_aht_channel(hebap, 2, 0, 2, x, 12, &mode, gk, &count, &payload) == FATHRUGG_OK);
    EXPECT(mode == 1 && count == 1 && gk[0] == 2 && gk[1] == 0 && payload == 13);
    EXPECT(fathrugg_write_aht_channel(mode, gk, count, payload, hebap, 2, 0, 2, x, 12, field, 1, &byte, &bit) == FATHRUGG_OUTPUT_FULL);
    EXPECT(fathrugg_write_aht_channel(mode, gk, count, 12, hebap, 2, 0, 2, x, 12, field, 2, &byte, &bit) == FATHRUGG_PLAN_MISFIT);
    EXPECT(field[0] == 0 && field[1] == 0 && byte == 0 && bit == 0);
    EXPECT(fathrugg_write_aht_channel(mode, gk, count, payload, hebap, 2, 0, 2, x, 12, field, 2, &byte, &bit) == FATHRUGG_OK);
    EXPECT(memcmp(field, want, 2) == 0 && byte == 1 && bit == 7);

    float values[12];
    int32_t exact[12];
    uint16_t indices[2];
    byte = 0;
    bit = 0;
    EXPECT(fathrugg_read_aht_channel(field, 2, &byte, &bit, hebap, 2, 0, 2, values, 12, exact, 12, indices, 2, &mode, gk, &count, &length) == FATHRUGG_OK);
    EXPECT(byte == 1 && bit == 7 && length == 15 && memcmp(values, x, sizeof x) == 0 && exact[0] == 1 << 28 && exact[2] == -(1 << 28) && indices[0] == 0);
    byte = 0;
    bit = 0;
    EXPECT(fathrugg_read_aht_channel(field, 1, &byte, &bit, hebap, 2, 0, 2, values, 12, exact, 12, indices, 2, &mode, gk, &count, &length) == FATHRUGG_INPUT_ENDS);
    EXPECT(memcmp(values, x, sizeof x) == 0 && exact[0] == 1 << 28 && exact[2] == -(1 << 28) && indices[0] == 0);
    /* mode 3, one active bin: a group word of 27, then one whose missing codes are not 0 */
    const uint8_t above[4] = {0xf6, 0, 0, 0}, unused[4] = {0xc2, 0, 0, 0};
    EXPECT(fathrugg_read_aht_channel(above, 4, &byte, &bit, hebap, 2, 0, 2, values, 12, exact, 12, indices, 2, &mode, gk, &count, &length) == FATHRUGG_GROUP_WORD);
    EXPECT(fathrugg_read_aht_channel(unused, 4, &byte, &bit, hebap, 2, 0, 2, values, 12, exact, 12, indices, 2, &mode, gk, &count, &length) == FATHRUGG_UNUSED_CODE);
    EXPECT(byte == 0 && bit == 0);
    EXPECT(fathrugg_plan_aht_channel(hebap, 2, 1, 0, x, 12, &mode, gk, &count, &payload) == FATHRUGG_START_ABOVE_END);
    EXPECT(fathrugg_plan_aht_channel(hebap, 2, 0, 257, x, 12, &mode, gk, &count, &payload) == FATHRUGG_END_ABOVE_256);
    EXPECT(fathrugg_plan_aht_channel(hebap, 2, 0, 2, x, 11, &mode, gk, &count, &payload) == FATHRUGG_TOO_SHORT);
    const uint8_t unknown[2] = {20, 0};
    const float loud[12] = {0x1p14f}, louder[12] = {0x1.000002p14f};
    EXPECT(fathrugg_plan_aht_channel(unknown, 2, 0, 2, x, 12, &mode, gk, &count, &payload) == FATHRUGG_HEBAP_ABOVE_19);
    EXPECT(fathrugg_plan_aht_channel(hebap, 2, 0, 2, louder, 12, &mode, gk, &count, &payload) == FATHRUGG_COMPONENT);
    EXPECT(mode == 1 && count == 1 && gk[0] == 2 && payload == 13 && length == 15);
    /* six codes of 3 bits are 18 at Gk 1; at Gk 2 one of 4 and five of 2 with the gain's bit 15; at Gk 4 one of 4 and
       five of 1 with it 10 */
    EXPECT(fathrugg_plan_aht_channel(hebap, 2, 0, 2, loud, 12, &mode, gk, &count, &payload) == FATHRUGG_OK);
    EXPECT(mode == 2 && count == 1 && gk[0] == 4 && payload == 10);
    /* mode 10, the gain's bit 1, the tag 1, the highest level 011, five small codes 0: 1011 0110 0000 */
    uint8_t out[2] = {0, 0};
    byte = 0;
    bit = 0;
    EXPECT(fathrugg_write_aht_channel(mode, gk, count, payload, hebap, 2, 0, 2, louder, 12, out, 2, &byte, &bit) == FATHRUGG_COMPONENT);
    EXPECT(out[0] == 0 && byte == 0 && bit == 0);
    EXPECT(fathrugg_write_aht_channel(mode, gk, count, payload, hebap, 2, 0, 2, loud, 12, out, 2, &byte, &bit) == FATHRUGG_OK);
    EXPECT(out[0] == 0xb6 && out[1] == 0 && byte == 1 && bit == 4);
}

struct plan {
    uint8_t mode, gk[FATHRUGG_GAINS];
    size_t count;
    uint32_t payload;
};

struct channel {
    const uint8_t *hebap;
    size_t bins;
    const float *x;
    size_t components, start, end;
};

/* What is lent for pages, with room behind them, and what should stand there. */
static uint8_t paper[FATHRUGG_PAGES_BYTES + 100], wanted[sizeof paper];

static uint8_t print(const struct plan *p, const struct channel *c, size_t len, size_t *length)
{
    memset(paper, '#', sizeof paper);
    return fathrugg_print_pages(p->mode, p->gk, p->count, p->payload, c->hebap, c->bins, c->start, c->end, c->x,
                                c->components, paper, len, length);
}

/* Prints to outputs as long as the pages and longer, and to shorter ones. These lines begin the pages: spaces fill
   each to 64 characters, lines of spaces the last page to 50 lines. */
static void printed(const struct plan *p, const struct channel *c, const char *const *lines, size_t count, int line)
{
    size_t bytes = 0, length = 9;
    memset(wanted, '#', sizeof wanted);
    for (size_t i = 0; i < count || i % 50 > 0; i++, bytes += 65) {
        memset(wanted + bytes, ' ', 64);
        if (i < count) memcpy(wanted + bytes, lines[i], strlen(lines[i]));
        wanted[bytes + 64] = 10;
    }
    const size_t longer[3] = {bytes, bytes + 1, sizeof paper}, shorter[3] = {0, bytes / 2, bytes - 1};
    for (int i = 0; i < 3; i++) {
        expect(print(p, c, longer[i], &length) == FATHRUGG_OK && length == bytes, line);
        expect(memcmp(paper, wanted, sizeof paper) == 0, line);
    }
    memset(wanted, '#', sizeof wanted);
    length = 9;
    for (int i = 0; bytes > 0 && i < 3; i++) {
        expect(print(p, c, shorter[i], &length) == FATHRUGG_OUTPUT_FULL && length == 9, line);
        expect(memcmp(paper, wanted, sizeof paper) == 0, line);
    }
}

#define PRINTED(p, c, lines) printed(&(p), &(c), lines, sizeof lines / sizeof *lines, __LINE__)

static void pages(void)
{
    /* the channel of docs/FORMAT.md, Desk text: its plan, and two that fit too; at Gk 1 a code has 3 bits, at Gk 4
       those of 0.25 and -0.25 have 4, that of 0 has one */
    const uint8_t row[2] = {8, 0};
    const float quarters[12] = {0.25f, 0.0f, -0.25f};
    const struct channel tie = {row, 2, quarters, 12, 0, 2};
    const struct plan best = {1, {2}, 1, 13}, at_4 = {3, {4}, 1, 17}, at_1 = {0, {0}, 0, 18};
    const char *const with_2[1] = {"  0  8 2  12   1  0 -   0"}, *const with_4[1] = {"  0  8 4  12   1  0 -   0"};
    const char *const without[1] = {"  0  8 -  18   1  0 -   0"};
    PRINTED(best, tie, with_2);
    PRINTED(at_4, tie, with_4);
    PRINTED(at_1, tie, without);

    /* five bins from bin 2 on. Gk 1: 6 * 3 bits, a book's 4, 6 * 7, 6 * 12 and 6 * 11. Bin 4 has one component of a
       large code, 5 * 6 + 12 bits at Gk 2 and 5 * 5 + 12 at Gk 4; bin 6 has six, 6 * (9 + 11) at Gk 4 */
    const uint8_t later[7] = {20, 255, 8, 3, 12, 17, 16};
    float x[42] = {0};
    x[4 * 6 + 2] = 1.0f;
    for (int k = 0; k < 6; k++) x[6 * 6 + k] = -1.0f;
    const struct channel five = {later, 7, x, 42, 2, 7};
    const struct plan mode_1 = {1, {2}, 1, 1 + 12 + 4 + 42 + 72 + 66};
    const struct plan mode_2 = {2, {4, 4, 1}, 3, 3 + 6 + 4 + 37 + 72 + 66};
    const struct plan mode_3 = {3, {1, 2, 4}, 3, 5 + 18 + 4 + 42 + 72 + 120};
    const char *const in_1[2] = {"  2  8 2  12   3  3 -   4   4 12 -  42   5 17 -  72", "  6 16 -  66"};
    const char *const in_2[2] = {"  2  8 4   6   3  3 -   4   4 12 4  37   5 17 -  72", "  6 16 1  66"};
    const char *const in_3[2] = {"  2  8 1  18   3  3 -   4   4 12 2  42   5 17 -  72", "  6 16 4 120"};
    PRINTED(mode_1, five, in_1);
    PRINTED(mode_2, five, in_2);
    PRINTED(mode_3, five, in_3);

    /* 200 bins fill a page, 201 begin another; six codes of 16 bits each */
    uint8_t high[FATHRUGG_BINS];
    static const float zeros[FATHRUGG_COMPONENTS];
    memset(high, 19, sizeof high);
    for (int start = 0; start <= 56; start++) {
        const struct channel many = {high, FATHRUGG_BINS, zeros, FATHRUGG_COMPONENTS, (size_t)start, 256};
        const struct plan plain = {0, {0}, 0, 96 * (256 - (uint32_t)start)};
        char text[64][64] = {{0}};
        const char *lines[64];
        for (int i = 0; i < 256 - start; i++) {
            lines[i / 4] = text[i / 4];
            sprintf(text[i / 4] + strlen(text[i / 4]), "%s%3d 19 -  96", i % 4 > 0 ? " " : "", start + i);
        }
        printed(&plain, &many, lines, (256 - (size_t)start + 3) / 4, __LINE__);
    }

    /* no bins, no page: not a byte of the output is needed */
    const struct channel none = {row, 2, quarters, 12, 2, 2};
    const struct plan empty = {3, {0}, 0, 0};
    printed(&empty, &none, NULL, 0, __LINE__);

    /* each refusal where later ones hold too; then again with room for the pages */
    const struct plan misfit = {1, {2}, 1, 12};
    const uint8_t unknown[2] = {8, 20};
    const float louder[12] = {0x1.000002p14f};
    const struct channel faults[7] = {
        {row, 2, quarters, 12, 258, 257}, {row, 2, quarters, 12, 0, 257}, {unknown, 1, louder, 12, 0, 2},
        {unknown, 2, louder, 11, 0, 2}, {unknown, 2, louder, 12, 0, 2}, {row, 2, louder, 12, 0, 2}, tie,
    };
    const uint8_t numbers[7] = {1, 2, 3, 3, 4, 5, 6};
    memset(wanted, '#', sizeof wanted);
    for (int i = 0; i < 14; i++) {
        size_t length = 9;
        EXPECT(print(&misfit, &faults[i % 7], i < 7 ? 0 : FATHRUGG_PAGES_BYTES, &length) == numbers[i % 7]);
        EXPECT(length == 9 && memcmp(paper, wanted, sizeof paper) == 0);
    }
}

/* The components of bins of hebap 0 are never looked at: here they are never set, which valgrind tells if they are.
   Six codes of 3 bits at 0.25 take 18 bits at Gk 1; at Gk 2 each is small and takes 2, with the gain's bit 13; at Gk 4 each takes the tag. */
static void unset(void)
{
    enum { BINS = 16 };
    const uint8_t hebap[BINS] = {8};
    float *x = malloc(6 * BINS * sizeof *x);
    if (x == NULL) exit(2);
    for (int k = 0; k < 6; k++) x[k] = 0.25f;
    uint8_t mode = 9, gk[256], field[2] = {0};
    size_t count = 9, byte = 0;
    uint32_t payload = 9, bit = 0;
    EXPECT(fathrugg_plan_aht_channel(hebap, BINS, 0, BINS, x, 6 * BINS, &mode, gk, &count, &payload) == FATHRUGG_OK);
    EXPECT(mode == 1 && count == 1 && gk[0] == 2 && payload == 13);
    EXPECT(fathrugg_write_aht_channel(mode, gk, count, payload, hebap, BINS, 0, BINS, x, 6 * BINS, field, 2, &byte, &bit) == FATHRUGG_OK);
    EXPECT(byte == 1 && bit == 7);
    const struct plan p = {1, {2}, 1, 13};
    const struct channel c = {hebap, BINS, x, 6 * BINS, 0, BINS};
    const char *const lines[4] = {
        "  0  8 2  12   1  0 -   0   2  0 -   0   3  0 -   0", "  4  0 -   0   5  0 -   0   6  0 -   0   7  0 -   0",
        "  8  0 -   0   9  0 -   0  10  0 -   0  11  0 -   0", " 12  0 -   0  13  0 -   0  14  0 -   0  15  0 -   0",
    };
    PRINTED(p, c, lines);
    free(x);
}

/* The version of header and library, and a text for every number, each known one with its own. */
static void names(void)
{
    EXPECT(fathrugg_version() == FATHRUGG_VERSION);
    for (unsigned n = 0; n < 256; n++) {
        int known = strcmp(fathrugg_refusal_text(n), "unknown refusal") != 0;
        EXPECT(known == (n <= FATHRUGG_TEXT));
        for (unsigned k = 0; known && k < n; k++) EXPECT(strcmp(fathrugg_refusal_text(n), fathrugg_refusal_text(k)) != 0);
    }
}

int main(void)
{
    names();
    bits();
    gains();
    mantissas();
    books();
    quantiser();
    channel();
    pages();
    unset();
    return wrong;
}
