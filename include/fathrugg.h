/*
 * Fathrugg: the channel coder of the adaptive hybrid transform of E-AC-3, as proved calls. Link with libfathrugg.a
 * (pkg-config fathrugg), from C99 or C++ on x86-64 Linux.
 *
 * Answers. Each call answers 0, or the number of its refusal. Of causes that hold together it answers the first in
 * the order that the call's comment has them in. A refused call leaves every buffer, every number and every position
 * that was lent as it was.
 *
 * Lengths. A buffer is a pointer followed by its length. A length counts places of the buffer's type (bytes, floats,
 * ..), not bytes. A longer buffer than needed is fine: the places behind are kept. gains, and vectors of six floats,
 * have a fixed length and no number behind them.
 *
 * Bins. A channel has the bins start to end - 1, with end at most 256. hebap is the row: a number 0 to 19 for each
 * bin. Buffers with places for bins begin at bin 0, also where start is above 0: bin k has the place k of hebap and
 * indices, and the six places from 6 * k on of x, values and exact.
 *
 * Gains. Gk is 1, 2 or 4. gains has 256 bytes: Gk of each bin that has a gain of its own in the mode (hebap 8 to 11
 * in mode 1, 8 to 16 in modes 2 and 3, none in mode 0), in bin order, count of them.
 *
 * Bits. The first bit of a byte is the heaviest. A position is a byte and a bit: the bit 8 * byte + bit of the
 * buffer, for any two numbers. Every call that reads or writes bits is lent its position and moves it behind them,
 * with a bit below 8. A position at the end of the buffer is fine; one past it is refused, also where no bit is
 * needed.
 *
 * What you must see to. No pointer is NULL, also not with a length of 0, and each is aligned as its type is. A buffer
 * has as many places as its length says, and no more than PTRDIFF_MAX bytes. What a call writes to overlaps nothing
 * else that is lent to it. Floats are rounded to nearest, subnormal numbers are not flushed to zero, and floating-point
 * exceptions are masked, as is the default: with FE_INVALID or FE_INEXACT trapping (feenableexcept), a call may end the
 * program where it would answer, with 5 for a NaN for one.
 *
 * The library keeps no state and takes no memory but the stack, some 28 KB a call at most:
 * calls may run at the same time.
 */
#ifndef FATHRUGG_H
#define FATHRUGG_H

#include <stddef.h>
#include <stdint.h>

#ifdef __cplusplus
extern "C" {
#endif

/* ---- Version. */

#define FATHRUGG_VERSION_MAJOR 0
#define FATHRUGG_VERSION_MINOR 4
#define FATHRUGG_VERSION_PATCH 0
#define FATHRUGG_VERSION (10000 * FATHRUGG_VERSION_MAJOR + 100 * FATHRUGG_VERSION_MINOR + FATHRUGG_VERSION_PATCH)

/* FATHRUGG_VERSION of the library that is linked. Before 1.0 another minor version may have other calls. */
uint32_t fathrugg_version(void);

/* ---- Refusals: why a call refuses. */

enum fathrugg_refusal {
    FATHRUGG_OK = 0,               /* not refused */
    FATHRUGG_START_ABOVE_END = 1,  /* start is above end */
    FATHRUGG_END_ABOVE_256 = 2,    /* end is above 256 */
    FATHRUGG_TOO_SHORT = 3,        /* the row, the vectors or an output is too short for the bins */
    FATHRUGG_HEBAP_ABOVE_19 = 4,   /* a hebap is above 19 */
    FATHRUGG_COMPONENT = 5,        /* a vector's component is NaN, infinite or above 16384 in size */
    FATHRUGG_PLAN_MISFIT = 6,      /* the plan does not fit the row and the vectors */
    FATHRUGG_OUTPUT_FULL = 7,      /* the output is too short from the position on, or for the pages, or the position
                                      is past its end */
    FATHRUGG_INPUT_ENDS = 8,       /* the input runs out, or the position is past its end */
    FATHRUGG_GROUP_WORD = 9,       /* a group word of gains is above 26 */
    FATHRUGG_UNUSED_CODE = 10,     /* an unused code of the last group word is not 0 */
    FATHRUGG_NO_QUANTISER = 11,    /* the quantiser is asked for a hebap or gain that it does not have */
    FATHRUGG_OUT_OF_RANGE = 12,    /* a mode is above 3, a count of bits above 32, or a mask outside -65536 to 65536 */
    FATHRUGG_TEXT = 13             /* the desk's text is malformed; no call of this file answers it */
};

/* The same as text, in English, without a full stop; a number that is none of these gives "unknown refusal". */
static inline const char *fathrugg_refusal_text(unsigned number)
{
    switch (number) {
    case FATHRUGG_OK: return "not refused";
    case FATHRUGG_START_ABOVE_END: return "start is above end";
    case FATHRUGG_END_ABOVE_256: return "end is above 256";
    case FATHRUGG_TOO_SHORT: return "the row, the vectors or an output is too short for the bins";
    case FATHRUGG_HEBAP_ABOVE_19: return "a hebap is above 19";
    case FATHRUGG_COMPONENT: return "a vector's component is NaN, infinite or above 16384 in size";
    case FATHRUGG_PLAN_MISFIT: return "the plan does not fit the row and the vectors";
    case FATHRUGG_OUTPUT_FULL: return "the output is too short from the position on, or for the pages, or the position is past its end";
    case FATHRUGG_INPUT_ENDS: return "the input runs out, or the position is past its end";
    case FATHRUGG_GROUP_WORD: return "a group word of gains is above 26";
    case FATHRUGG_UNUSED_CODE: return "an unused code of the last group word is not 0";
    case FATHRUGG_NO_QUANTISER: return "the quantiser is asked for a hebap or gain that it does not have";
    case FATHRUGG_OUT_OF_RANGE: return "a mode is above 3, a count of bits above 32, or a mask outside -65536 to 65536";
    case FATHRUGG_TEXT: return "the desk's text is malformed";
    default: return "unknown refusal";
    }
}

/* ---- Limits. */

#define FATHRUGG_BINS 256         /* the most bins, and the most places of hebap and indices that are used */
#define FATHRUGG_COMPONENTS 1536  /* six for each: the most places of x, values and exact that are used */
#define FATHRUGG_GAINS 256        /* the bytes of gains */
#define FATHRUGG_FIELD_BITS 31152 /* the most bits of a field, with the two of its mode */
#define FATHRUGG_FIELD_BYTES 3894 /* the same as bytes; one more where a field begins inside a byte */
#define FATHRUGG_PAGES_BYTES 6500 /* the most bytes of a plan's pages: two of 3250 */

/* ---- Planning, writing, reading. */

/*
 * Plans the bins start to end - 1: the mode and the gains whose field has the fewest bits; of equals the lower gains,
 * then the lower mode.
 *   hebap    the row; bins counts its places, at least end
 *   x        the vectors, six components a bin; components counts floats, at least 6 * end
 *   mode     0 to 3
 *   gains    Gk in bin order; the places from count on become 0
 *   count    how many gains there are
 *   payload  the bits of the gain words and the bins; the field has 2 + payload bits
 * Refuses with 1, 2, 3, 4, 5. Hebaps and vectors below start are not looked at, nor is the vector of a bin of hebap 0.
 */
uint8_t fathrugg_plan_aht_channel(const uint8_t *hebap, size_t bins, size_t start, size_t end, const float *x, size_t components,
                                  uint8_t *mode, uint8_t gains[FATHRUGG_GAINS], size_t *count, uint32_t *payload);

/*
 * Writes the field of a plan, 2 + payload bits, from the position on, and moves the position behind it. The other
 * bits of the output are kept. The plan may be any that fits, not only the one of fewest bits: a mode 0 to 3, one
 * gain that the mode has for each bin with a gain of its own (mode 1 has Gk 1 and 2, mode 2 has 1 and 4, mode 3 has
 * 1, 2 and 4), and the payload that they cost.
 *   gains      the first count places; the others are not looked at
 *   hebap, x   as they were planned; bins and components as above
 *   out        len counts its bytes
 *   byte, bit  the position
 * Refuses with 1, 2, 3, 4, 5, 6, 7.
 */
uint8_t fathrugg_write_aht_channel(uint8_t mode, const uint8_t gains[FATHRUGG_GAINS], size_t count, uint32_t payload,
                                   const uint8_t *hebap, size_t bins, size_t start, size_t end, const float *x, size_t components,
                                   uint8_t *out, size_t len, size_t *byte, uint32_t *bit);

/*
 * Reads the field of the bins start to end - 1 from the position on, and moves the position behind it.
 *   src      len counts its bytes
 *   byte, bit  the position
 *   hebap    the row; bins counts its places, at least end
 *   values   six floats a bin; nvalues counts floats, at least 6 * end
 *   exact    the same six without rounding, in units of 2^-30; nexact counts numbers, at least 6 * end
 *   indices  for hebap 1 to 7 the index in the book, else 0; nindices counts numbers, at least end
 *   mode     0 to 3
 *   gains    Gk in bin order; the places from count on become 0
 *   count    how many gains there are
 *   bits     the bits of the field, with the two of its mode
 * A bin of hebap 0 is six zeros. The places of bins below start and from end on are kept.
 * Refuses with 1, 2, 3, 4, then with 8, 9, 10, whichever the field meets first.
 */
uint8_t fathrugg_read_aht_channel(const uint8_t *src, size_t len, size_t *byte, uint32_t *bit, const uint8_t *hebap, size_t bins,
                                  size_t start, size_t end, float *values, size_t nvalues, int32_t *exact, size_t nexact,
                                  uint16_t *indices, size_t nindices, uint8_t *mode, uint8_t gains[FATHRUGG_GAINS], size_t *count,
                                  uint32_t *bits);

/* ---- Pages. */

/*
 * Prints a plan on pages, as ASCII text, to the front of the output. A line has 64 characters, then byte 10. It shows
 * four bins, in order from start on, each in 12 characters: the bin in 3, its hebap in 2, its Gk in 1 and its bits in
 * 3, right-aligned, with a space between; a space between bins too, and spaces to the end of the line. Bin 0 of hebap
 * 8 at Gk 2, with 12 bits, and bin 1 of hebap 0 are "  0  8 2  12   1  0 -   0", then 39 spaces.
 * A bin without a gain of its own in the mode (hebap 0, a book, a scalar bin outside the mode's range) has a dash for
 * Gk. The bits are those of the bin's codes or index, 0 for hebap 0; gain words are not among them. A page has 50
 * lines, 3250 bytes, and each 200 bins begun have one; lines of 64 spaces fill the last. Without bins there is no page.
 *   mode, gains, count, payload  a plan that fits, as for fathrugg_write_aht_channel
 *   hebap, x   as they were planned; bins and components as above
 *   out        len counts its bytes, at least those of the pages; those behind are kept
 *   length     the bytes of the pages: 0, 3250 or 6500
 * Refuses with 1 to 6 as fathrugg_write_aht_channel, then 7, where the output is shorter than the pages.
 */
uint8_t fathrugg_print_pages(uint8_t mode, const uint8_t gains[FATHRUGG_GAINS], size_t count, uint32_t payload,
                             const uint8_t *hebap, size_t bins, size_t start, size_t end, const float *x,
                             size_t components, uint8_t *out, size_t len, size_t *length);

/* ---- Search and quantiser. */

/*
 * The index of the vector nearest to x in the book of the hebap, the first one of equals; 0 where the hebap is not 1
 * to 7. Refuses with 5, where the hebap is 1 to 7.
 */
uint8_t fathrugg_vq_search(uint8_t hebap, const float x[6], size_t *index);

/*
 * The vector at an index of the book of the hebap. The index is counted round the book; where the hebap is not 1 to 7
 * the vector is six zeros. Never refuses.
 */
uint8_t fathrugg_vq_lookup(uint8_t hebap, size_t index, float out[6]);

/*
 * The code that is picked for the component x, for hebap 8 to 19 at Gk 1 and 8 to 16 at Gk 2 and 4.
 *   gk     Gk: 1, 2 or 4
 *   large  1 for a large code, which at Gk 2 and 4 stands behind the tag; 0 for a small one. At Gk 1 all are large
 *   code   its bits, as an unsigned number
 *   value  the float that a reader gives for it
 * Refuses with 11, 5.
 */
uint8_t fathrugg_quantise_scalar(uint8_t hebap, uint8_t gk, float x, uint8_t *large, uint32_t *code, float *value);

/*
 * The same for the six components of a bin.
 *   values  the floats that a reader gives for the six codes
 *   bits    the bits of the six codes, with their tags
 *   err     the sum of the squared errors
 * Refuses with 11, 5.
 */
uint8_t fathrugg_quantise_bin(uint8_t hebap, uint8_t gk, const float x[6], float values[6], uint32_t *bits, float *err);

/* ---- Small calls. gaqmod is the mode, 0 to 3. */

/* The next n bits, 0 to 32 of them, as a number; moves the position. len counts bytes. Refuses with 12, 8. */
uint8_t fathrugg_read_u32(const uint8_t *src, size_t len, size_t *byte, uint32_t *bit, uint32_t n, uint32_t *value);

/* Puts the low n bits of v, 0 to 32 of them, at the position and moves it. len counts bytes. Refuses with 12, 7. */
uint8_t fathrugg_write_u32(uint8_t *out, size_t len, size_t *byte, uint32_t *bit, uint32_t v, uint32_t n);

/* The hebap of a power density and a mask after its floor, -65536 to 65536. Refuses with 12. */
uint8_t fathrugg_hebap_from_address(int16_t psd, int32_t mask, uint8_t *hebap);

/*
 * The hebap up to which, not included, fill_gaqbin marks bins with 1: 12 in modes 0 and 1, 17 in modes 2 and 3.
 * Refuses with 12.
 */
uint8_t fathrugg_endbap_for_gaqmod(uint8_t gaqmod, uint8_t *endbap);

/*
 * Marks the bins of a row: 1 for hebap 8 to endbap - 1, also in mode 0, where no gain is read; -1 from endbap on;
 * else 0. Of bins, the places of hebap, and places, those of gaqbin, the lower number counts.
 *   active  how many bins are marked 1
 * Refuses with 12.
 */
uint8_t fathrugg_fill_gaqbin(const uint8_t *hebap, size_t bins, uint8_t gaqmod, int8_t *gaqbin, size_t places, size_t *active);

/*
 * How many gain words so many active bins have: none in mode 0, one each in modes 1 and 2, one for each three begun
 * in mode 3. Refuses with 12.
 */
uint8_t fathrugg_gaq_sections(uint8_t gaqmod, size_t active, size_t *sections);

/*
 * Gk of a gain code: 1 for code 0; for a higher one 2 in mode 1, 4 in mode 2, and in mode 3 2 for code 1, else 4; in
 * mode 0 always 1. Refuses with 12.
 */
uint8_t fathrugg_gaq_gain_value(uint8_t code, uint8_t gaqmod, uint8_t *gain);

/*
 * Reads nsections gain words and puts their codes, 0 to 2, to the front of the output, as far as it goes; moves the
 * position. It is laxer than the channel reader: of a group word above 26 the first code is cut to 2. In modes 1 and
 * 2 it stops where the output is full, in mode 3 it reads all words; in mode 0 it reads none.
 *   src    len counts its bytes
 *   out    places counts its bytes
 *   count  how many codes were put there
 * Refuses with 12, 8.
 */
uint8_t fathrugg_read_gaq_gains(const uint8_t *src, size_t len, size_t *byte, uint32_t *bit, uint8_t gaqmod, size_t nsections,
                                uint8_t *out, size_t places, size_t *count);

/*
 * Reads the six mantissas of a bin and moves the position. len counts bytes. Gk is that of gain_code where gaqbin is
 * 1, else 1. For hebap 0 to 7 it reads nothing and gives zeros. Refuses with 12, 4, 8.
 */
uint8_t fathrugg_read_scalar_aht_mantissas(const uint8_t *src, size_t len, size_t *byte, uint32_t *bit, uint8_t hebap,
                                           uint8_t gaqmod, int8_t gaqbin, uint8_t gain_code, float out[6]);

#ifdef __cplusplus
}
#endif

#endif
