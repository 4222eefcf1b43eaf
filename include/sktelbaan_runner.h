/* Sktelbaan: running recipes.
 *
 * This is all that a plate setter needs: a recipe's words and a colour go in, the colour's answer comes out. Link libsktelbaan_runner.a, which has just
 * sktelbaan_run. Who has pages includes sktelbaan.h, which has every operation, and links libsktelbaan.a.
 *
 * How to read a reply. Every function returns one number of 64 bits, its reply. Ask first whether it refused:
 *
 *     if (sktelbaan_refusal(reply) != 0)
 *         printf("refused: %s, block %u\n", sktelbaan_refusal_text(sktelbaan_refusal(reply)), sktelbaan_block(reply));
 *     else
 *         use(sktelbaan_value(reply), sktelbaan_moved(reply));
 *
 * A refusal means that something is wrong with what you passed: the number says what, the block says where on the page (0 where it is about no block),
 * and everything that you lent is as it was before the call. Otherwise it worked, and the value is what the function gives: with each function stands
 * what that is. Where a colour was answered the reply also says whether the colour was pulled in: see sktelbaan_moved.
 *
 * What you may pass: anything. A page, a record, a recipe or a colour may be broken in any way; it gets a reply. No function keeps anything, allocates
 * anything or waits for anything, so any thread may call any of them at any time.
 *
 * What you owe, since C cannot see it: a pointer is good for as many elements as the length beside it says, or as the brackets say; and what a function
 * writes to overlaps nothing else that you lend it. Where a length is 0 the pointer beside it is not looked at, and may be NULL.
 *
 * Numbers and components are signed 32-bit counts of millionths: 1.0 is 1000000.
 */
#ifndef SKTELBAAN_RUNNER_H
#define SKTELBAAN_RUNNER_H

#include <stddef.h>
#include <stdint.h>

#ifdef __cplusplus
extern "C" {
#endif

/* The version of Sktelbaan, as numbers and as text. */
#define SKTELBAAN_VERSION_MAJOR 0
#define SKTELBAAN_VERSION_MINOR 1
#define SKTELBAAN_VERSION_PATCH 0
#define SKTELBAAN_VERSION "0.1.0"

/* The most blocks of a page, and a number such as this as text. */
#define SKTELBAAN_MOST_BLOCKS 128
#define SKTELBAAN_SPELLED(number) SKTELBAAN_AS_IT_STANDS(number)
#define SKTELBAAN_AS_IT_STANDS(words) #words

/* The refusal that a reply is, by its number in the list below; 0 where nothing is refused. */
static inline uint32_t sktelbaan_refusal(uint64_t reply) { return (uint32_t)reply; }

/* The block that a refusal is about; 0 where it is about none, and where nothing is refused. */
static inline uint32_t sktelbaan_block(uint64_t reply) { return sktelbaan_refusal(reply) != 0 ? (uint32_t)(reply >> 32) : 0; }

/* What the function gives; 0 where something is refused. */
static inline uint32_t sktelbaan_value(uint64_t reply) { return sktelbaan_refusal(reply) == 0 ? (uint32_t)(reply >> 32) & 0x7FFFFFFF : 0; }

/* Whether a colour was pulled in: 1 where some component, tint or index lay outside its range and was taken to the nearest end, in the space asked for or in
 * one inside it, and 0 where none was. Rounding an index is no move by itself: with hival 3 index 3.4 gives 0 and 3.5 gives 1. It is the reply's top bit,
 * bit 63, and means this in the replies of sktelbaan_run and sktelbaan_evaluate that refuse nothing; 0 where something is refused. */
static inline int sktelbaan_moved(uint64_t reply) { return sktelbaan_refusal(reply) == 0 && reply >> 63 != 0 ? 1 : 0; }

/* The refusals. */
enum sktelbaan_refusals {
    /* The page is not 1 to SKTELBAAN_MOST_BLOCKS whole blocks of 512 bytes. */
    SKTELBAAN_REFUSED_LENGTH = 1,
    /* The check stored in a block is not that of its bytes: the block was damaged, or changed without writing its check anew. */
    SKTELBAAN_REFUSED_CHECK = 2,
    /* A block's kind is unknown, its own number is not that of its place, a byte is not zero that must be, a Separation's name is not 1 to 127 bytes with no
     * zero among them, or a DeviceN has not 1 to 8 names of 1 to 48 such bytes. */
    SKTELBAAN_REFUSED_LAYOUT = 3,
    /* A number is none that PDF allows: white X or Z not above 0 or white Y not 1, a black point below 0, a CalGray gamma not above 0, a range whose low
     * end is above its high end, or hival above 255. Or a DeviceN has two equal names other than None, or the name All. */
    SKTELBAAN_REFUSED_NUMBER = 4,
    /* A gamma or an exponent is none that is carried here: a gamma not 0.1 to 4.0 in whole tenths, an exponent not 1 to 4, nor 0 for a program. */
    SKTELBAAN_REFUSED_POWER = 5,
    /* A reference is neither a device code nor a block of the page, or the block is of a kind that may not be used there. */
    SKTELBAAN_REFUSED_REFERENCE = 6,
    /* An Indexed space has too few palette blocks straight after it, or its palette's spare bytes are not zero; a palette block belongs to no Indexed space;
     * a Separation with exponent 0 or a DeviceN has no program block straight after it, or its program's blocks are not filled with text up to a first zero and
     * zeros after that, or one of them is all zeros; a program block belongs to neither, or is the fifth after it; or C0 or C1 of a Separation has a
     * number other than 0 beyond what its alternate space has components, or beside a program any at all. */
    SKTELBAAN_REFUSED_PALETTE = 7,
    /* The number asked for is neither a device code nor a block that holds a space, kinds 1 to 5 and 8; or, of an ink asked for by its name, neither page has one.
     */
    SKTELBAAN_REFUSED_SPACE = 8,
    /* More or fewer components were given than the space or the recipe takes. */
    SKTELBAAN_REFUSED_COUNT = 9,
    /* Fewer words were lent than the recipe has, or a block was not lent as 512 bytes. */
    SKTELBAAN_REFUSED_ROOM = 10,
    /* The words are not a recipe: how many components it takes, steps, one closing step and nothing more, SKTELBAAN_MOST_WORDS words at most. */
    SKTELBAAN_REFUSED_RECIPE = 11,
    /* A designer's text has bad syntax, no space, or an entry of the wrong form or length, or it is unfinished; or it has more than 4,294,967,295 bytes. */
    SKTELBAAN_REFUSED_TEXT_SYNTAX = 12,
    /* A number of it is too large, or has more than six digits after the point. */
    SKTELBAAN_REFUSED_TEXT_NUMBER = 13,
    /* A key of it is missing, doubled or unknown. */
    SKTELBAAN_REFUSED_TEXT_KEY = 14,
    /* Its spaces take more than SKTELBAAN_MOST_BLOCKS blocks. */
    SKTELBAAN_REFUSED_TEXT_BLOCKS = 15,
    /* The program of a Separation or a DeviceN has a token that is unknown, a number that is too large or has more than six digits after the point, more than 400 tokens, or
     * braces that do not nest: more than 8 deep, without their partner, or without if or ifelse straight after them. */
    SKTELBAAN_REFUSED_PROGRAM_SYNTAX = 16,
    /* Its stack goes below 0 or past 100, is not the same after both branches, or does not end with as many numbers as the alternate space has components;
     * an operator finds a value of the wrong kind; or a count of copy, index or roll is missing, not whole, below 0 or past the stack. */
    SKTELBAAN_REFUSED_PROGRAM_STACK = 17
};

/* A refusal in words, of the number that sktelbaan_refusal gives. The text stays for good: do not free it. */
static inline const char *sktelbaan_refusal_text(uint32_t refusal) {
    static const char *const texts[] = {
        "the page is not 1 to " SKTELBAAN_SPELLED(SKTELBAAN_MOST_BLOCKS) " blocks of 512 bytes",
        "a block's check is not that of its bytes",
        "a block of unknown kind, with a wrong own number, a byte that should be zero, a bad name, or not 1 to 8 names of a DeviceN",
        "a white point, black point, gamma, range or hival that PDF does not allow; or a DeviceN with equal names, or with All among them",
        "a gamma that is not 0.1 to 4.0 in whole tenths, or an exponent that is not 0 to 4",
        "a reference to no block of the page, or to a kind that may not be used there",
        "a palette too short, with spare bytes not zero, or of no Indexed space; a program missing, badly filled, or of no Separation or DeviceN; or C0 or C1 longer than the alternate's colours, or beside a program",
        "the number asked for is neither a device code nor a block with a space; or neither page has an ink of that name",
        "the wrong number of components",
        "too few words for the recipe, or not 512 bytes for a block",
        "the words are not a well-formed recipe",
        "the text has bad syntax, no space, or an entry of the wrong form or length, or is unfinished",
        "a number of the text is too large or too fine",
        "a key of the text is missing, doubled or unknown",
        "the text has more than " SKTELBAAN_SPELLED(SKTELBAAN_MOST_BLOCKS) " blocks",
        "a program has an unknown token, a number too large or too fine, too many tokens or bad nesting",
        "a program has a stack too low, too high or wrong at its end, a value of the wrong kind, or a count that is missing, not whole or beyond the stack",
    };
    return refusal >= 1 && refusal <= 17 ? texts[refusal - 1] : "not a refusal of this library";
}

/* What an answer is in: the value of sktelbaan_run and sktelbaan_evaluate. */
enum sktelbaan_answers {
    /* DeviceGray: one float. */
    SKTELBAAN_GRAY = 1,
    /* DeviceRGB: three floats, red, green, blue. */
    SKTELBAAN_RGB = 2,
    /* DeviceCMYK: four floats, cyan, magenta, yellow, black. */
    SKTELBAAN_CMYK = 3,
    /* CIE X, Y, Z: three floats. */
    SKTELBAAN_XYZ = 4,
    /* Nothing is to be marked: no float. This is the answer of a Separation named None, whatever its tint, and of a DeviceN all of whose names are None. */
    SKTELBAAN_NO_MARK = 5,
    /* Every ink that the device has, at one tint: one float, 0 to 1. This is the answer of a Separation named All. */
    SKTELBAAN_EVERY_INK = 6
};

/* How many floats an answer has, by what it is in, the number that sktelbaan_value gives: 1, 3, 4, 3, 0 and 1, and 0 for any other number. */
static inline uint32_t sktelbaan_floats(uint32_t value) {
    switch (value) {
    case SKTELBAAN_GRAY:
    case SKTELBAAN_EVERY_INK:
        return 1;
    case SKTELBAAN_RGB:
    case SKTELBAAN_XYZ:
        return 3;
    case SKTELBAAN_CMYK:
        return 4;
    default:
        return 0;
    }
}

/* How many words a recipe has at most: every recipe that is written fits so many, and more words are no recipe. */
enum { SKTELBAAN_MOST_WORDS = 2877 };

/* How many components a recipe takes at most. */
enum { SKTELBAAN_MOST_COMPONENTS = 8 };

/* How many bytes of the machine's stack a run takes at most, below its caller: of a recipe that was written for a page, and of any words, which may have a
 * longer program than a page has (more than 796 words of a step 12 or 13). A recipe without a program takes less than 1,000. Measured on x86-64 by
 * samples/stack.c, which fails where more are taken. */
enum { SKTELBAAN_MOST_STACK = 20480, SKTELBAAN_MOST_STACK_OF_ANY = 52000 };

/* The library itself is never given NULL: compilers that know the mark say so where they see one. */
#ifdef __GNUC__
#define SKTELBAAN_NEVER_NULL __attribute__((nonnull))
#else
#define SKTELBAAN_NEVER_NULL
#endif

/* Runs a recipe, just its words, on the components of a colour. Refuses with 11, then 9. Gives what the answer is in, and puts its floats, as many as
 * sktelbaan_floats says, in order, from the first of `floats` on; those beyond stay as they were. sktelbaan_moved tells whether a step of the recipe pulled
 * the colour in. */
uint64_t sktelbaan_run(const int32_t *words, size_t words_len, const int32_t *components, size_t count, double floats[4]) SKTELBAAN_NEVER_NULL;

/* How NULL may be passed where a length is 0. In front of the library stands an inline function, which then lends an element of its own, and from here on
 * the function's name means that inline function: in C and C++, in a call and where its address is taken. The library's symbol keeps the plain name. Who
 * looks it up by that (another language, dlsym) passes a pointer that is not NULL, even for none. */
static inline uint64_t sktelbaan_run_lending(const int32_t *words, size_t words_len, const int32_t *components, size_t count, double floats[4]) {
    const int32_t none = 0;
    return sktelbaan_run(words_len != 0 ? words : &none, words_len, count != 0 ? components : &none, count, floats);
}
#define sktelbaan_run sktelbaan_run_lending

#ifdef __cplusplus
}
#endif

#endif
