/* Sktelbaan: colour-space records of PDF (ISO 32000-1, clause 8.6).
 *
 * A page is 1 to SKTELBAAN_MOST_BLOCKS blocks of 512 bytes, each with the record of a colour space, a part of a palette or of a program, or nothing. Here are
 * all operations: validating a page, evaluating a colour of one of its spaces, writing the recipe of a space, running a recipe, asking for an ink by its name,
 * writing and reading a block by itself, reading a designer's text into a page. Link libsktelbaan.a.
 *
 * How a reply is read, what may be passed and what a caller owes is told in sktelbaan_runner.h, with the refusals.
 *
 * An example: index 2.5 of the Indexed space of block 0, on the page and by its recipe. (samples/colour.c has it whole.)
 *
 *     int32_t colour[1] = {2500000}, words[SKTELBAAN_MOST_WORDS];
 *     double floats[4];
 *     uint64_t reply = sktelbaan_evaluate(page, page_len, 0, colour, 1, floats);
 *     if (sktelbaan_refusal(reply) != 0)
 *         printf("refused: %s, block %u\n", sktelbaan_refusal_text(sktelbaan_refusal(reply)), sktelbaan_block(reply));
 *     else
 *         for (uint32_t i = 0; i < sktelbaan_floats(sktelbaan_value(reply)); i++)
 *             printf("%.17g\n", floats[i]);
 *     reply = sktelbaan_write_recipe(page, page_len, 0, words, SKTELBAAN_MOST_WORDS);
 *     if (sktelbaan_refusal(reply) == 0)
 *         reply = sktelbaan_run(words, sktelbaan_value(reply), colour, 1, floats);
 */
#ifndef SKTELBAAN_H
#define SKTELBAAN_H

#include "sktelbaan_runner.h"

#ifdef __cplusplus
extern "C" {
#endif

/* The bytes of a block, and of the longest page, which has SKTELBAAN_MOST_BLOCKS of them. */
enum { SKTELBAAN_BLOCK_BYTES = 512, SKTELBAAN_PAGE_BYTES = SKTELBAAN_BLOCK_BYTES * SKTELBAAN_MOST_BLOCKS };

/* The device spaces, by the numbers that they are asked for and referred to. */
enum { SKTELBAAN_DEVICE_GRAY = 0xFF01, SKTELBAAN_DEVICE_RGB = 0xFF03, SKTELBAAN_DEVICE_CMYK = 0xFF04 };

/* Validates a page. Refuses with 1 to 7, 16 and 17. Gives 0. */
uint64_t sktelbaan_validate(const uint8_t *page, size_t page_len) SKTELBAAN_NEVER_NULL;

/* Evaluates a colour of the space at a number of a page, a block's number or a device code. Refuses as sktelbaan_validate does, then with 8, then 9. Gives
 * what the answer is in, and puts its floats, as many as sktelbaan_floats says, in order, from the first of `floats` on; those beyond stay as they were.
 * sktelbaan_moved tells whether the colour was pulled in. */
uint64_t sktelbaan_evaluate(const uint8_t *page, size_t page_len, uint32_t number, const int32_t *components, size_t count, double floats[4]) SKTELBAAN_NEVER_NULL;

/* Writes the recipe of the space at a number of a page. Refuses as sktelbaan_validate does, then with 8, then 10; SKTELBAAN_MOST_WORDS words are always
 * enough. Gives how many words the recipe is, from the first of `words` on; those beyond stay as they were. */
uint64_t sktelbaan_write_recipe(const uint8_t *page, size_t page_len, uint32_t number, int32_t *words, size_t words_len) SKTELBAAN_NEVER_NULL;

/* Asks for an ink, a Separation, by its name, of two pages: the job's page and the house page. Refuses the job's page as sktelbaan_validate does, then the
 * house page, then with 8 where neither has an ink of that name. Gives the page and the block that it was found in: the lowest block of the job's page that
 * has the name, else the lowest of the house page. `name` is compared byte by byte, with its length, and may be any bytes.
 *
 * The reply is read by sktelbaan_refusal, and then by sktelbaan_ink_page and sktelbaan_ink_block, whether it was found or refused: these two take the place of
 * sktelbaan_value and sktelbaan_block here, since a page and a block share the reply's high half. `place` says where the name stands on its page: place[0] bytes
 * stand before it, and it has place[1]. On a refusal `place` stays as it was.
 *
 *     uint32_t place[2];
 *     uint64_t reply = sktelbaan_find_ink(job, job_len, house, house_len, (const uint8_t *)"Gold", 4, place);
 *     if (sktelbaan_refusal(reply) == 0)
 *         use(sktelbaan_ink_name(job, house, reply, place), place[1]);
 */
uint64_t sktelbaan_find_ink(const uint8_t *job, size_t job_len, const uint8_t *house, size_t house_len, const uint8_t *name, size_t name_len, uint32_t place[2]) SKTELBAAN_NEVER_NULL;

/* The page that a reply of sktelbaan_find_ink is about. A refusal with 8 is of neither. */
enum { SKTELBAAN_NEITHER_PAGE = 0, SKTELBAAN_JOB_PAGE = 1, SKTELBAAN_HOUSE_PAGE = 2 };

/* The page that an ink was found on, or that is refused. */
static inline uint32_t sktelbaan_ink_page(uint64_t reply) { return (uint32_t)(reply >> 48); }

/* The block that it was found in, or that the refusal is about; 0 where it is about none. */
static inline uint32_t sktelbaan_ink_block(uint64_t reply) { return (uint32_t)(reply >> 32) & 0xFFFF; }

/* The first byte of the name of an ink that was found, where it stands on its page; NULL where it was refused. */
static inline const uint8_t *sktelbaan_ink_name(const uint8_t *job, const uint8_t *house, uint64_t reply, const uint32_t place[2]) {
    if (sktelbaan_refusal(reply) != 0)
        return NULL;
    return (sktelbaan_ink_page(reply) == SKTELBAAN_JOB_PAGE ? job : house) + place[0];
}

/* The kinds of a record. */
enum sktelbaan_kinds {
    SKTELBAAN_KIND_FREE = 0,
    SKTELBAAN_KIND_CALGRAY = 1,
    SKTELBAAN_KIND_CALRGB = 2,
    SKTELBAAN_KIND_LAB = 3,
    SKTELBAAN_KIND_INDEXED = 4,
    SKTELBAAN_KIND_SEPARATION = 5,
    SKTELBAAN_KIND_PALETTE = 6,
    SKTELBAAN_KIND_PROGRAM = 7,
    SKTELBAAN_KIND_DEVICEN = 8
};

/* A record is 20 numbers and 504 bytes. Number [0] is the block's own number on its page, [1] its kind, and from [2] on, the others being 0:
 *
 *     CalGray       white X Y Z, black X Y Z, gamma
 *     CalRGB        white X Y Z, black X Y Z, three gammas, matrix XA YA ZA XB YB ZB XC YC ZC
 *     Lab           white X Y Z, black X Y Z, range amin amax bmin bmax
 *     Indexed       base, hival
 *     Separation    alternate, exponent, length of the name, C0 (four), C1 (four)
 *     DeviceN       alternate, count of names
 *
 * Base and alternate are a block's number or a device code. They, hival, the exponent, the length and the count of names count units; the others are in millionths, so a gamma
 * of 1.8 is 1800000. An exponent of 0 means that a program makes the alternate's components of the tint: its text lies in one to four blocks of kind
 * SKTELBAAN_KIND_PROGRAM straight after the Separation's, and C0 and C1 are then 0. A DeviceN always has such a program, of as many tints as it has names.
 * The bytes are a Separation's name in the first 127, a DeviceN's names in the first 500, each its length and then its bytes, straight one after the other, or a
 * part of a palette or of a program's text in all 504; the others are 0. A program block by itself may
 * hold any bytes: its program is looked at on its page. */
enum { SKTELBAAN_RECORD_NUMBERS = 20, SKTELBAAN_RECORD_BYTES = 504 };

/* Writes a record as a block, with its check; `block_len` is 512. Refuses with the first that applies of 10, 3, 4, 5, 6. Gives 0. A number of
 * any 32 bits has its refusal: 3 for an own number, a kind, the length of a name or a count of names that no record has, and for a number that the kind does not name and that is
 * not 0; 4 for hival, 5 for the exponent, 6 for base and alternate. What is written reads back as the same 20 numbers and 504 bytes. */
uint64_t sktelbaan_write_block(const int32_t numbers[20], const uint8_t bytes[504], uint8_t *block, size_t block_len) SKTELBAAN_NEVER_NULL;

/* Reads the record of a block by itself; `block_len` is 512. Refuses with the first that applies of 10, 2, 3, 4, 5, 6. Gives 0, and all 20 numbers and all 504
 * bytes are written. */
uint64_t sktelbaan_read_block(const uint8_t *block, size_t block_len, int32_t numbers[20], uint8_t bytes[504]) SKTELBAAN_NEVER_NULL;

/* The lengths of what is lent for a text: the words of the state, the numbers of a dictionary, the bytes of a name or palette that are kept, the spaces that
 * may be open and still be returned to, and the bytes of their names. */
enum {
    SKTELBAAN_TEXT_WORDS = 25,
    SKTELBAAN_TEXT_VALUES = 30,
    SKTELBAAN_TEXT_BYTES = 1024,
    SKTELBAAN_TEXT_SPACES = SKTELBAAN_MOST_BLOCKS + 1,
    SKTELBAAN_TEXT_NAME_BYTES = 128 * SKTELBAAN_TEXT_SPACES
};

/* Memory for reading a designer's text, lent to the three operations below from the first to the last. What is in it is theirs; whatever it is, it is
 * answered. */
struct sktelbaan_text {
    uint64_t words[SKTELBAAN_TEXT_WORDS];
    int32_t values[SKTELBAAN_TEXT_VALUES];
    uint8_t word[SKTELBAAN_TEXT_BYTES];
    uint32_t marks[SKTELBAAN_TEXT_SPACES];
    uint8_t names[SKTELBAAN_TEXT_NAME_BYTES];
    uint32_t opens[SKTELBAAN_MOST_BLOCKS];
    uint8_t blocks[SKTELBAAN_PAGE_BYTES];
};

/* The same by the arrays of that memory: for other languages. C uses the functions below, which take the memory as one. */
uint64_t sktelbaan_begin_text(uint64_t words[SKTELBAAN_TEXT_WORDS], int32_t values[SKTELBAAN_TEXT_VALUES], const uint8_t *word, const uint32_t *marks,
                              const uint8_t *names, const uint32_t *opens, const uint8_t *blocks) SKTELBAAN_NEVER_NULL;
uint64_t sktelbaan_read_text(const uint8_t *text, size_t text_len, size_t room_len, uint64_t words[SKTELBAAN_TEXT_WORDS],
                             int32_t values[SKTELBAAN_TEXT_VALUES], uint8_t *word, uint32_t *marks, uint8_t *names, uint32_t *opens,
                             uint8_t *blocks) SKTELBAAN_NEVER_NULL;
uint64_t sktelbaan_end_text(uint8_t *room, size_t room_len, uint64_t words[SKTELBAAN_TEXT_WORDS], int32_t values[SKTELBAAN_TEXT_VALUES],
                            const uint8_t *word, uint32_t *marks, uint8_t *names, uint32_t *opens, uint8_t *blocks) SKTELBAAN_NEVER_NULL;

/* Begins a designer's text. Gives 0. */
static inline uint64_t sktelbaan_text_begin(struct sktelbaan_text *t) {
    return sktelbaan_begin_text(t->words, t->values, t->word, t->marks, t->names, t->opens, t->blocks);
}

/* Reads the next bytes of it, as many as there are at hand; `room_len` is the length of the room that its end will be lent. Gives 0: what is wrong with a
 * text is told at its end. */
static inline uint64_t sktelbaan_text_read(struct sktelbaan_text *t, const uint8_t *text, size_t text_len, size_t room_len) {
    const uint8_t none = 0;
    return sktelbaan_read_text(text_len != 0 ? text : &none, text_len, room_len, t->words, t->values, t->word, t->marks, t->names, t->opens, t->blocks);
}

/* Ends it. Refuses with the first of 12, 13, 14, 4, 5, 7, 15 and 10 that is met, then as sktelbaan_validate does; in place of a block stands the byte of
 * the text that the refusal is about, counted from 0. Gives how many blocks the page has, which are written to the room; what is after them, and on a
 * refusal all, stays as it was. */
static inline uint64_t sktelbaan_text_end(struct sktelbaan_text *t, uint8_t *room, size_t room_len) {
    uint8_t none = 0;
    return sktelbaan_end_text(room_len != 0 ? room : &none, room_len, t->words, t->values, t->word, t->marks, t->names, t->opens, t->blocks);
}

/* How NULL may be passed where a length is 0: as with sktelbaan_run. */
static inline uint64_t sktelbaan_validate_lending(const uint8_t *page, size_t page_len) {
    const uint8_t none = 0;
    return sktelbaan_validate(page_len != 0 ? page : &none, page_len);
}

static inline uint64_t sktelbaan_evaluate_lending(const uint8_t *page, size_t page_len, uint32_t number, const int32_t *components, size_t count, double floats[4]) {
    const uint8_t no_page = 0;
    const int32_t no_component = 0;
    return sktelbaan_evaluate(page_len != 0 ? page : &no_page, page_len, number, count != 0 ? components : &no_component, count, floats);
}

static inline uint64_t sktelbaan_write_recipe_lending(const uint8_t *page, size_t page_len, uint32_t number, int32_t *words, size_t words_len) {
    const uint8_t no_page = 0;
    int32_t no_word = 0;
    return sktelbaan_write_recipe(page_len != 0 ? page : &no_page, page_len, number, words_len != 0 ? words : &no_word, words_len);
}

static inline uint64_t sktelbaan_find_ink_lending(const uint8_t *job, size_t job_len, const uint8_t *house, size_t house_len, const uint8_t *name, size_t name_len, uint32_t place[2]) {
    const uint8_t none = 0;
    return sktelbaan_find_ink(job_len != 0 ? job : &none, job_len, house_len != 0 ? house : &none, house_len, name_len != 0 ? name : &none, name_len, place);
}

static inline uint64_t sktelbaan_write_block_lending(const int32_t numbers[20], const uint8_t bytes[504], uint8_t *block, size_t block_len) {
    uint8_t none = 0;
    return sktelbaan_write_block(numbers, bytes, block_len != 0 ? block : &none, block_len);
}

static inline uint64_t sktelbaan_read_block_lending(const uint8_t *block, size_t block_len, int32_t numbers[20], uint8_t bytes[504]) {
    const uint8_t none = 0;
    return sktelbaan_read_block(block_len != 0 ? block : &none, block_len, numbers, bytes);
}

#define sktelbaan_validate sktelbaan_validate_lending
#define sktelbaan_evaluate sktelbaan_evaluate_lending
#define sktelbaan_write_recipe sktelbaan_write_recipe_lending
#define sktelbaan_find_ink sktelbaan_find_ink_lending
#define sktelbaan_write_block sktelbaan_write_block_lending
#define sktelbaan_read_block sktelbaan_read_block_lending

#ifdef __cplusplus
}
#endif

#endif
