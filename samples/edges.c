/* The edges of the C interface, checked: lists of none, the parts of a reply, answers of each kind, colours pulled in, inks by name, programs, refusals in words,
 * sizes, a record of each kind, designers' texts, memory that nobody wrote. It is compiled as C and as C++, with the compiler's checks of addresses and of undefined
 * behaviour, and prints what is not as it should be. */
#include <stdio.h>
#include <string.h>

#include "sktelbaan.h"

static int failed = 0;

static void expect(const char *what, int holds) {
    if (!holds) {
        printf("edges: %s\n", what);
        failed = 1;
    }
}

/* A reply of sktelbaan_find_ink that refuses a page as a whole. */
static uint64_t refused(uint32_t number, uint32_t page) { return (uint64_t)page << 48 | number; }

/* Each list may be NULL where it has nothing in it. */
static void none(void) {
    static const uint8_t page[SKTELBAAN_BLOCK_BYTES] = {0};
    static const int32_t colour[1] = {500000};
    static const int32_t recipe[2] = {1, 4};
    static const int32_t numbers[SKTELBAAN_RECORD_NUMBERS] = {0};
    static const uint8_t bytes[SKTELBAAN_RECORD_BYTES] = {0};
    double floats[4] = {-1, -2, -3, -4};
    double floats_before[4];
    int32_t words[2] = {7, 8};
    int32_t read[SKTELBAAN_RECORD_NUMBERS], read_before[SKTELBAAN_RECORD_NUMBERS];
    uint8_t room[SKTELBAAN_RECORD_BYTES], room_before[SKTELBAAN_RECORD_BYTES];
    uint32_t gray = SKTELBAAN_DEVICE_GRAY;
    uint32_t place[2] = {7, 8};
    memcpy(floats_before, floats, sizeof floats);
    memset(read, 0x55, sizeof read);
    memset(room, 0x55, sizeof room);
    memcpy(read_before, read, sizeof read);
    memcpy(room_before, room, sizeof room);

    expect("validate, no page", sktelbaan_validate(NULL, 0) == SKTELBAAN_REFUSED_LENGTH);
    expect("evaluate, no page", sktelbaan_evaluate(NULL, 0, gray, colour, 1, floats) == SKTELBAAN_REFUSED_LENGTH);
    expect("evaluate, no components", sktelbaan_evaluate(page, sizeof page, gray, NULL, 0, floats) == SKTELBAAN_REFUSED_COUNT);
    expect("evaluate, neither", sktelbaan_evaluate(NULL, 0, gray, NULL, 0, floats) == SKTELBAAN_REFUSED_LENGTH);
    expect("write_recipe, no page", sktelbaan_write_recipe(NULL, 0, gray, words, 2) == SKTELBAAN_REFUSED_LENGTH);
    expect("write_recipe, no words", sktelbaan_write_recipe(page, sizeof page, gray, NULL, 0) == SKTELBAAN_REFUSED_ROOM);
    expect("write_recipe, neither", sktelbaan_write_recipe(NULL, 0, gray, NULL, 0) == SKTELBAAN_REFUSED_LENGTH);
    expect("run, no words", sktelbaan_run(NULL, 0, colour, 1, floats) == SKTELBAAN_REFUSED_RECIPE);
    expect("run, no components", sktelbaan_run(recipe, 2, NULL, 0, floats) == SKTELBAAN_REFUSED_COUNT);
    expect("run, neither", sktelbaan_run(NULL, 0, NULL, 0, floats) == SKTELBAAN_REFUSED_RECIPE);
    expect("find_ink, no job's page", sktelbaan_find_ink(NULL, 0, page, sizeof page, page, 1, place) == refused(SKTELBAAN_REFUSED_LENGTH, SKTELBAAN_JOB_PAGE));
    expect("find_ink, no house page", sktelbaan_find_ink(page, sizeof page, NULL, 0, page, 1, place) == refused(SKTELBAAN_REFUSED_LENGTH, SKTELBAAN_HOUSE_PAGE));
    expect("find_ink, no name", sktelbaan_find_ink(page, sizeof page, page, sizeof page, NULL, 0, place) == refused(SKTELBAAN_REFUSED_SPACE, SKTELBAAN_NEITHER_PAGE));
    expect("find_ink, none of them", sktelbaan_find_ink(NULL, 0, NULL, 0, NULL, 0, place) == refused(SKTELBAAN_REFUSED_LENGTH, SKTELBAAN_JOB_PAGE));
    expect("write_block, no block", sktelbaan_write_block(numbers, bytes, NULL, 0) == SKTELBAAN_REFUSED_ROOM);
    expect("read_block, no block", sktelbaan_read_block(NULL, 0, read, room) == SKTELBAAN_REFUSED_ROOM);

    expect("floats stay", memcmp(floats, floats_before, sizeof floats) == 0);
    expect("place stays", place[0] == 7 && place[1] == 8);
    expect("words stay", words[0] == 7 && words[1] == 8);
    expect("numbers stay", memcmp(read, read_before, sizeof read) == 0);
    expect("bytes stay", memcmp(room, room_before, sizeof room) == 0);
}

/* A function whose address is taken is the same function. */
static void by_address(void) {
    uint64_t (*validate)(const uint8_t *, size_t) = sktelbaan_validate;
    uint64_t (*run)(const int32_t *, size_t, const int32_t *, size_t, double *) = &sktelbaan_run;
    static const int32_t recipe[2] = {1, 4};
    static const int32_t colour[1] = {500000};
    double floats[4] = {-1, -2, -3, -4};
    expect("validate by its address", validate(NULL, 0) == SKTELBAAN_REFUSED_LENGTH);
    expect("run by its address, no words", run(NULL, 0, NULL, 0, floats) == SKTELBAAN_REFUSED_RECIPE);
    expect("run by its address", sktelbaan_value(run(recipe, 2, colour, 1, floats)) == SKTELBAAN_GRAY && floats[0] == 0.5 && floats[1] == -2);
}

/* What is refused and where, or what is given. */
static void replies(void) {
    static uint8_t page[2 * SKTELBAAN_BLOCK_BYTES];
    int32_t words[SKTELBAAN_MOST_WORDS];
    uint64_t reply = sktelbaan_write_recipe(page, SKTELBAAN_BLOCK_BYTES, SKTELBAAN_DEVICE_CMYK, words, SKTELBAAN_MOST_WORDS);
    expect("a recipe's reply", sktelbaan_refusal(reply) == 0 && sktelbaan_value(reply) == 18 && sktelbaan_block(reply) == 0);
    page[2 * SKTELBAAN_BLOCK_BYTES - 1] = 1;
    reply = sktelbaan_validate(page, sizeof page);
    expect("a refusal's reply", sktelbaan_refusal(reply) == SKTELBAAN_REFUSED_CHECK && sktelbaan_block(reply) == 1 && sktelbaan_value(reply) == 0);
}

/* A recipe of each closing step gives what it is in, and just as many floats as that has. */
static void answers(void) {
    static const struct {
        uint32_t in, floats;
        size_t words_len;
        int32_t words[14];
    } rows[] = {
        {SKTELBAAN_GRAY, 1, 2, {4, 4}},
        {SKTELBAAN_RGB, 3, 2, {4, 5}},
        {SKTELBAAN_CMYK, 4, 2, {4, 6}},
        {SKTELBAAN_XYZ, 3, 5, {4, 7, 1000000, 1000000, 1000000}},
        {SKTELBAAN_XYZ, 3, 14, {4, 8, 1000000, 1000000, 1000000, 1000000, 0, 0, 0, 1000000, 0, 0, 0, 1000000}},
        {SKTELBAAN_XYZ, 3, 4, {4, 9, 1000000, 1000000}},
        {SKTELBAAN_NO_MARK, 0, 2, {4, 10}},
        {SKTELBAAN_EVERY_INK, 1, 2, {4, 11}},
    };
    static const int32_t colour[4] = {500000, 500000, 500000, 500000};
    for (size_t i = 0; i < sizeof rows / sizeof rows[0]; i++) {
        double floats[4] = {-1, -1, -1, -1};
        uint64_t reply = sktelbaan_run(rows[i].words, rows[i].words_len, colour, 4, floats);
        expect("what an answer is in", sktelbaan_refusal(reply) == 0 && sktelbaan_value(reply) == rows[i].in);
        expect("how many floats it has", sktelbaan_floats(rows[i].in) == rows[i].floats);
        for (uint32_t k = 0; k < 4; k++)
            expect("just its floats are put", (floats[k] != -1) == (k < rows[i].floats));
    }
    expect("the floats of no answer", sktelbaan_floats(0) == 0 && sktelbaan_floats(SKTELBAAN_EVERY_INK + 1) == 0 && sktelbaan_floats(UINT32_MAX) == 0);
}

/* A colour that is pulled in says so, beside what its answer is in; a refusal and a count of words do not. */
static void pulled_in(void) {
    static const uint8_t page[SKTELBAAN_BLOCK_BYTES] = {0};
    static const int32_t gray[6] = {1, 1, 0, 0, 1000000, 4};
    static const int32_t row[7] = {1, 2, 1, 1, 0, 1000000, 10};
    static const struct {
        int32_t component;
        int limit, index;
    } rows[] = {
        {INT32_MIN, 1, 1}, {-500001, 1, 1}, {-500000, 1, 0}, {-1, 1, 0},      {0, 0, 0},          {1000000, 0, 0},
        {1000001, 1, 0},   {1400000, 1, 0}, {1499999, 1, 0}, {1500000, 1, 1}, {INT32_MAX, 1, 1},
    };
    double floats[4] = {0};
    int32_t words[SKTELBAAN_MOST_WORDS];
    for (size_t i = 0; i < sizeof rows / sizeof rows[0]; i++) {
        const int32_t *colour = &rows[i].component;
        uint64_t reply = sktelbaan_run(gray, 6, colour, 1, floats);
        expect("a limit that moves or not", sktelbaan_value(reply) == SKTELBAAN_GRAY && sktelbaan_moved(reply) == rows[i].limit);
        reply = sktelbaan_evaluate(page, sizeof page, SKTELBAAN_DEVICE_GRAY, colour, 1, floats);
        expect("a colour that moves or not", sktelbaan_value(reply) == SKTELBAAN_GRAY && sktelbaan_moved(reply) == rows[i].limit);
        expect("a reply's bits", reply == ((uint64_t)rows[i].limit << 63 | (uint64_t)SKTELBAAN_GRAY << 32));
        reply = sktelbaan_run(row, 7, colour, 1, floats);
        expect("an index that moves or not", sktelbaan_value(reply) == SKTELBAAN_NO_MARK && sktelbaan_moved(reply) == rows[i].index);
        reply = sktelbaan_run(gray, 5, colour, 1, floats);
        expect("a refusal moves nothing", sktelbaan_refusal(reply) == SKTELBAAN_REFUSED_RECIPE && sktelbaan_moved(reply) == 0);
    }
    uint64_t reply = sktelbaan_write_recipe(page, sizeof page, SKTELBAAN_DEVICE_CMYK, words, SKTELBAAN_MOST_WORDS);
    expect("a count of words moves nothing", sktelbaan_value(reply) == 18 && sktelbaan_moved(reply) == 0);
    expect("the top bit of a refusal", sktelbaan_moved((uint64_t)1 << 63 | 9) == 0);
}

/* A block of a page that holds a Separation of this name over DeviceGray. */
static void put_ink(uint8_t *page, int32_t number, const char *name) {
    const int32_t numbers[SKTELBAAN_RECORD_NUMBERS] = {number, SKTELBAAN_KIND_SEPARATION, SKTELBAAN_DEVICE_GRAY, 1, (int32_t)strlen(name)};
    uint8_t bytes[SKTELBAAN_RECORD_BYTES] = {0};
    memcpy(bytes, name, strlen(name));
    expect("an ink is written", sktelbaan_write_block(numbers, bytes, page + number * SKTELBAAN_BLOCK_BYTES, SKTELBAAN_BLOCK_BYTES) == 0);
}

/* An ink by its name: page, block and place, on either page; a refusal says which page, and leaves the place. */
static void inks(void) {
    static uint8_t job[2 * SKTELBAAN_BLOCK_BYTES], house[3 * SKTELBAAN_BLOCK_BYTES];
    const uint8_t *gold = (const uint8_t *)"Gold";
    const uint8_t *varnish = (const uint8_t *)"Varnish";
    uint32_t place[2] = {0, 0};
    put_ink(job, 0, "Goldfish");
    put_ink(job, 1, "Gold");
    put_ink(house, 0, "Gold");
    put_ink(house, 1, "Silver");
    put_ink(house, 2, "Varnish");

    uint64_t reply = sktelbaan_find_ink(job, sizeof job, house, sizeof house, gold, 4, place);
    expect("in the job's page", sktelbaan_refusal(reply) == 0 && sktelbaan_ink_page(reply) == SKTELBAAN_JOB_PAGE && sktelbaan_ink_block(reply) == 1);
    expect("its place there", sktelbaan_ink_name(job, house, reply, place) == job + place[0] && place[1] == 4 && memcmp(job + place[0], "Gold", 5) == 0);
    reply = sktelbaan_find_ink(job, sizeof job, house, sizeof house, varnish, 7, place);
    expect("in the house page", sktelbaan_refusal(reply) == 0 && sktelbaan_ink_page(reply) == SKTELBAAN_HOUSE_PAGE && sktelbaan_ink_block(reply) == 2);
    expect("its place in the house page", sktelbaan_ink_name(job, house, reply, place) == house + place[0] && place[1] == 7 && memcmp(house + place[0], "Varnish", 8) == 0);
    reply = sktelbaan_find_ink(job, sizeof job, house, sizeof house, varnish, 6, place);
    expect("in neither", sktelbaan_refusal(reply) == SKTELBAAN_REFUSED_SPACE && sktelbaan_ink_page(reply) == SKTELBAAN_NEITHER_PAGE && sktelbaan_ink_block(reply) == 0);
    expect("no name", sktelbaan_ink_name(job, house, reply, place) == NULL);
    house[3 * SKTELBAAN_BLOCK_BYTES - 1] ^= 1;
    reply = sktelbaan_find_ink(job, sizeof job, house, sizeof house, gold, 4, place);
    expect("the house page refused", sktelbaan_refusal(reply) == SKTELBAAN_REFUSED_CHECK && sktelbaan_ink_page(reply) == SKTELBAAN_HOUSE_PAGE && sktelbaan_ink_block(reply) == 2);
    expect("the place stays", place[1] == 7);
}

/* A page of a Separation with exponent 0 over DeviceGray, and of a block that has its program. */
static void put_program(uint8_t *page, const char *text) {
    static const int32_t ink[SKTELBAAN_RECORD_NUMBERS] = {0, SKTELBAAN_KIND_SEPARATION, SKTELBAAN_DEVICE_GRAY, 0, 7};
    static const int32_t program[SKTELBAAN_RECORD_NUMBERS] = {1, SKTELBAAN_KIND_PROGRAM};
    uint8_t bytes[SKTELBAAN_RECORD_BYTES] = {0};
    memcpy(bytes, "Varnish", 7);
    expect("exponent 0 is written", sktelbaan_write_block(ink, bytes, page, SKTELBAAN_BLOCK_BYTES) == 0);
    memset(bytes, 0, sizeof bytes);
    memcpy(bytes, text, strlen(text));
    expect("a program is written", sktelbaan_write_block(program, bytes, page + SKTELBAAN_BLOCK_BYTES, SKTELBAAN_BLOCK_BYTES) == 0);
}

/* A program makes a colour of a tint, on its page and in a recipe, and says whether the tint was pulled in; a bad one is refused at the Separation's block, one
 * that belongs to none at its own. */
static void programs(void) {
    static uint8_t page[2 * SKTELBAAN_BLOCK_BYTES];
    static const int32_t recipe[11] = {1, 12, 1, 2, 25, 9, 1, 0, 0, 1000000, 4};
    static const struct {
        int32_t tint;
        double gray;
        int moved;
    } rows[] = {{500000, 0.25, 0}, {1000000, 1, 0}, {1000001, 1, 1}, {0, 0, 0}, {INT32_MIN, 0, 1}};
    static const struct {
        const char *text;
        uint32_t refusal;
    } bad[] = {
        {"", SKTELBAAN_REFUSED_PALETTE},
        {" ", SKTELBAAN_REFUSED_PROGRAM_SYNTAX},
        {"{ dup mull }", SKTELBAAN_REFUSED_PROGRAM_SYNTAX},
        {"{ 2148 pop }", SKTELBAAN_REFUSED_PROGRAM_SYNTAX},
        {"{ dup }", SKTELBAAN_REFUSED_PROGRAM_STACK},
        {"{ not }", SKTELBAAN_REFUSED_PROGRAM_STACK},
        {"{ 0.5 copy }", SKTELBAAN_REFUSED_PROGRAM_STACK},
    };
    int32_t words[SKTELBAAN_MOST_WORDS];
    double floats[4] = {0};
    put_program(page, "{ dup mul } % the square");
    uint64_t reply = sktelbaan_write_recipe(page, sizeof page, 0, words, SKTELBAAN_MOST_WORDS);
    expect("a program's recipe", reply == (uint64_t)11 << 32 && memcmp(words, recipe, sizeof recipe) == 0);
    for (size_t i = 0; i < sizeof rows / sizeof rows[0]; i++) {
        reply = sktelbaan_evaluate(page, sizeof page, 0, &rows[i].tint, 1, floats);
        expect("a program's colour", sktelbaan_value(reply) == SKTELBAAN_GRAY && floats[0] == rows[i].gray && sktelbaan_moved(reply) == rows[i].moved);
        floats[0] = -1;
        expect("the same by its recipe", sktelbaan_run(recipe, 11, &rows[i].tint, 1, floats) == reply && floats[0] == rows[i].gray);
    }
    for (size_t i = 0; i < sizeof bad / sizeof bad[0]; i++) {
        put_program(page, bad[i].text);
        expect("a bad program", sktelbaan_validate(page, sizeof page) == bad[i].refusal);
    }
    put_program(page, "{ }");
    put_ink(page, 0, "Gold");
    expect("a program of no Separation", sktelbaan_validate(page, sizeof page) == ((uint64_t)1 << 32 | SKTELBAAN_REFUSED_PALETTE));
}

/* Every refusal has a text of its own, and no other number has one. */
static void texts(void) {
    const char *other = sktelbaan_refusal_text(0);
    for (uint32_t n = SKTELBAAN_REFUSED_LENGTH; n <= SKTELBAAN_REFUSED_PROGRAM_STACK; n++) {
        expect("a refusal's text", strcmp(sktelbaan_refusal_text(n), other) != 0);
        for (uint32_t m = SKTELBAAN_REFUSED_LENGTH; m < n; m++)
            expect("two refusals' texts", strcmp(sktelbaan_refusal_text(n), sktelbaan_refusal_text(m)) != 0);
    }
    expect("the text of 18", strcmp(sktelbaan_refusal_text(SKTELBAAN_REFUSED_PROGRAM_STACK + 1), other) == 0);
    expect("the text of the last number", strcmp(sktelbaan_refusal_text(UINT32_MAX), other) == 0);
}

/* The most blocks and the most words are those: one more is refused for it. */
static void sizes(void) {
    static uint8_t page[(SKTELBAAN_MOST_BLOCKS + 1) * SKTELBAAN_BLOCK_BYTES];
    static int32_t words[SKTELBAAN_MOST_WORDS + 1];
    static const int32_t colour[1] = {0};
    double floats[4] = {0};
    uint64_t reply = sktelbaan_validate(page, sizeof page - SKTELBAAN_BLOCK_BYTES);
    expect("the most blocks", sktelbaan_refusal(reply) == SKTELBAAN_REFUSED_LAYOUT && sktelbaan_block(reply) == 1);
    expect("a block more", sktelbaan_validate(page, sizeof page) == SKTELBAAN_REFUSED_LENGTH);
    static const uint8_t bytes[SKTELBAAN_RECORD_BYTES] = {0};
    for (int32_t more = 0; more < 2; more++) {
        const int32_t number = SKTELBAAN_MOST_BLOCKS - 1 + more;
        const int32_t own[SKTELBAAN_RECORD_NUMBERS] = {number, SKTELBAAN_KIND_FREE};
        const int32_t over[SKTELBAAN_RECORD_NUMBERS] = {0, SKTELBAAN_KIND_INDEXED, number};
        expect("the last own number", sktelbaan_write_block(own, bytes, page, SKTELBAAN_BLOCK_BYTES) == (more ? SKTELBAAN_REFUSED_LAYOUT : 0));
        expect("the last reference", sktelbaan_write_block(over, bytes, page, SKTELBAAN_BLOCK_BYTES) == (more ? SKTELBAAN_REFUSED_REFERENCE : 0));
    }

    /* One component, limited to 0..0 again and again; then CalGray's closing step of four words, or one limit more and Gray's of one. */
    words[0] = 1;
    for (int i = 1; i < SKTELBAAN_MOST_WORDS - 4; i += 4)
        words[i] = 1;
    words[SKTELBAAN_MOST_WORDS - 4] = 7;
    words[SKTELBAAN_MOST_WORDS - 1] = 1000000;
    expect("the most words", sktelbaan_value(sktelbaan_run(words, SKTELBAAN_MOST_WORDS, colour, 1, floats)) == SKTELBAAN_XYZ);
    words[SKTELBAAN_MOST_WORDS - 4] = 1;
    words[SKTELBAAN_MOST_WORDS] = 4;
    expect("a word more", sktelbaan_run(words, SKTELBAAN_MOST_WORDS + 1, colour, 1, floats) == SKTELBAAN_REFUSED_RECIPE);
    words[4] = 1;
    expect("the same with a step less", sktelbaan_value(sktelbaan_run(words + 4, SKTELBAAN_MOST_WORDS - 3, colour, 1, floats)) == SKTELBAAN_GRAY);

    /* As many components as there may be, and one more. */
    static const int32_t many[SKTELBAAN_MOST_COMPONENTS + 1] = {0};
    for (int32_t more = 0; more < 2; more++) {
        const int32_t counted[2] = {SKTELBAAN_MOST_COMPONENTS + more, 4};
        reply = sktelbaan_run(counted, 2, many, (size_t)counted[0], floats);
        expect("the most components", more ? reply == SKTELBAAN_REFUSED_RECIPE : sktelbaan_value(reply) == SKTELBAAN_GRAY);
    }

    /* A program that fills a recipe, and one that is a word longer: a number is put on and taken off again and again, then neg. */
    static const int32_t item[3] = {1, 5, 23};
    const int32_t most = SKTELBAAN_MOST_WORDS - 5;
    for (int32_t more = 0; more < 2; more++) {
        const int32_t count = most + more;
        words[0] = 1;
        words[1] = 12;
        words[2] = 1;
        words[3] = count;
        for (int32_t i = 0; i < count; i++)
            words[4 + i] = i < count - count % 3 ? item[i % 3] : 18;
        words[4 + count] = 4;
        reply = sktelbaan_run(words, (size_t)count + 5, colour, 1, floats);
        expect("the longest program", more ? reply == SKTELBAAN_REFUSED_RECIPE : sktelbaan_value(reply) == SKTELBAAN_GRAY && floats[0] == 0);
    }
}

/* A record of each kind is written as a block of that kind, and read back as it was. */
static void records(void) {
    static const int32_t rows[][SKTELBAAN_RECORD_NUMBERS] = {
        {5, SKTELBAAN_KIND_FREE},
        {5, SKTELBAAN_KIND_CALGRAY, 950500, 1000000, 1089000, 0, 0, 0, 4000000},
        {5, SKTELBAAN_KIND_CALRGB, 950500, 1000000, 1089000, 0, 0, 0, 1000000, 2000000, 3000000, 1, 2, 3, 4, 5, 6, 7, 8, 9},
        {5, SKTELBAAN_KIND_LAB, 950500, 1000000, 1089000, 0, 0, 0, -100000000, 100000000, -128000000, 127000000},
        {5, SKTELBAAN_KIND_INDEXED, SKTELBAAN_DEVICE_RGB, 255},
        {5, SKTELBAAN_KIND_SEPARATION, SKTELBAAN_DEVICE_CMYK, 4, 4, 1, 2, 3, 4, 5, 6, 7, 8},
        {5, SKTELBAAN_KIND_PALETTE},
        {5, SKTELBAAN_KIND_PROGRAM},
        {5, SKTELBAAN_KIND_DEVICEN, SKTELBAAN_DEVICE_CMYK, 2},
    };
    for (int32_t kind = SKTELBAAN_KIND_FREE; kind <= SKTELBAAN_KIND_DEVICEN; kind++) {
        uint8_t bytes[SKTELBAAN_RECORD_BYTES] = {0}, block[SKTELBAAN_BLOCK_BYTES], found[SKTELBAAN_RECORD_BYTES];
        int32_t numbers[SKTELBAAN_RECORD_NUMBERS];
        if (kind == SKTELBAAN_KIND_SEPARATION)
            memcpy(bytes, "Gold", 4);
        if (kind == SKTELBAAN_KIND_DEVICEN)
            memcpy(bytes, "\4Blue\4Buff", 10);
        if (kind == SKTELBAAN_KIND_PALETTE || kind == SKTELBAAN_KIND_PROGRAM)
            memset(bytes, 0xff, sizeof bytes);
        expect("a record is written", sktelbaan_write_block(rows[kind], bytes, block, sizeof block) == 0);
        expect("it is of its kind", block[0] == kind && block[3] == 5);
        expect("it is read", sktelbaan_read_block(block, sizeof block, numbers, found) == 0);
        expect("as it was", memcmp(numbers, rows[kind], sizeof numbers) == 0 && memcmp(found, bytes, sizeof found) == 0);
    }
}

/* Ends a text twice: its page, an accepted one, goes to the room, and no byte after it is written; of a refused text no byte at all. */
static uint64_t end_text(struct sktelbaan_text *t, size_t room_len) {
    static uint8_t room[(SKTELBAAN_MOST_BLOCKS + 1) * SKTELBAAN_BLOCK_BYTES];
    uint64_t reply = 0;
    for (int time = 0; time < 2; time++) {
        memset(room, 0x55, sizeof room);
        uint64_t again = sktelbaan_text_end(t, room, room_len);
        size_t page_len = (size_t)sktelbaan_value(again) * SKTELBAAN_BLOCK_BYTES, kept = page_len;
        while (kept < sizeof room && room[kept] == 0x55)
            kept++;
        expect("a text's room stays", page_len <= room_len && kept == sizeof room);
        expect("a text's page is accepted", sktelbaan_refusal(again) != 0 || sktelbaan_validate(room, page_len) == 0);
        expect("a text's end replies the same again", time == 0 || again == reply);
        reply = again;
    }
    return reply;
}

#define GRAY "[/CalGray<</WhitePoint[0.9505 1 1.089]>>]"

/* A text is read or refused: in its syntax, by what it has no room for, or by judging its page, the second space's block. */
static void designers_texts(void) {
    static const struct {
        const char *text;
        size_t room_len;
        uint32_t refusal, blocks_or_byte;
    } rows[] = {
        {GRAY, SKTELBAAN_BLOCK_BYTES, 0, 1},
        {GRAY GRAY, 3 * SKTELBAAN_BLOCK_BYTES, 0, 2},
        {"", SKTELBAAN_BLOCK_BYTES, SKTELBAAN_REFUSED_TEXT_SYNTAX, 0},
        {GRAY " 7 ", SKTELBAAN_BLOCK_BYTES, SKTELBAAN_REFUSED_TEXT_SYNTAX, 42},
        {GRAY "[/CalGray<</Gamma", SKTELBAAN_BLOCK_BYTES, SKTELBAAN_REFUSED_TEXT_SYNTAX, 58},
        {GRAY, SKTELBAAN_BLOCK_BYTES - 1, SKTELBAAN_REFUSED_ROOM, 40},
        {GRAY, 0, SKTELBAAN_REFUSED_ROOM, 40},
        {GRAY "[/Lab<</WhitePoint[1 .5 1]>>]", 2 * SKTELBAAN_BLOCK_BYTES, SKTELBAAN_REFUSED_NUMBER, 41},
    };
    static struct sktelbaan_text t;
    for (size_t i = 0; i < sizeof rows / sizeof rows[0]; i++) {
        expect("a text begins", sktelbaan_text_begin(&t) == 0);
        expect("a text is read", sktelbaan_text_read(&t, (const uint8_t *)rows[i].text, strlen(rows[i].text), rows[i].room_len) == 0);
        expect("a text's reply", end_text(&t, rows[i].room_len) == ((uint64_t)rows[i].blocks_or_byte << 32 | rows[i].refusal));
    }
}

/* A text of the most blocks is a page, and uses the memory that is lent to its end; with a space more it is refused at that one's bracket. */
static void longest_text(void) {
    static struct sktelbaan_text t;
    const size_t room_len = SKTELBAAN_PAGE_BYTES;
    for (uint32_t count = SKTELBAAN_MOST_BLOCKS; count <= SKTELBAAN_MOST_BLOCKS + 1; count++) {
        expect("a long text begins", sktelbaan_text_begin(&t) == 0);
        for (uint32_t i = 0; i < count; i++)
            expect("a space of it is read", sktelbaan_text_read(&t, (const uint8_t *)GRAY, strlen(GRAY), room_len) == 0);
        uint64_t whole = (uint64_t)count << 32, bracket = (uint64_t)(count * strlen(GRAY) - 1) << 32;
        expect("a long text's reply", end_text(&t, room_len) == (count <= SKTELBAAN_MOST_BLOCKS ? whole : bracket | SKTELBAAN_REFUSED_TEXT_BLOCKS));
    }
}

/* Memory that nobody wrote is answered, as it is and after a part of a text: of bytes FF, then of random ones. In most rounds its words are small, so that they
 * say where a reading stands, and word 23 is 0, so that nothing is refused yet. */
static void any_memory(void) {
    static struct sktelbaan_text t;
    uint8_t *bytes = (uint8_t *)&t;
    uint64_t random = 1;
    for (int round = 0; round < 200; round++) {
        for (size_t i = 0; i < sizeof t; i++) {
            random = random * 6364136223846793005u + 1442695040888963407u;
            bytes[i] = round == 0 ? 0xff : (uint8_t)(random >> 56);
        }
        for (int k = 0; k < SKTELBAAN_TEXT_WORDS && round % 4 != 0; k++)
            t.words[k] %= k == 23 ? 1 : 16;
        if (round % 2 == 0)
            expect("a part of a text is read", sktelbaan_text_read(&t, (const uint8_t *)GRAY, strlen(GRAY), SKTELBAAN_BLOCK_BYTES) == 0);
        end_text(&t, SKTELBAAN_PAGE_BYTES);
    }
}

/* The version's text is its numbers. */
static void version(void) {
    char text[64];
    snprintf(text, sizeof text, "%d.%d.%d", SKTELBAAN_VERSION_MAJOR, SKTELBAAN_VERSION_MINOR, SKTELBAAN_VERSION_PATCH);
    expect("the version", strcmp(text, SKTELBAAN_VERSION) == 0);
}

int main(void) {
    none();
    by_address();
    replies();
    answers();
    pulled_in();
    inks();
    programs();
    texts();
    sizes();
    records();
    designers_texts();
    longest_text();
    any_memory();
    version();
    return failed;
}
