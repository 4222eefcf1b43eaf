/* colour [-w WORDS] PAGE NUMBER COMPONENT...
 *
 * Evaluates a colour of a page, writes the recipe of its space, runs the recipe on the same colour, and prints both answers. It fails on a refusal,
 * and where the answers differ in a bit.
 * NUMBER is a block's number or a device code, as 0xFF03. Components are in millionths: 1.0 is 1000000.
 * With -w the recipe's words go to the file WORDS as well, one to a line, for run.c.
 */
#include <string.h>

#include "sktelbaan.h"
#include "text.h"

/* A page of the most bytes and one more, so that a longer file is refused for its length. */
static uint8_t page[SKTELBAAN_PAGE_BYTES + 1];
static int32_t words[SKTELBAAN_MOST_WORDS];

/* Opens a file, or ends the program. */
static FILE *open_file(const char *name, const char *mode) {
    FILE *file = fopen(name, mode);
    if (file == NULL) {
        perror(name);
        exit(2);
    }
    return file;
}

/* Writes a recipe's words to a file, one to a line. */
static void keep_words(const char *name, uint32_t count) {
    FILE *file = open_file(name, "w");
    for (uint32_t i = 0; i < count; i++)
        fprintf(file, "%ld\n", (long)words[i]);
    if (fclose(file) != 0) {
        perror(name);
        exit(2);
    }
}

int main(int argc, char **argv) {
    enum { MOST = 8 };
    int32_t components[MOST];
    double floats[4] = {0};
    double again[4] = {0};
    const char *kept = NULL;
    if (argc > 2 && strcmp(argv[1], "-w") == 0) {
        kept = argv[2];
        argv += 2;
        argc -= 2;
    }
    if (argc < 3 || argc > 3 + MOST) {
        fprintf(stderr, "usage: colour [-w WORDS] PAGE NUMBER COMPONENT...\n");
        return 2;
    }
    FILE *file = open_file(argv[1], "rb");
    size_t length = fread(page, 1, sizeof page, file);
    fclose(file);
    uint32_t number = (uint32_t)whole(argv[2], 0, UINT32_MAX);
    size_t count = read_components(argv + 3, argc - 3, components);

    uint64_t answer = sktelbaan_evaluate(page, length, number, components, count, floats);
    print_reply("page", answer, floats);

    uint64_t reply = sktelbaan_write_recipe(page, length, number, words, SKTELBAAN_MOST_WORDS);
    if (sktelbaan_refusal(reply) != 0) {
        print_reply("recipe", reply, floats);
        return 1;
    }
    uint32_t written = sktelbaan_value(reply);
    printf("recipe of %u words\n", (unsigned)written);
    if (kept != NULL)
        keep_words(kept, written);

    reply = sktelbaan_run(words, written, components, count, again);
    print_reply("run", reply, again);
    int same = reply == answer && memcmp(again, floats, sizeof floats) == 0;
    return same && sktelbaan_refusal(reply) == 0 ? 0 : 1;
}
