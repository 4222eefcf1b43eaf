/* run WORDS COMPONENT...
 *
 * Runs the recipe whose words are in the file WORDS, one to a line, on a colour, and prints the answer. It fails on a refusal.
 * It sees no page, and links libsktelbaan_runner.a alone, as a plate setter does. colour.c writes such files.
 */
#include "sktelbaan_runner.h"
#include "text.h"

/* The most words and one more, so that a longer file is refused. */
enum { ROOM = SKTELBAAN_MOST_WORDS + 1 };

static int32_t words[ROOM];

int main(int argc, char **argv) {
    enum { MOST = 8 };
    int32_t components[MOST];
    double floats[4] = {0};
    char word[32];
    size_t words_len = 0;
    if (argc < 2 || argc > 2 + MOST) {
        fprintf(stderr, "usage: run WORDS COMPONENT...\n");
        return 2;
    }
    FILE *file = fopen(argv[1], "r");
    if (file == NULL) {
        perror(argv[1]);
        return 2;
    }
    while (words_len < ROOM && fscanf(file, "%31s", word) == 1)
        words[words_len++] = (int32_t)whole(word, INT32_MIN, INT32_MAX);
    fclose(file);
    size_t count = read_components(argv + 2, argc - 2, components);

    uint64_t reply = sktelbaan_run(words, words_len, components, count, floats);
    print_reply("run", reply, floats);
    return sktelbaan_refusal(reply) == 0 ? 0 : 1;
}
