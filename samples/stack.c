/* stack
 *
 * Measures how much of the machine's stack running a recipe takes: Gray, which calls least; CalRGB with gammas of tenths, which calls deepest of those without
 * a program; a recipe with the longest program that a page can have; and the longest that has a program. Prints all four, and fails where one takes more than
 * the header says. It links libsktelbaan_runner.a alone, as a plate setter does.
 */
#include "sktelbaan_runner.h"

#include <pthread.h>
#include <stdio.h>
#include <stdlib.h>
#include <string.h>

enum { ROOM = 1 << 20, PAINT = 0xA5, PLAIN = 999, PAGE_WORDS = 796 };

/* What a thread is to run, on how many components, how many bytes it may take, and where its stack stood when it did. */
struct job {
    const int32_t *words;
    size_t words_len;
    size_t components;
    size_t most;
    uint64_t reply;
    unsigned char *top;
};

static void *run(void *given) {
    struct job *job = (struct job *)given;
    unsigned char here = 0;
    int32_t colour[3] = {250000, 500000, 750000};
    double floats[4] = {0};
    job->top = &here;
    job->reply = sktelbaan_run(job->words, job->words_len, colour, job->components, floats);
    return NULL;
}

/* How many bytes below its caller a run touches: the stack is lent, painted, and the lowest byte that lost its paint is looked for. */
static size_t touched(struct job *job) {
    unsigned char *stack = NULL;
    pthread_attr_t attr;
    pthread_t thread;
    size_t clean = 0;
    if (posix_memalign((void **)&stack, 4096, ROOM) != 0)
        exit(2);
    memset(stack, PAINT, ROOM);
    if (pthread_attr_init(&attr) != 0 || pthread_attr_setstack(&attr, stack, ROOM) != 0)
        exit(2);
    if (pthread_create(&thread, &attr, run, job) != 0 || pthread_join(thread, NULL) != 0)
        exit(2);
    pthread_attr_destroy(&attr);
    while (clean < ROOM && stack[clean] == PAINT)
        clean++;
    size_t bytes = (size_t)(job->top - (stack + clean));
    free(stack);
    return bytes;
}

/* A recipe of one component with a program of so many words: dup and pop in turn, and one word that leaves all as it is where their count is odd. Gives its
 * length. */
static size_t with_program(int32_t *recipe, int32_t words) {
    size_t n = 0;
    recipe[n++] = 1;
    recipe[n++] = 12;
    recipe[n++] = 1;
    recipe[n++] = words;
    if (words % 2 != 0)
        recipe[n++] = 19;
    for (int32_t k = 0; k < words / 2; k++) {
        recipe[n++] = 25;
        recipe[n++] = 23;
    }
    recipe[n++] = 4;
    return n;
}

int main(void) {
    static const int32_t gray[] = {1, 1, 0, 0, 1000000, 4};
    static const int32_t decoded[] = {3, 8, 2200000, 1800000, 2200000, 412400, 212600, 19300, 357600, 715200, 119200, 180500, 72200, 950500};
    static int32_t page[SKTELBAAN_MOST_WORDS], longest[SKTELBAAN_MOST_WORDS];
    size_t page_len = with_program(page, PAGE_WORDS);
    size_t longest_len = with_program(longest, SKTELBAAN_MOST_WORDS - 5);
    struct job jobs[] = {
        {gray, sizeof gray / sizeof *gray, 1, PLAIN, 0, NULL},
        {decoded, sizeof decoded / sizeof *decoded, 3, PLAIN, 0, NULL},
        {page, page_len, 1, SKTELBAAN_MOST_STACK, 0, NULL},
        {longest, longest_len, 1, SKTELBAAN_MOST_STACK_OF_ANY, 0, NULL},
    };
    enum { JOBS = sizeof jobs / sizeof *jobs };
    size_t bytes[JOBS];
    for (size_t i = 0; i < JOBS; i++) {
        bytes[i] = touched(&jobs[i]);
        if (sktelbaan_refusal(jobs[i].reply) != 0 || bytes[i] > jobs[i].most) {
            fprintf(stderr, "stack: recipe %zu is refused, or takes %zu bytes\n", i, bytes[i]);
            return 1;
        }
    }
    printf("stack without a program %zu, decoding tenths %zu, with a page's longest program %zu, with the longest of all %zu\n", bytes[0], bytes[1], bytes[2], bytes[3]);
    return 0;
}
