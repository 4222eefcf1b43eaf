/* ink JOB HOUSE [NAME]
 *
 * Asks for an ink by its name, of the job's page and the house page, and prints which page has it, in which block, where its name begins on that page, and the
 * name as it stands there. Without NAME it asks for a name of no bytes. It fails on a refusal.
 */
#include <string.h>

#include "sktelbaan.h"
#include "text.h"

enum { MOST_BYTES = SKTELBAAN_PAGE_BYTES + 1 };

static const char *const pages[] = {"neither", "job", "house"};
static uint8_t job[MOST_BYTES];
static uint8_t house[MOST_BYTES];

/* Reads a page, and gives its length: a file that is longer than any page is refused for its length. */
static size_t read_page(const char *name, uint8_t *page) {
    FILE *file = fopen(name, "rb");
    if (file == NULL) {
        perror(name);
        exit(2);
    }
    size_t length = fread(page, 1, MOST_BYTES, file);
    fclose(file);
    return length;
}

int main(int argc, char **argv) {
    if (argc != 3 && argc != 4) {
        fprintf(stderr, "usage: ink JOB HOUSE [NAME]\n");
        return 2;
    }
    size_t job_length = read_page(argv[1], job);
    size_t house_length = read_page(argv[2], house);
    const char *name = argc == 4 ? argv[3] : "";
    uint32_t place[2] = {0, 0};

    uint64_t reply = sktelbaan_find_ink(job, job_length, house, house_length, (const uint8_t *)name, strlen(name), place);
    uint32_t refusal = sktelbaan_refusal(reply);
    const char *page = pages[sktelbaan_ink_page(reply)];
    unsigned block = sktelbaan_ink_block(reply);
    if (refusal != 0) {
        printf("refused %u %s block %u\n", (unsigned)refusal, page, block);
        fprintf(stderr, "%s\n", sktelbaan_refusal_text(refusal));
        return 1;
    }
    printf("found %s block %u byte %u ", page, block, (unsigned)place[0]);
    fwrite(sktelbaan_ink_name(job, house, reply, place), 1, place[1], stdout);
    printf("\n");
    return 0;
}
