/* The calls from C, by their header: documents and dictionaries of document 01, and buffers that are too short. Exit status 1 where one differs. */
#include "grillsonnet.h"
#include <stdio.h>
#include <string.h>

#define WORDS(area) (sizeof(area) / sizeof(area)[0])

static int differences = 0;

static void same_finding(const char *name, uint64_t found, uint32_t number, uint32_t place) {
    if (Z_NUMBER(found) != number || Z_PLACE(found) != place) {
        printf("%s: %u at %u, not %u at %u\n", name, Z_NUMBER(found), Z_PLACE(found), number, place);
        differences++;
    }
}

/* A check with a dictionary area of 12 words, and what it leaves there with zeros after it. */
static void same_check(const uint32_t *document, size_t words, uint32_t number, uint32_t place, const uint32_t *dictionary, size_t count) {
    static uint32_t work[16384];
    uint32_t area[12];
    memset(area, 0xff, sizeof area);
    memset(work, 0xff, sizeof work);
    same_finding("z_check", z_check(document, words, area, WORDS(area), work, WORDS(work)), number, place);
    for (size_t i = 0; i < WORDS(area); i++) {
        if (area[i] != (i < count ? dictionary[i] : 0)) {
            printf("z_check: word %zu of the dictionary area is %u\n", i, area[i]);
            differences++;
        }
    }
    for (size_t i = 0; i < WORDS(work); i++) {
        if (work[i] != 0) {
            printf("z_check: word %zu of the work area is %u\n", i, work[i]);
            differences++;
        }
    }
}

static void same_fit(const uint32_t *document, size_t words, const uint32_t *state, size_t state_words, uint32_t number, uint32_t place) {
    static uint32_t dictionary[16384], work[16384];
    same_finding("z_fit", z_fit(document, words, state, state_words, dictionary, WORDS(dictionary), work, WORDS(work)), number, place);
}

/* Writes into an output area of so many words: the result with zeros after it, a word after the area that must stay, and the document as it was. */
static void same_written(const uint32_t *document, size_t words, size_t output_words, uint32_t number, uint32_t place, const uint32_t *result,
                         size_t count) {
    uint32_t area[24], given[24];
    memset(area, 0xff, sizeof area);
    memcpy(given, document, words * sizeof *document);
    same_finding("z_canonical", z_canonical(given, words, area, output_words), number, place);
    for (size_t i = 0; i < WORDS(area); i++) {
        if (area[i] != (i >= output_words ? UINT32_MAX : i < count ? result[i] : 0)) {
            printf("z_canonical into %zu words: word %zu is %u\n", output_words, i, area[i]);
            differences++;
        }
    }
    if (memcmp(given, document, words * sizeof *document) != 0) {
        printf("z_canonical: the document was written to\n");
        differences++;
    }
}

/* Prints into a buffer of this size, with a byte after it that must stay. */
static void same_text(uint64_t finding, const uint32_t *dictionary, size_t words, size_t size, const char *wanted) {
    char buffer[Z_PRINT_SIZE(16) + 1];
    memset(buffer, '?', sizeof buffer);
    size_t length = z_print(finding, dictionary, words, buffer, size);
    int zeros = 1;
    for (size_t i = length; i < size; i++) {
        zeros = zeros && buffer[i] == 0;
    }
    if (length != strlen(wanted) || strncmp(buffer, wanted, length) != 0 || !zeros || buffer[size] != '?') {
        printf("z_print into %zu bytes: %zu bytes of '%.*s', not '%s'\n", size, length, (int)length, buffer, wanted);
        differences++;
    }
}

int main(void) {
    const uint32_t document[] = {2, 5, 2, 7, 2, 2, 4, 1, 1};
    const uint32_t state[] = {0};
    const uint32_t sized[] = {1, 3, 1, 20};
    const uint32_t dictionary[] = {1, 3, 6, 1, 4, 0, 3, 2, 4, 0, 0};
    const uint32_t paragraphs[] = {3, 7, 2, 9, 2, 11, 3, 2, 4, 2, 8, 1, 2, 1};   /* [B]; [A], the second paragraph numbered first */
    const uint32_t canonical[] = {3, 7, 2, 9, 2, 11, 3, 2, 8, 2, 4, 1, 1, 2};
    const char *lines = "accepted 9 1\n1 4 0 : 3 2 4\n";
    same_finding("z_read", z_read(document, WORDS(document)), 0, 0);
    same_finding("z_read of no words", z_read(document, 0), 11, 0);
    same_finding("z_state", z_state(document, WORDS(document), state, WORDS(state)), 41, 0);
    same_check(document, WORDS(document), 0, 0, dictionary, WORDS(dictionary));
    same_check(document, 0, 11, 0, dictionary, 0);
    same_fit(document, WORDS(document), state, WORDS(state), 41, 0);
    same_fit(document, WORDS(document), sized, WORDS(sized), 0, 0);
    same_written(paragraphs, WORDS(paragraphs), WORDS(paragraphs), 0, 0, canonical, WORDS(canonical));
    same_written(paragraphs, WORDS(paragraphs), 20, 0, 0, canonical, WORDS(canonical));
    same_written(canonical, WORDS(canonical), 23, 0, 0, canonical, WORDS(canonical));
    same_written(paragraphs, WORDS(paragraphs), WORDS(paragraphs) - 1, 27, 0, canonical, 0);
    same_written(paragraphs, WORDS(paragraphs), 0, 27, 0, canonical, 0);
    same_written(paragraphs, WORDS(paragraphs) - 1, 5, 11, 0, canonical, 0);
    same_text(0, dictionary, WORDS(dictionary), Z_PRINT_SIZE(WORDS(dictionary)), lines);
    same_text(0, dictionary, WORDS(dictionary), strlen(lines) + 1, lines);
    same_text(0, dictionary, WORDS(dictionary), strlen(lines), "");
    same_text(0, dictionary, WORDS(dictionary), 0, "");
    same_text(z_read(document, 0), dictionary, 0, Z_PRINT_SIZE(0), "refused 11 at 0\n");
    same_text(UINT64_MAX, dictionary, 0, Z_PRINT_SIZE(0), "refused 4294967295 at 4294967295\n");
    if (differences == 0) {
        printf("the calls from C: all as expected\n");
    }
    return differences != 0;
}
