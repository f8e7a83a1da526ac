/* Grillsonnet: a checker and evaluator for documents of Z in coded form. `tools/build` writes the archive, target/staticlib/libcapi.a.
 *
 * Words are uint32_t, and an area is a pointer and its number of words. Any words and any lengths are allowed; a pointer is valid for its length
 * and is not NULL, also where the length is 0. No call keeps a pointer, uses the heap or touches anything but its areas, so calls on different
 * areas may run at the same time. Areas that a call writes to overlap no other area of that call.
 *
 * KiB of stack that are enough for a call, whatever it is given: z_read 128, z_state 128, z_check 384, z_fit 384, z_run 256, z_canonical 128,
 * z_print 32 (tested on the worst documents, not proved).
 *
 * A finding is one number: 0 where there is none, else number * 2^32 + place. Z_NUMBER and Z_PLACE take it apart. Number and place are those of
 * documents 01 and 02, but for number 1 of a run that fails: a node of the document, an entry of the state, or 0. */
#ifndef GRILLSONNET_H
#define GRILLSONNET_H

#include <stddef.h>
#include <stdint.h>

#ifdef __cplusplus
extern "C" {
#endif

#define Z_NUMBER(finding) ((uint32_t)((finding) >> 32))
#define Z_PLACE(finding) ((uint32_t)(finding))

/* Reading: 0 where the document is readable, else 11 to 17 with the node. */
uint64_t z_read(const uint32_t *document, size_t words);

/* A document with a state: reading's finding; then 41 with the entry of the state that is ill formed, 0 for its pairs; 0 where there is none. */
uint64_t z_state(const uint32_t *document, size_t words, const uint32_t *state, size_t state_words);

/* The check of a document: reading's finding; then 21 where the work area has under 16384 words; then 22 at 0 where the dictionary area has no words;
 * then, paragraph by paragraph, 31 to 39 with the node, last 22 with the paragraph where the dictionary through it has no room in its area; 0 where
 * the document is accepted. 39 comes in 33's turn, where no two formers differ and a type would have to contain itself; for people: "a type would
 * contain itself: ℙ a = a", with the two sides. After acceptance the dictionary area holds the dictionary with zeros after it, after a refusal zeros.
 * The work area is zero after it. */
uint64_t z_check(const uint32_t *document, size_t words, uint32_t *dictionary, size_t dictionary_words, uint32_t *work, size_t work_words);

/* The check of a document, then a state against its dictionary: the check's finding; then 41 as z_state; then 42 with the entry whose value is not
 * of its recorded type; 0 where both are accepted. The areas as after z_check. */
uint64_t z_fit(const uint32_t *document, size_t words, const uint32_t *state, size_t state_words, uint32_t *dictionary, size_t dictionary_words,
               uint32_t *work, size_t work_words);

/* A run of a document on a state: reading's finding; then 21 where the work area has under 16384 words; then 41 as z_state; then that of the
 * paragraphs: 0 where the run holds, number 1 with the node where it fails, 51 to 55 with the node. The work area is zero after it. */
uint64_t z_run(const uint32_t *document, size_t words, const uint32_t *state, size_t state_words, uint32_t *work, size_t work_words);

/* One coding of a document's tree: a readable document written again, whether or not the check would accept it, with its nodes numbered from 1
 * on, operands before their node, in the order of the operand words, depth first. So two documents with one tree give the same words. The finding:
 * reading's; then 27 at 0 where the output area has fewer words than the document, since the result has as many; 0 where it is written. The output
 * area then holds the result with zeros after it, after a refusal zeros. */
uint64_t z_canonical(const uint32_t *document, size_t words, uint32_t *output, size_t output_words);

/* Bytes that always suffice to print a check with a dictionary area of this many words. */
#define Z_PRINT_SIZE(dictionary_words) (11 * (size_t)(dictionary_words) + 34)

/* Prints a check's finding and its dictionary area: "accepted", the dictionary's words and entries, then a line per entry; or "refused 11 at 0".
 * The text stands at the beginning of the buffer and zeros fill the rest, so it is a string. Returns its length without the zeros. Where the
 * buffer has no room for the text and one zero, it is all zero and 0 is returned; this never happens with Z_PRINT_SIZE bytes and the area that
 * the check left. The dictionary is read only where the finding is 0. */
size_t z_print(uint64_t finding, const uint32_t *dictionary, size_t dictionary_words, char *text, size_t size);

#ifdef __cplusplus
}
#endif

#endif
