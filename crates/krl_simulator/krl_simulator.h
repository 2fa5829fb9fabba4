/* The simulator of krl: what the program does for the words `script` and `random`, over bytes in memory.
 *
 * The words are those of the command line, the program's name first, with a zero byte between each two. No call reads
 * or writes a file. They take memory by malloc, realloc and free, keep nothing, and may run on several threads at once.
 */
#ifndef KRL_SIMULATOR_H
#define KRL_SIMULATOR_H

#include <stdbool.h>
#include <stddef.h>
#include <stdint.h>

/* How a run ended: the exit status of the program, and how many bytes of its output and of its reports, which are for
 * standard error, are at the front of their rooms. */
typedef struct krl_ending {
    uint8_t status;
    uint64_t printed;
    uint64_t reported;
} krl_ending;

/* Whether the words ask for a script, whose text krl_simulator_run takes. */
bool krl_simulator_reads(const uint8_t *words, size_t words_length);

/* Does what the words ask for, with this text of a script. If the text could not be read, `failure` is the number of
 * the error of the system, and otherwise 0. Of a text longer than 1,048,576 bytes one byte more is enough.
 *
 * If the output has no room for all, the run ends there as at a disk that is full: `printed` is then the length of the
 * room. Reports without room are left out. The four pieces of memory are not null, and the rooms do not overlap. The
 * same words and text give the same output.
 */
krl_ending krl_simulator_run(
    const uint8_t *words, size_t words_length, const uint8_t *text, size_t text_length, int32_t failure,
    uint8_t *output, size_t output_length, uint8_t *reports, size_t reports_length);

#endif
