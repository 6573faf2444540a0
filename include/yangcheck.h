/*
 * yangcheck as a library for callers in C and C++: what the program yangcheck prints for a command
 * line, over files and documents that are in memory. `yangcheck --help` describes the words, and
 * docs/JSON-LINES.md what is written with `--format json`, the form for programs.
 *
 * Link with libyangcheck.a or libyangcheck.so, which tools/library makes. Both need only the C
 * library.
 */
#ifndef YANGCHECK_H
#define YANGCHECK_H

#include <stddef.h>
#include <stdint.h>

#ifdef __cplusplus
extern "C" {
#endif

/*
 * Does what the words ask for, and answers the exit status of the program:
 *
 *   0  fine
 *   1  modules refused, no such module or node, a document is invalid, or findings
 *   2  usage error, or a document is not JSON or is too large
 *   3  out of memory, or a pattern cannot be built
 *
 * WORDS, FILES, DOCUMENTS. Each is a list of parts that lie in one buffer: part i ends at ends[i],
 * and begins where the part before it ended, or at 0. `length` is the length of the buffer in
 * bytes, and `count` how many parts, and so ends, there are.
 *
 *   words      the words of the command line after the name of the program, in UTF-8, each without
 *              a NUL at its end
 *   files      what is in the files of the modules, in the order in which the words name them
 *   documents  what is in the sources that the words name by --data, in their order: one document
 *              each, or with `--each line` one on each line
 *
 * Nothing is opened. Names are only what the output calls a file or a document. Two sources of one
 * name must be equal, also where the name is "-".
 *
 * OUTPUT AND NOTE. The output is what the program prints on standard output, and the note is what
 * it prints on standard error, for a person. `buffer` gets the output and, right after it, the
 * note, as far as both fit; nothing is put after them. *output_length and *note_length are how long
 * they are, also where they do not fit: call again with a larger buffer if you need the rest. Output
 * that does not fit takes no memory.
 *
 * WHAT IS NOT DONE. The answer is 2, without an output and with a note that says why, if the words
 * ask for something that is not given: `--path`, the command `files`, `--each name`, `--each
 * name0`, or another number of files or documents; if ends decrease or are past the end of their
 * buffer; if a word is not UTF-8; or if two sources of one name differ.
 *
 * WHAT THE CALLER ENSURES. Each pointer is not null and is good for its length, also where that is
 * 0: use the address of any object. `buffer`, *output_length and *note_length overlap nothing else
 * that is passed. No other thread writes what is passed until the call returns. The stack has room,
 * as that of a main thread has (8 MiB).
 *
 * MEMORY AND THREADS. Nothing is to be freed: all memory that the call takes (by malloc) is given
 * back before it returns. There is no global state, so several threads may call at once.
 */
uint8_t yangcheck_run(
    const uint8_t *words, size_t words_length,
    const size_t *word_ends, size_t word_count,
    const uint8_t *files, size_t files_length,
    const size_t *file_ends, size_t file_count,
    const uint8_t *documents, size_t documents_length,
    const size_t *document_ends, size_t document_count,
    uint8_t *buffer, size_t buffer_length,
    size_t *output_length, size_t *note_length);

#ifdef __cplusplus
}
#endif

#endif
