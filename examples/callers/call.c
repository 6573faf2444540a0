/*
 * Validates a document with libyangcheck, and prints the result as JSON lines and the sentences on it.
 *
 *   cc -I include examples/callers/call.c out/library/libyangcheck.a -o call
 */
#include <stdio.h>
#include <stdlib.h>
#include <string.h>

#include "yangcheck.h"

static const char MODULE[] =
    "module ex { yang-version 1.1; namespace urn:ex; prefix ex; leaf size { type int8; } }";
static const char DOCUMENT[] = "{\"ex:size\": 200}";

/* The words in one buffer, and where each ends. */
static const char WORDS[] = "validate" "--format=json" "--data=size.json" "ex.yang";
static const size_t WORD_ENDS[] = {8, 21, 37, 44};

/* Runs the call with a buffer of this length. Returns the exit status. */
static uint8_t run(uint8_t *buffer, size_t length, size_t *output, size_t *note)
{
    const size_t file_end = strlen(MODULE), document_end = strlen(DOCUMENT);
    return yangcheck_run((const uint8_t *)WORDS, strlen(WORDS), WORD_ENDS, 4,
                         (const uint8_t *)MODULE, file_end, &file_end, 1,
                         (const uint8_t *)DOCUMENT, document_end, &document_end, 1,
                         buffer, length, output, note);
}

int main(void)
{
    size_t length = 64, output, note;
    uint8_t *buffer = malloc(length), status;
    if (buffer == NULL)
        return 3;
    status = run(buffer, length, &output, &note);
    if (output + note > length) {
        free(buffer);
        length = output + note;
        buffer = malloc(length);
        if (buffer == NULL)
            return 3;
        status = run(buffer, length, &output, &note);
    }
    fwrite(buffer, 1, output, stdout);
    fflush(stdout);
    fwrite(buffer + output, 1, note, stderr);
    free(buffer);
    return status;
}
