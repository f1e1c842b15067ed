/* Checks a stream in a file, and prints the first invalid line: example FILE
 *
 * It reads the file and does not map it: what a call reads must not change before it returns. */
#include "cityseq.h"
#include <stdio.h>
#include <stdlib.h>
#include <string.h>

/* Reads a whole file. The caller frees the bytes. Returns NULL if they could not be read. */
static char *read_file(const char *name, size_t *length)
{
    FILE *file = fopen(name, "rb");
    size_t size = 1 << 16, read = 0;
    char *text = file ? malloc(size) : NULL;
    while (text) {
        read += fread(text + read, 1, size - read, file);
        if (read < size)
            break;
        char *more = realloc(text, size *= 2);
        if (!more)
            free(text);
        text = more;
    }
    if (text && ferror(file)) {
        free(text);
        text = NULL;
    }
    if (file)
        fclose(file);
    *length = read;
    return text;
}

int main(int count, char **words)
{
    size_t length;
    char *text = count == 2 ? read_file(words[1], &length) : NULL;
    if (!text)
        return 3;
    const char *end = memchr(text, '\n', length);
    size_t header = end ? (size_t)(end - text) + 1 : length;
    struct cityseq_request request = CITYSEQ_USUAL;
    struct cityseq_answer answer = cityseq_check(text, header, text + header, length - header, &request, NULL, 0);
    if (answer.status == CITYSEQ_COMPLETE)
        printf("valid lines=%llu features=%llu\n", (unsigned long long)answer.lines, (unsigned long long)answer.kept);
    char reason[64];
    size_t words_length = cityseq_reason_text(answer.code, reason, sizeof reason);
    if (answer.status == CITYSEQ_REFUSED)
        printf("line %llu, byte %llu: %u %.*s\n", (unsigned long long)answer.line, (unsigned long long)answer.place,
               answer.code, (int)words_length, reason);
    free(text);
    return (int)answer.status;
}
