/* Measures calls of the library for C, in processor time.
 *
 *     library                  a call of cityseq_check on one feature of 90 bytes, at the usual limits
 *     library STREAM..         cityseq_info and cityseq_features, compared with cityseq_check
 *
 * A stream is judged as one part. Each figure is the best of several runs. */
#include "../c/cityseq.h"
#include <stdio.h>
#include <stdlib.h>
#include <string.h>
#include <time.h>

enum { calls = 100000, runs = 9, most_features = 1 << 20 };

static const char header_line[] = "{\"type\":\"CityJSON\",\"version\":\"2.0\",\"transform\":{\"scale\":[1,1,1],"
                                  "\"translate\":[0,0,0]},\"CityObjects\":{},\"vertices\":[]}\n";
static const char feature_line[] = "{\"type\":\"CityJSONFeature\",\"id\":\"b\",\"CityObjects\":"
                                   "{\"b\":{\"type\":\"Building\"}},\"vertices\":[]}\n";

static double seconds(void)
{
    struct timespec now;
    clock_gettime(CLOCK_PROCESS_CPUTIME_ID, &now);
    return (double)now.tv_sec + (double)now.tv_nsec / 1e9;
}

static void measure_small_call(void)
{
    struct cityseq_request request = CITYSEQ_USUAL;
    double best = 1e9;
    for (int run = 0; run < runs; run++) {
        double begin = seconds();
        for (int i = 0; i < calls; i++)
            if (cityseq_check(header_line, sizeof header_line - 1, feature_line, sizeof feature_line - 1, &request, NULL,
                              0)
                    .kept != 1)
                exit(1);
        double taken = seconds() - begin;
        best = taken < best ? taken : best;
    }
    printf("a call on one feature: %.2f microseconds\n", best / calls * 1e6);
}

/* The time of a call on a stream: check, info or features. */
static double time_of(int which, const char *text, size_t length, struct cityseq_feature *features)
{
    struct cityseq_request request = CITYSEQ_USUAL;
    struct cityseq_tally tally;
    const char *end = memchr(text, '\n', length);
    size_t header = end ? (size_t)(end - text) + 1 : length;
    const char *part = text + header;
    double begin = seconds();
    struct cityseq_answer answer =
        which == 0   ? cityseq_check(text, header, part, length - header, &request, NULL, 0)
        : which == 1 ? cityseq_info(text, header, part, length - header, &request, &tally, NULL, 0)
                     : cityseq_features(text, header, part, length - header, &request, features, most_features, NULL, 0);
    if (answer.status != CITYSEQ_COMPLETE)
        exit(1);
    return seconds() - begin;
}

static void measure_stream(const char *name)
{
    FILE *file = fopen(name, "rb");
    if (!file || fseek(file, 0, SEEK_END))
        exit(2);
    size_t length = (size_t)ftell(file);
    char *text = malloc(length + 1);
    struct cityseq_feature *features = calloc(most_features, sizeof *features);
    rewind(file);
    if (!text || !features || fread(text, 1, length, file) != length)
        exit(3);
    double best[3] = {1e9, 1e9, 1e9};
    for (int run = 0; run < runs; run++)
        for (int which = 0; which < 3; which++) {
            double taken = time_of(which, text, length, features);
            best[which] = taken < best[which] ? taken : best[which];
        }
    printf("%s: info %.2f, features %.2f of check (%.0f MB/s)\n", name, best[1] / best[0], best[2] / best[0],
           (double)length / best[0] / 1e6);
    free(text), free(features), fclose(file);
}

int main(int count, char **words)
{
    if (count < 2)
        measure_small_call();
    for (int i = 1; i < count; i++)
        measure_stream(words[i]);
    return 0;
}
