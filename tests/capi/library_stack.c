/* Tries how much of the stack the library for C takes.
 *
 *     library_stack
 *
 * Each call runs in a thread whose stack has the size that is promised for its stream, above a page that may not be touched. Then
 * it runs on a stack of 4 MB that was filled with a pattern before, and what has changed of that is the bytes it took. Each line
 * of the output has these for one stream. The last line is 'N passed, M failed', and the status is 0 where all passed: a call that
 * runs over its stack ends the process by a signal. */
#include "../../c/cityseq.h"
#include <pthread.h>
#include <stdarg.h>
#include <stdio.h>
#include <stdlib.h>
#include <string.h>
#include <sys/mman.h>

enum { page = 4096, large = 4 << 20, pattern = 0xa5 };

/* ---- texts */

struct text {
    char *bytes;
    size_t length, room;
};

/* Adds what printf would print. */
static void add(struct text *text, const char *format, ...)
{
    char some[512];
    va_list list;
    va_start(list, format);
    size_t length = (size_t)vsnprintf(some, sizeof some, format, list);
    va_end(list);
    if (length >= sizeof some)
        exit(3);
    if (text->length + length > text->room) {
        text->room = 2 * (text->length + length);
        text->bytes = realloc(text->bytes, text->room);
        if (!text->bytes)
            exit(3);
    }
    memcpy(text->bytes + text->length, some, length);
    text->length += length;
}

/* ---- features. Each has the id `b`, and as many things as go into so many bytes, or so many if that is less */

static void begin(struct text *line)
{
    add(line, "{\"type\":\"CityJSONFeature\",\"id\":\"b\",\"vertices\":[[0,0,0],[1,0,0],[0,1,0]]");
}

static const char surface[] = "{\"type\":\"MultiSurface\",\"lod\":\"2\",\"boundaries\":[[[0,1,2]]]}";

/* A building, and its parts with a surface each. */
static void parts(struct text *line, size_t bytes, size_t count)
{
    begin(line);
    add(line, ",\"CityObjects\":{\"b\":{\"type\":\"Building\",\"children\":[\"p0\"");
    size_t most = bytes / 140 < count - 1 ? bytes / 140 : count - 1;
    for (size_t i = 1; i < most; i++)
        add(line, ",\"p%zu\"", i);
    add(line, "]}");
    for (size_t i = 0; i < most; i++)
        add(line, ",\"p%zu\":{\"type\":\"BuildingPart\",\"parents\":[\"b\"],\"geometry\":[%s]}", i, surface);
    add(line, "}}\n");
}

/* A chain of buildings, the last first. */
static void chain(struct text *line, size_t bytes, size_t count)
{
    size_t most = bytes / 80 < count ? bytes / 80 : count;
    begin(line);
    add(line, ",\"CityObjects\":{");
    for (size_t i = most - 1; i > 0; i--) {
        char before[32] = "b";
        if (i > 1)
            snprintf(before, sizeof before, "p%zu", i - 1);
        add(line, "\"p%zu\":{\"type\":\"Building\",\"parents\":[\"%s\"],\"children\":[", i, before);
        add(line, i + 1 < most ? "\"p%zu\"]}," : "]},", i + 1);
    }
    add(line, "\"b\":{\"type\":\"Building\",\"children\":[\"p1\"]}}}\n");
}

/* Parts with an instance each of a template of its own. */
static void instances(struct text *line, size_t bytes, size_t count)
{
    size_t most = bytes / 200 < count ? bytes / 200 : count;
    begin(line);
    add(line, ",\"CityObjects\":{\"b\":{\"type\":\"Building\"}");
    for (size_t i = 1; i < most; i++) {
        add(line, ",\"r%zu\":{\"type\":\"Road\",\"geometry\":[{\"type\":\"GeometryInstance\",\"template\":%zu,", i, i);
        add(line, "\"boundaries\":[0],\"transformationMatrix\":[1,0,0,0,0,1,0,0,0,0,1,0,0,0,0,1]}]}");
    }
    add(line, "}}\n");
}

/* A group of every second one of many roads. */
static void group(struct text *line, size_t bytes, size_t count)
{
    size_t most = bytes / 32 < count ? bytes / 32 : count;
    begin(line);
    add(line, ",\"CityObjects\":{\"b\":{\"type\":\"CityObjectGroup\",\"children\":[\"r0\"");
    for (size_t i = 2; i < most; i += 2)
        add(line, ",\"r%zu\"", i);
    add(line, "]}");
    for (size_t i = 0; i + 1 < most; i++)
        add(line, ",\"r%zu\":{\"type\":\"Road\"}", i);
    add(line, "}}\n");
}

/* Names of city objects that are as short as may be, and their values too. */
static void shortest(struct text *line, size_t bytes, size_t count)
{
    size_t most = (bytes - 200) / 5 < count - 1 ? (bytes - 200) / 5 : count - 1;
    begin(line);
    add(line, ",\"CityObjects\":{\"b\":{\"type\":\"Building\",\"children\":[\"\"]}");
    for (size_t i = 0; i < most; i++)
        add(line, ",\"\":0");
    add(line, "}}\n");
}

/* Parts of none but the last of many parents. */
static void parents(struct text *line, size_t bytes, size_t count)
{
    size_t most = (bytes - 300) / 10 < count ? (bytes - 300) / 10 : count;
    begin(line);
    add(line, ",\"CityObjects\":{\"b\":{\"type\":\"Building\",\"children\":[\"p\"]},\"p\":{\"type\":\"BuildingPart\",\"parents\":[");
    for (size_t i = 0; i < most; i++)
        add(line, "\"x%zu\",", i);
    add(line, "\"b\"]}}}\n");
}

/* Members of the feature that are unread, the last name first. */
static void names(struct text *line, size_t bytes, size_t count)
{
    size_t most = (bytes - 200) / 12 < count ? (bytes - 200) / 12 : count;
    begin(line);
    for (size_t i = most; i > 0; i--)
        add(line, ",\"n%zu\":0", i);
    add(line, ",\"CityObjects\":{\"b\":{\"type\":\"Building\"}}}\n");
}

/* ---- calls */

enum { check, filter, info, features, calls };
static const char *const call_names[calls] = { "check", "filter", "info", "features" };

struct run {
    struct text header, line;
    struct cityseq_request request;
    int call;
    char *output;
    struct cityseq_answer answer;
    char *top; /* where the call's stack begins */
};

static void *perform(void *given)
{
    struct run *run = given;
    const char *header = run->header.bytes, *part = run->line.bytes;
    size_t before = run->header.length, length = run->line.length;
    struct cityseq_tally *tally = (struct cityseq_tally *)run->output;
    struct cityseq_feature *record = (struct cityseq_feature *)run->output;
    char here;
    run->top = &here;
    if (run->call == check)
        run->answer = cityseq_check(header, before, part, length, &run->request, NULL, 0);
    else if (run->call == filter)
        run->answer =
            cityseq_filter(header, before, part, length, &run->request, run->output, before + length, NULL, 0);
    else if (run->call == info)
        run->answer = cityseq_info(header, before, part, length, &run->request, tally, NULL, 0);
    else
        run->answer = cityseq_features(header, before, part, length, &run->request, record, 1, NULL, 0);
    return NULL;
}

/* Performs the call in a thread on this stack, at whose low end is a page that may not be touched. */
static void perform_on(struct run *run, char *stack, size_t size)
{
    pthread_t thread;
    pthread_attr_t attributes;
    if (pthread_attr_init(&attributes) || pthread_attr_setstack(&attributes, stack + page, size) ||
        pthread_create(&thread, &attributes, perform, run) || pthread_join(thread, NULL))
        exit(3);
    pthread_attr_destroy(&attributes);
}

static char *new_stack(size_t size)
{
    char *stack = mmap(NULL, size + page, PROT_READ | PROT_WRITE, MAP_PRIVATE | MAP_ANONYMOUS, -1, 0);
    if (stack == MAP_FAILED || mprotect(stack, page, PROT_NONE))
        exit(3);
    return stack;
}

/* How many bytes of the stack the call takes, that of its caller's frame apart. */
static size_t taken(struct run *run)
{
    char *stack = new_stack(large), *low = stack + page;
    memset(low, pattern, large);
    perform_on(run, stack, large);
    while (*low == (char)pattern)
        low++;
    size_t bytes = (size_t)(run->top - low);
    munmap(stack, large + page);
    return bytes;
}

/* ---- test cases */

static unsigned passed, failed;

struct test_case {
    const char *name;
    void (*make)(struct text *, size_t, size_t);
    size_t limit, count; /* the line's bytes and the number of things, as far as the limit goes */
    size_t most;         /* the stack that is promised */
    uint32_t status[2];  /* how calls end, without `tree` and with it */
};

/* A header, with templates of many LoDs if they are asked for. */
static void add_header(struct text *header, bool templates)
{
    add(header, "{\"type\":\"CityJSON\",\"version\":\"2.0\",\"transform\":{\"scale\":[1,1,1],\"translate\":[0,0,0]},");
    add(header, "\"CityObjects\":{},\"vertices\":[]");
    if (templates) {
        add(header, ",\"geometry-templates\":{\"vertices-templates\":[[0,0,0]],\"templates\":[");
        for (size_t i = 0; i < 512; i++)
            add(header, "%s{\"type\":\"MultiPoint\",\"lod\":\"%zu\",\"boundaries\":[0]}", i ? "," : "", i % 4);
        add(header, "]}");
    }
    add(header, "}\n");
}

static void prepare(struct run *run, const struct test_case *tried)
{
    memset(run, 0, sizeof *run);
    add_header(&run->header, tried->make == instances);
    tried->make(&run->line, tried->limit, tried->count);
    run->request = (struct cityseq_request)CITYSEQ_USUAL;
    run->request.line_limit = tried->limit;
    run->output = malloc(run->header.length + run->line.length + sizeof(struct cityseq_tally));
    if (!run->output || run->line.length > tried->limit + 1)
        exit(3);
}

/* Tries one stream by each call, with `tree` and without it. */
static void try_case(const struct test_case *tried)
{
    struct run run;
    prepare(&run, tried);
    char *stack = new_stack(tried->most);
    printf("%-28s %9zu bytes:", tried->name, run.line.length - 1);
    for (int tree = 0; tree < 2; tree++) {
        for (run.call = 0; run.call < calls; run.call++) {
            run.request.tree = tree;
            run.request.asks_lods = run.call == filter;
            run.request.lods = "2";
            run.request.lods_length = run.call == filter;
            size_t bytes = taken(&run);
            printf(" %s%s %zu", call_names[run.call], tree ? "+tree" : "", bytes);
            fflush(stdout);
            perform_on(&run, stack, tried->most);
            bool held = bytes <= tried->most && bytes <= cityseq_stack(&run.request) &&
                        run.answer.status == tried->status[tree];
            passed += held;
            failed += !held;
        }
    }
    puts("");
    munmap(stack, tried->most + page);
    free(run.header.bytes);
    free(run.line.bytes);
    free(run.output);
}

/* 0 is CITYSEQ_COMPLETE, and 1 CITYSEQ_REFUSED */
enum { usual = 8388608, short_line = 65536, all = 1 << 30 };

static const struct test_case cases[] = {
    { "256 parts", parts, usual, 256, 65536, { 0, 0 } },
    { "a chain of 256", chain, usual, 256, 65536, { 0, 0 } },
    { "256 instances", instances, usual, 256, 65536, { 0, 1 } },
    { "a group of 256", group, usual, 256, 65536, { 0, 1 } },
    { "parts in 64 KB", parts, short_line, all, 131072, { 0, 0 } },
    { "a chain in 64 KB", chain, short_line, all, 131072, { 0, 0 } },
    { "a group in 64 KB", group, short_line, all, 131072, { 0, 1 } },
    { "shortest names in 64 KB", shortest, short_line, all, 131072, { 1, 1 } },
    { "parents in 64 KB", parents, short_line, all, 131072, { 0, 0 } },
    { "names in 64 KB", names, short_line, all, 131072, { 0, 0 } },
    { "parts in 8 MB", parts, usual, all, 2097152, { 0, 0 } },
    { "a chain in 8 MB", chain, usual, all, 2097152, { 0, 0 } },
    { "a group in 8 MB", group, usual, all, 2097152, { 0, 1 } },
    { "shortest names in 8 MB", shortest, usual, all, 2097152, { 1, 1 } },
    { "parents in 8 MB", parents, usual, all, 2097152, { 0, 0 } },
    { "names in 8 MB", names, usual, all, 2097152, { 0, 0 } },
};

int main(void)
{
    for (size_t i = 0; i < sizeof cases / sizeof *cases; i++)
        try_case(&cases[i]);
    printf("%u passed, %u failed\n", passed, failed);
    return failed != 0;
}
