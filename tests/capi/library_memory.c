/* Tries how much memory a call of the library for C takes.
 *
 *     library_memory
 *
 * The program counts the bytes of all blocks that a call has at one time. A block that realloc may move counts twice while it
 * moves. No call has more bytes than cityseq_memory says. If a call has no texts of a query and reads a valid header, it has
 * exactly that many. The last line is 'N passed, M failed', and the status is 0 if all passed. Link it with
 * -Wl,--wrap=malloc,--wrap=realloc,--wrap=free. */
#include "../../c/cityseq.h"
#include <inttypes.h>
#include <stdalign.h>
#include <stdio.h>
#include <stdlib.h>
#include <string.h>

static unsigned passed, failed;

/* ---- blocks */

static int counting;
static size_t live, peak;

/* What is before each block while calls are counted. */
union head {
    size_t size;
    max_align_t align;
};

void *__real_malloc(size_t size);
void *__real_realloc(void *block, size_t size);
void __real_free(void *block);

static void note(size_t bytes)
{
    peak = bytes > peak ? bytes : peak;
}

void *__wrap_malloc(size_t size)
{
    union head *head;
    if (!counting)
        return __real_malloc(size);
    head = __real_malloc(sizeof *head + size);
    if (!head)
        exit(3);
    head->size = size;
    live += size;
    note(live);
    return head + 1;
}

void *__wrap_realloc(void *block, size_t size)
{
    union head *head = block;
    if (!counting)
        return __real_realloc(block, size);
    if (!block)
        return __wrap_malloc(size);
    note(live + size);
    live += size - head[-1].size;
    head = __real_realloc(head - 1, sizeof *head + size);
    if (!head)
        exit(3);
    head->size = size;
    return head + 1;
}

void __wrap_free(void *block)
{
    union head *head = block;
    if (!counting || !block) {
        __real_free(block);
        return;
    }
    live -= head[-1].size;
    __real_free(head - 1);
}

/* ---- texts */

struct text {
    char *bytes;
    size_t length;
};

/* Returns this many texts of this many bytes each, numbers with zeros before them, with `between` between each two. */
static struct text numbers(size_t count, int digits, const char *between)
{
    struct text all = { malloc(count * ((size_t)digits + strlen(between) + 20) + 32), 0 };
    if (!all.bytes)
        exit(3);
    for (size_t i = 0; i < count; i++)
        all.length += (size_t)sprintf(all.bytes + all.length, "%s%0*zu", i ? between : "", digits, i);
    return all;
}

static const char header[] = "{\"type\":\"CityJSON\",\"version\":\"2.0\",\"transform\":{\"scale\":[1,1,1],\"translate\":[0,0,0]},"
                             "\"CityObjects\":{},\"vertices\":[]}\n";
static const char feature[] = "{\"type\":\"CityJSONFeature\",\"id\":\"b\",\"CityObjects\":{\"b\":{\"type\":\"Building\",\"geometry\":"
                              "[{\"type\":\"MultiPoint\",\"lod\":\"1\",\"boundaries\":[0]}]}},\"vertices\":[[0,0,0]%s]}\n";

/* Returns a part of this many features, each with as many vertices more. */
static struct text features_of(size_t count, size_t vertices)
{
    struct text more = numbers(vertices, 1, "],[0,0,"), all = { NULL, 0 };
    size_t room = sizeof feature + more.length + 16;
    char *line = malloc(room), *points = malloc(more.length + 16);
    all.bytes = malloc(count * room + 1);
    if (!line || !points || !all.bytes)
        exit(3);
    sprintf(points, vertices ? ",[0,0,%s]" : "", more.bytes);
    for (size_t i = 0; i < count; i++)
        all.length += (size_t)sprintf(all.bytes + all.length, feature, points);
    free(more.bytes), free(line), free(points);
    return all;
}

/* ---- calls */

enum { check, filter, info, features, calls };

static struct cityseq_answer perform(int call, const char *head, size_t head_length, struct text part,
                                     const struct cityseq_request *request, void *room, size_t room_length)
{
    size_t length = part.length, records = room_length / sizeof(struct cityseq_feature);
    if (call == check)
        return cityseq_check(head, head_length, part.bytes, length, request, NULL, 0);
    if (call == filter)
        return cityseq_filter(head, head_length, part.bytes, length, request, room, room_length, NULL, 0);
    if (call == info)
        return cityseq_info(head, head_length, part.bytes, length, request, room, NULL, 0);
    return cityseq_features(head, head_length, part.bytes, length, request, room, records, NULL, 0);
}

/* How much of what cityseq_memory says a call has at its peak. */
enum share { some, most, all };

static int is_within(size_t said, enum share share)
{
    if (share == all)
        return peak == said;
    return peak <= said && (share == some || (double)said <= 1.3 * (double)peak);
}

static void try_calls(const char *name, const char *head, struct text part, struct cityseq_request request, enum share share)
{
    size_t head_length = strlen(head), room_length = head_length + part.length + sizeof(struct cityseq_tally);
    size_t said = cityseq_memory(&request, head_length, part.length);
    char *room = malloc(room_length);
    if (!room)
        exit(3);
    for (int set = 0; set < 4; set++)
        for (int call = 0; call < calls; call++) {
            request.tree = set & 1, request.keep_going = set & 2;
            live = peak = 0, counting = 1;
            struct cityseq_answer answer = perform(call, head, head_length, part, &request, room, room_length);
            counting = 0;
            int held = !live && is_within(said, share) && cityseq_memory(&request, head_length, part.length) == said;
            passed += held, failed += !held;
            if (!held)
                printf("%s, call %d, set %d: status %" PRIu32 ", %zu bytes at most, %zu said, %zu left\n", name, call, set,
                       answer.status, peak, said, live);
        }
    free(room);
}

/* ---- test cases */

static void try_limits(const char *name, struct text part)
{
    static const uint64_t lines[] = { 1, 64, 4096, 65536, 8388608, 1073741824, 0, 1073741825, UINT64_MAX };
    static const uint64_t depths[] = { 1, 4, 64, 65, 1023, 1024, 0, 1025, UINT64_MAX };
    for (size_t i = 0; i < sizeof lines / sizeof *lines; i++)
        for (size_t k = 0; k < sizeof depths / sizeof *depths; k++) {
            struct cityseq_request request = CITYSEQ_USUAL;
            request.line_limit = lines[i], request.depth_limit = depths[k];
            int valid = lines[i] >= sizeof header - 2 && lines[i] <= 1073741824 && depths[k] >= 4 && depths[k] <= 1024;
            int wrong = !cityseq_memory(&request, 0, 0);
            try_calls(name, header, part, request, valid || wrong ? all : some);
        }
}

/* The parts of a query that have texts. */
enum query_part { ids, lods, types, query_parts };

static void ask(struct cityseq_request *request, enum query_part part, struct text texts)
{
    if (part == lods)
        request->asks_lods = true, request->lods = texts.bytes, request->lods_length = texts.length;
    else if (part == ids)
        request->asks_ids = true, request->ids = texts.bytes, request->ids_length = texts.length;
    else
        request->extensions = request->asks_types = true, request->types = texts.bytes, request->types_length = texts.length;
}

/* Returns this many names of types of extensions, of this many digits each. */
static struct text names_of(size_t count, int digits)
{
    struct text all = numbers(count, digits, "\n+");
    if (count) {
        memmove(all.bytes + 1, all.bytes, all.length++);
        *all.bytes = '+';
    }
    return all;
}

/* Tries a query of texts, alone and before a part of the query that is wrong. `share` is for one of ids at a small limit. */
static void try_texts(size_t count, int digits, enum share share, struct text part)
{
    struct text texts = numbers(count, digits, "\n"), names = names_of(count, digits);
    char name[64];
    snprintf(name, sizeof name, "%zu texts of %d bytes", count, digits);
    for (int set = 0; set <= query_parts; set++) {
        struct cityseq_request request = CITYSEQ_USUAL;
        request.line_limit = 4096;
        for (int query_part = 0; query_part < query_parts; query_part++)
            if (set == query_part || set == query_parts)
                ask(&request, query_part, query_part == types ? names : texts);
        try_calls(name, header, part, request, set == 0 ? share : some);
        request.asks_box = true, request.box = "1", request.box_length = 1;
        try_calls(name, header, part, request, some);
        request.asks_box = false, request.asks_lods = true, request.lods = "\xff", request.lods_length = 1;
        try_calls(name, header, part, request, some);
    }
    free(texts.bytes), free(names.bytes);
}

static void expect(const char *name, size_t told, size_t wanted)
{
    passed += told == wanted, failed += told != wanted;
    if (told != wanted)
        printf("%s: %zu, not %zu\n", name, told, wanted);
}

/* Numbers by hand. */
static void try_numbers(void)
{
    struct cityseq_request request = CITYSEQ_USUAL;
    expect("a line of 100 bytes", cityseq_memory(&request, 100, 90), 200 + 24 * 82);
    expect("a longer part", cityseq_memory(&request, 100, 1001), 2002 + 24 * 533);
    expect("the usual limits", cityseq_memory(&request, SIZE_MAX, SIZE_MAX), 2 * 8388608 + 24 * 4194336);
    expect("no byte", cityseq_memory(&request, 0, 0), 2 + 24 * 33);
    request.ids = "a\nb", request.ids_length = 3;
    expect("ids that are not asked for", cityseq_memory(&request, 100, 90), 200 + 24 * 82);
    request.asks_ids = true;
    expect("two ids", cityseq_memory(&request, 100, 90), 200 + 24 * 82 + 9 + 192 + 1024);
    request.asks_lods = true, request.lods = NULL;
    expect("no LoD", cityseq_memory(&request, 100, 90), 200 + 24 * 82 + 9 + 192 + 1024 + 1024);
    request.asks_lods = false, request.asks_types = true, request.types = "+Shed", request.types_length = 5;
    expect("a type without types of extensions", cityseq_memory(&request, 100, 90), 200 + 24 * 82 + 9 + 192 + 1024);
    request.extensions = true;
    expect("a type of an extension", cityseq_memory(&request, 100, 90), 200 + 24 * 82 + 9 + 192 + 1024 + 15 + 96 + 1024);
    request.asks_lods = true, request.asks_types = false;
    request.depth_limit = 65;
    expect("a depth of 65", cityseq_memory(&request, 100, 90), 200 + 24 * 83 + 260 + 9 + 192 + 1024 + 1024);
    request.depth_limit = 1025;
    expect("a wrong limit", cityseq_memory(&request, 100, 90), 0);
}

int main(void)
{
    struct text none = { NULL, 0 }, few = features_of(3, 0), many = features_of(2000, 2), long_ones = features_of(2, 20000);
    try_numbers();
    try_limits("few features", few);
    try_limits("long features", long_ones);
    struct cityseq_request usual = CITYSEQ_USUAL;
    try_calls("many features", header, many, usual, all);
    try_calls("no part", header, none, usual, all);
    try_calls("no header", "", none, usual, some);
    try_calls("no line", "{}", few, usual, some);
    try_calls("an invalid header", "{}\n", few, usual, some);
    try_texts(0, 1, some, few);
    try_texts(1, 1, some, few);
    try_texts(1, 100000, some, few);
    try_texts(1000, 1, some, few);
    try_texts(1000, 40, some, few);
    try_texts(65536, 7, some, few);
    try_texts(65537, 7, most, few);
    try_texts(65537, 1, most, few);
    free(few.bytes), free(many.bytes), free(long_ones.bytes);
    printf("%u passed, %u failed\n", passed, failed);
    return failed != 0;
}
