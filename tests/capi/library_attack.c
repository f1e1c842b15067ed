/* Attacks the library for C with streams that were changed at random, and with random requests.
 *
 *     library_attack guards|memory|threads SECONDS SEED STREAM..
 *
 * - guards: Each text and each room lies next to a page that may not be touched. The page is once
 *   after it and once before it. Texts may only be read. The four calls must agree with each other.
 * - memory: Each call of malloc and realloc fails once. The answer must be CITYSEQ_NO_MEMORY, and
 *   no room may have changed. No block may be left, also without a failure.
 * - threads: 64 threads judge parts of streams. Their joined answers must be those of the whole
 *   streams.
 *
 * The last line is 'N calls, M failed'. The status is 0 if none failed. A call that touches a page
 * ends the program by a signal. The line before it names the seed, and the same seed repeats the
 * run. */
#define _DEFAULT_SOURCE
#include "../../c/cityseq.h"
#include <pthread.h>
#include <stdio.h>
#include <stdlib.h>
#include <string.h>
#include <sys/mman.h>
#include <time.h>
#include <unistd.h>

enum { most_bytes = 1 << 20, most_reports = 64, most_records = 64, threads = 64, texts_of_a_request = 4 };

static unsigned long calls, failed;

static void *granted(void *block)
{
    if (!block)
        exit(3);
    return block;
}

/* ---- chance */

static uint64_t next_number(uint64_t *chance)
{
    *chance ^= *chance << 13, *chance ^= *chance >> 7, *chance ^= *chance << 17;
    return *chance;
}

static size_t below(uint64_t *chance, size_t limit)
{
    return limit ? next_number(chance) % limit : 0;
}

/* ---- streams */

struct text {
    char *bytes;
    size_t length;
};

static struct text *streams;
static size_t stream_count;

static void read_streams(char **names, int count)
{
    streams = granted(calloc(count, sizeof *streams));
    for (int i = 0; i < count; i++) {
        FILE *file = fopen(names[i], "rb");
        struct text all = {granted(malloc(most_bytes)), 0};
        if (!file)
            exit(2);
        all.length = fread(all.bytes, 1, most_bytes, file);
        fclose(file);
        if (all.length < most_bytes / 8)
            streams[stream_count++] = all;
        else
            free(all.bytes);
    }
}

/* One change: another byte, a piece left out, a piece twice, or a piece of another stream. */
static void change(struct text *all, uint64_t *chance)
{
    static const char telling[] = "{}[]\",:\\0123456789-.eE\n\r\t tfn\xff\xc3";
    size_t at = below(chance, all->length + 1), length = below(chance, 1 + below(chance, 200));
    const struct text *other = &streams[below(chance, stream_count)];
    switch (below(chance, 4)) {
    case 0:
        if (at < all->length)
            all->bytes[at] = below(chance, 3) ? telling[below(chance, sizeof telling - 1)] : (char)below(chance, 256);
        return;
    case 1:
        length = length < all->length - at ? length : all->length - at;
        memmove(all->bytes + at, all->bytes + at + length, all->length - at - length);
        all->length -= length;
        return;
    default:
        length = length < other->length ? length : other->length;
        if (all->length + length > most_bytes)
            return;
        memmove(all->bytes + at + length, all->bytes + at, all->length - at);
        memcpy(all->bytes + at, other->bytes + below(chance, other->length - length + 1), length);
        all->length += length;
    }
}

/* Returns a stream with some changes, in room for the most bytes. Most changes are after the
 * header, because an invalid header is the end of the stream. */
static struct text changed_stream(struct text room, uint64_t *chance)
{
    const struct text *model = &streams[below(chance, stream_count)];
    const char *end = memchr(model->bytes, '\n', model->length);
    size_t header = end && below(chance, 8) ? (size_t)(end - model->bytes) + 1 : 0;
    struct text rest = {room.bytes + header, model->length - header};
    memcpy(room.bytes, model->bytes, model->length);
    for (size_t i = below(chance, 6); i > 0; i--)
        change(&rest, chance);
    room.length = header + rest.length;
    return room;
}

/* Where the part begins: after the first LF, or sometimes elsewhere, which is a bad request. */
static size_t cut_of(struct text all, uint64_t *chance)
{
    const char *end = memchr(all.bytes, '\n', all.length);
    if (!below(chance, 50))
        return below(chance, all.length + 1);
    return end ? (size_t)(end - all.bytes) + 1 : all.length;
}

/* ---- requests */

static const char *const some_texts[texts_of_a_request][6] = {
    {"a", "b\nb1", "NL.IMBAG.Pand.1", "", "\n", "\xff"},
    {"Building", "Road\nBuildingPart", "House", "", "Building\n", "\xc3"},
    {"2.2", "1\n2", "", "0", "2.2\n1.3", "\x80"},
    {"0,0,1,1", "-1e3,-1e3,1e3,1e3", "84000,446000,86000,448000", "1,1,0,0", "0,0,1", "1e400,0,0,0"},
};

static struct cityseq_request some_request(uint64_t *chance, struct text *texts)
{
    static const uint64_t lines[] = {8388608, 1, 100, 300, 4096, 1073741824, 0, 1073741825};
    static const uint64_t depths[] = {64, 1, 3, 8, 1024, 0, 1025};
    struct cityseq_request r = CITYSEQ_USUAL;
    for (size_t i = 0; i < texts_of_a_request; i++) {
        const char *model = some_texts[i][below(chance, 6)];
        texts[i].length = strlen(model);
        texts[i].bytes = (char *)(uintptr_t)model;
    }
    if (below(chance, 4) == 0)
        r.line_limit = lines[below(chance, sizeof lines / sizeof *lines)];
    if (below(chance, 4) == 0)
        r.depth_limit = depths[below(chance, sizeof depths / sizeof *depths)];
    r.keep_going = below(chance, 2), r.tree = below(chance, 2), r.exclude = below(chance, 4) == 0;
    r.asks_ids = below(chance, 8) == 0, r.asks_types = below(chance, 8) == 0;
    r.asks_lods = below(chance, 8) == 0, r.asks_box = below(chance, 8) == 0;
    return r;
}

static void set_texts(struct cityseq_request *r, const struct text *texts)
{
    r->ids = texts[0].bytes, r->ids_length = texts[0].length;
    r->types = texts[1].bytes, r->types_length = texts[1].length;
    r->lods = texts[2].bytes, r->lods_length = texts[2].length;
    r->box = texts[3].bytes, r->box_length = texts[3].length;
}

/* ---- what the four calls answer */

struct answers {
    struct cityseq_answer check, filter, info, features;
};

/* Where all that a call is given lies. */
struct places {
    struct text header, part;
    const struct cityseq_request *request;
    char *output;
    size_t output_room, reports_room, records_room;
    struct cityseq_report *reports;
    struct cityseq_feature *records;
    struct cityseq_tally *tally;
};

static struct answers call_all(const struct places *p)
{
    struct answers a;
    a.check = cityseq_check(p->header.bytes, p->header.length, p->part.bytes, p->part.length, p->request, p->reports,
                            p->reports_room);
    a.filter = cityseq_filter(p->header.bytes, p->header.length, p->part.bytes, p->part.length, p->request, p->output,
                              p->output_room, p->reports, p->reports_room);
    a.info = cityseq_info(p->header.bytes, p->header.length, p->part.bytes, p->part.length, p->request, p->tally,
                          p->reports, p->reports_room);
    a.features = cityseq_features(p->header.bytes, p->header.length, p->part.bytes, p->part.length, p->request,
                                  p->records, p->records_room, p->reports, p->reports_room);
    __atomic_fetch_add(&calls, 4, __ATOMIC_RELAXED);
    return a;
}

/* Whether all calls answer the same. A filter with too little room may answer for fewer lines. */
static int agree(const struct answers *a, const struct places *p)
{
    struct cityseq_answer filter = a->filter;
    int full = filter.status == CITYSEQ_NO_ROOM, judged = filter.status != CITYSEQ_BAD_REQUEST;
    if (memcmp(&a->check, &a->info, sizeof a->check) || memcmp(&a->check, &a->features, sizeof a->check))
        return 0;
    if (filter.written > p->output_room || (full && p->output_room >= p->header.length + p->part.length))
        return 0;
    if (full)
        return filter.lines <= a->check.lines && filter.kept <= a->check.kept && filter.refused <= a->check.refused;
    filter.written = 0;
    if (memcmp(&a->check, &filter, sizeof filter))
        return 0;
    return !judged || a->check.status == CITYSEQ_REFUSED || p->tally->features == a->check.kept;
}

/* ---- pages that may not be touched */

struct guarded {
    char *pages; /* a page that may not be touched, some that may, and another one */
    size_t room; /* the bytes that may be touched */
    size_t page;
};

static struct guarded guarded_room(size_t length)
{
    struct guarded g = {NULL, 0, (size_t)sysconf(_SC_PAGESIZE)};
    g.room = (length + g.page) / g.page * g.page;
    g.pages = mmap(NULL, g.room + 2 * g.page, PROT_NONE, MAP_PRIVATE | MAP_ANONYMOUS, -1, 0);
    if (g.pages == MAP_FAILED || mprotect(g.pages + g.page, g.room, PROT_READ | PROT_WRITE))
        exit(3);
    return g;
}

/* Returns a place of `length` bytes, directly before the last page or after the first one. */
static void *place(const struct guarded *g, size_t length, int at_end)
{
    return g->pages + g->page + (at_end ? g->room - length : 0);
}

static struct text lay(const struct guarded *g, struct text model, int at_end)
{
    struct text laid = {place(g, model.length, at_end), model.length};
    if (mprotect(g->pages + g->page, g->room, PROT_READ | PROT_WRITE))
        exit(3);
    memcpy(laid.bytes, model.bytes, model.length);
    if (mprotect(g->pages + g->page, g->room, PROT_READ))
        exit(3);
    return laid;
}

struct guarded_places {
    struct guarded header, part, texts[texts_of_a_request], request, output, reports, records, tally;
};

static struct guarded_places guarded_places(void)
{
    struct guarded_places g = {
        .header = guarded_room(most_bytes), .part = guarded_room(most_bytes),
        .request = guarded_room(sizeof(struct cityseq_request)), .output = guarded_room(most_bytes),
        .reports = guarded_room(most_reports * sizeof(struct cityseq_report)),
        .records = guarded_room(most_records * sizeof(struct cityseq_feature)),
        .tally = guarded_room(sizeof(struct cityseq_tally)),
    };
    for (size_t i = 0; i < texts_of_a_request; i++)
        g.texts[i] = guarded_room(64);
    return g;
}

static void guard_once(const struct guarded_places *g, struct text room, uint64_t *chance)
{
    int at_end = below(chance, 2) != 0;
    struct text texts[texts_of_a_request], all = changed_stream(room, chance);
    struct cityseq_request r = some_request(chance, texts);
    size_t cut = cut_of(all, chance);
    struct places p = {
        .header = lay(&g->header, (struct text){all.bytes, cut}, at_end),
        .part = lay(&g->part, (struct text){all.bytes + cut, all.length - cut}, at_end),
        .output_room = below(chance, 3) ? all.length : below(chance, all.length + 1),
        .reports_room = below(chance, most_reports), .records_room = below(chance, most_records),
        .tally = place(&g->tally, sizeof(struct cityseq_tally), at_end),
    };
    for (size_t i = 0; i < texts_of_a_request; i++)
        texts[i] = lay(&g->texts[i], texts[i], at_end);
    set_texts(&r, texts);
    p.request = (void *)lay(&g->request, (struct text){(char *)&r, sizeof r}, at_end).bytes;
    p.output = place(&g->output, p.output_room, at_end);
    p.reports = place(&g->reports, p.reports_room * sizeof *p.reports, at_end);
    p.records = place(&g->records, p.records_room * sizeof *p.records, at_end);
    struct answers a = call_all(&p);
    if (!agree(&a, &p)) {
        printf("calls do not agree: check %u %u, filter %u %u\n", a.check.status, a.check.code, a.filter.status,
               a.filter.code);
        failed++;
    }
}

static void try_guards(double seconds, uint64_t chance)
{
    struct guarded_places g = guarded_places();
    struct text room = {granted(malloc(most_bytes)), 0};
    time_t end = time(NULL) + (time_t)seconds;
    do
        guard_once(&g, room, &chance);
    while (time(NULL) < end);
    free(room.bytes);
}

/* ---- memory that is refused */

static long blocks, requests_left = -1;
static int counting;

void *__real_malloc(size_t size);
void *__real_realloc(void *block, size_t size);
void __real_free(void *block);

static int is_refused(void)
{
    return counting && requests_left >= 0 && requests_left-- == 0;
}

void *__wrap_malloc(size_t size)
{
    void *block = is_refused() ? NULL : __real_malloc(size);
    blocks += counting && block;
    return block;
}

void *__wrap_realloc(void *block, size_t size)
{
    void *grown = is_refused() ? NULL : __real_realloc(block, size);
    blocks += counting && grown && !block;
    return grown;
}

void __wrap_free(void *block)
{
    blocks -= counting && block;
    __real_free(block);
}

static int is_all(const void *room, size_t length, int byte)
{
    const unsigned char *at = room;
    for (size_t i = 0; i < length; i++)
        if (at[i] != byte)
            return 0;
    return 1;
}

/* Filters with the request for memory of this number refused. Returns whether there was such a
 * request. */
static int refuse_once(struct places *p, long number, const struct cityseq_answer *granted_answer)
{
    memset(p->output, 7, p->output_room), memset(p->reports, 7, p->reports_room * sizeof *p->reports);
    counting = 1, blocks = 0, requests_left = number;
    struct cityseq_answer a = cityseq_filter(p->header.bytes, p->header.length, p->part.bytes, p->part.length, p->request,
                                             p->output, p->output_room, p->reports, p->reports_room);
    int was_refused = requests_left < 0;
    counting = 0, requests_left = -1, calls++;
    struct cityseq_answer none = {.status = CITYSEQ_NO_MEMORY};
    int right = was_refused ? !memcmp(&a, &none, sizeof a) && is_all(p->output, p->output_room, 7) &&
                                  is_all(p->reports, p->reports_room * sizeof *p->reports, 7)
                            : !memcmp(&a, granted_answer, sizeof a);
    if (blocks || !right) {
        printf("request %ld: status %u, %ld blocks are left\n", number, a.status, blocks);
        failed++;
    }
    return was_refused;
}

static void refuse_each(struct text room, char *output, uint64_t *chance)
{
    struct cityseq_report reports[8];
    struct text texts[texts_of_a_request], all = changed_stream(room, chance);
    struct cityseq_request r = some_request(chance, texts);
    size_t cut = cut_of(all, chance);
    struct places p = {.header = {all.bytes, cut}, .part = {all.bytes + cut, all.length - cut}, .request = &r,
                       .output = output, .output_room = all.length, .reports = reports, .reports_room = 8};
    set_texts(&r, texts);
    struct cityseq_answer a = cityseq_filter(p.header.bytes, p.header.length, p.part.bytes, p.part.length, &r, output,
                                             p.output_room, reports, 8);
    calls++;
    for (long number = 0; refuse_once(&p, number, &a); number++)
        ;
}

static void try_memory(double seconds, uint64_t chance)
{
    struct text room = {granted(malloc(most_bytes)), 0};
    char *output = granted(malloc(most_bytes));
    time_t end = time(NULL) + (time_t)seconds;
    do
        refuse_each(room, output, &chance);
    while (time(NULL) < end);
    free(room.bytes), free(output);
}

/* ---- threads */

struct worker {
    pthread_t thread;
    uint64_t chance;
    time_t end;
    unsigned long wrong;
};

/* Returns the answer for a header and a part, joined from the answers for pieces that are cut at
 * random. */
static struct cityseq_answer judge_pieces(struct text header, struct text part, const struct cityseq_request *r,
                                          uint64_t *chance)
{
    struct cityseq_answer all, next;
    size_t at = cityseq_part_end(part.bytes, part.length, below(chance, part.length + 1));
    all = cityseq_check(header.bytes, header.length, part.bytes, at, r, NULL, 0);
    while (at < part.length && all.status == CITYSEQ_COMPLETE) {
        size_t length = cityseq_part_end(part.bytes + at, part.length - at, below(chance, 4000));
        length = length ? length : part.length - at;
        next = cityseq_check(header.bytes, header.length, part.bytes + at, length, r, NULL, 0);
        all = cityseq_answer_then(&all, &next, header.length);
        at += length;
    }
    return all;
}

static int joins_differ(struct text all, uint64_t *chance)
{
    struct text texts[texts_of_a_request];
    struct cityseq_request r = some_request(chance, texts);
    const char *end = memchr(all.bytes, '\n', all.length);
    size_t cut = end ? (size_t)(end - all.bytes) + 1 : all.length;
    struct text header = {all.bytes, cut}, part = {all.bytes + cut, all.length - cut};
    set_texts(&r, texts);
    struct cityseq_answer whole = cityseq_check(header.bytes, header.length, part.bytes, part.length, &r, NULL, 0);
    struct cityseq_answer joined = judge_pieces(header, part, &r, chance);
    if (whole.status != CITYSEQ_COMPLETE)
        joined.peak_bytes = whole.peak_bytes, joined.peak_tokens = whole.peak_tokens, joined.peak_depth = whole.peak_depth;
    __atomic_fetch_add(&calls, 2, __ATOMIC_RELAXED);
    return memcmp(&whole, &joined, sizeof whole) != 0;
}

static void *work(void *given)
{
    struct worker *worker = given;
    struct text room = {granted(malloc(most_bytes)), 0};
    do
        worker->wrong += joins_differ(changed_stream(room, &worker->chance), &worker->chance);
    while (time(NULL) < worker->end);
    free(room.bytes);
    return NULL;
}

static void try_threads(double seconds, uint64_t chance)
{
    struct worker workers[threads];
    for (size_t i = 0; i < threads; i++) {
        workers[i] = (struct worker){.chance = chance + i, .end = time(NULL) + (time_t)seconds};
        next_number(&workers[i].chance);
        if (pthread_create(&workers[i].thread, NULL, work, &workers[i]))
            exit(3);
    }
    for (size_t i = 0; i < threads; i++) {
        pthread_join(workers[i].thread, NULL);
        failed += workers[i].wrong;
    }
}

int main(int count, char **words)
{
    if (count < 5)
        return 2;
    double seconds = strtod(words[2], NULL);
    uint64_t seed = strtoull(words[3], NULL, 10) * 2654435761u + 88172645463325252u;
    read_streams(words + 4, count - 4);
    printf("%s, seed %s\n", words[1], words[3]);
    fflush(stdout);
    if (!strcmp(words[1], "guards"))
        try_guards(seconds, seed);
    else if (!strcmp(words[1], "memory"))
        try_memory(seconds, seed);
    else if (!strcmp(words[1], "threads"))
        try_threads(seconds, seed);
    else
        return 2;
    printf("%lu calls, %lu failed\n", calls, failed);
    return failed != 0;
}
