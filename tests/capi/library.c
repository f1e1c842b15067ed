/* Tries the library for C on a stream on standard input.
 *
 *     library LINE_LIMIT DEPTH [OPTION..] < STREAM     options as the program has them
 *     library cases                                    cases of wrong requests, room and threads
 *
 * It filters and tallies the stream in three ways:
 *
 * - As a header and one part.
 * - As a header and two parts, cut after each LF.
 * - As a header and a part for each line.
 *
 * The joined answers of the parts must be the answer of the one part. It also filters into too
 * little room, and goes on from there. It prints the answer of the one part, the reports, and the
 * output. Its status is 0 if all is the same. If something differs, it is 1, with a line on
 * standard error. */
#include "../../c/cityseq.h"
#include <pthread.h>
#include <stdio.h>
#include <stdlib.h>
#include <string.h>

enum { threads = 8, rounds = 50, rooms = 9 };

/* This number of the interface must keep these sizes. A library may replace another of the same
 * number, and its callers are not built again. */
_Static_assert(CITYSEQ_INTERFACE == 3, "the sizes below are those of interface 3");
_Static_assert(sizeof(struct cityseq_request) == 88 && sizeof(struct cityseq_report) == 32, "sizes");
_Static_assert(sizeof(struct cityseq_answer) == 96 && sizeof(struct cityseq_feature) == 160, "sizes");
_Static_assert(sizeof(struct cityseq_tally) == 552, "sizes");

/* The results for a stream, joined from its parts. */
struct joined {
    struct cityseq_answer answer;
    struct cityseq_tally tally;
    struct cityseq_report *reports;
    char *output;
    uint64_t bytes; /* of the parts */
};

struct text {
    const char *bytes;
    size_t length;
};

static void *room(size_t size)
{
    void *found = malloc(size + 1);
    if (!found)
        exit(3);
    return found;
}

/* The answer for a header and one part. */
static struct joined judge(struct text header, struct text part, const struct cityseq_request *request)
{
    struct joined found;
    size_t lines = 1, length = header.length + part.length;
    memset(&found, 0, sizeof found);
    found.bytes = part.length;
    for (size_t i = 0; i < part.length; i++)
        lines += part.bytes[i] == '\n';
    found.reports = room(sizeof *found.reports * (lines + 1));
    found.output = room(length);
    found.answer = cityseq_filter(header.bytes, header.length, part.bytes, part.length, request, found.output, length,
                                  found.reports, lines);
    struct cityseq_report none;
    struct cityseq_answer tallied =
        cityseq_info(header.bytes, header.length, part.bytes, part.length, request, &found.tally, &none, 0);
    tallied.written = found.answer.written;
    struct cityseq_answer checked =
        cityseq_check(header.bytes, header.length, part.bytes, part.length, request, &none, 0);
    checked.written = found.answer.written;
    if (memcmp(&tallied, &found.answer, sizeof tallied) || memcmp(&checked, &found.answer, sizeof checked)) {
        fprintf(stderr, "check, filter and tally answer differently\n");
        exit(1);
    }
    return found;
}

/* Joins the results of the parts so far with those of the next part. */
static void join(struct joined *all, struct joined next, size_t header)
{
    uint64_t before = all->answer.lines - 1, reports = all->answer.refused, written = all->answer.written;
    all->answer = cityseq_answer_then(&all->answer, &next.answer, header);
    all->tally = cityseq_tally_then(&all->tally, &next.tally);
    all->reports = realloc(all->reports, sizeof *all->reports * (all->answer.refused + 1));
    all->output = realloc(all->output, all->answer.written + 1);
    if (!all->reports || !all->output)
        exit(3);
    for (uint64_t i = 0; i < next.answer.refused; i++) {
        all->reports[reports + i] = next.reports[i];
        all->reports[reports + i].line += before;
        all->reports[reports + i].begin += all->bytes;
    }
    all->bytes += next.bytes;
    if (next.answer.written)
        memcpy(all->output + written, next.output + header, next.answer.written - header);
    free(next.reports);
    free(next.output);
}

static void forget(struct joined found)
{
    free(found.reports);
    free(found.output);
}

/* Whether both are the same. The peaks of a stream with an invalid line are only bounded. */
static int same(const struct joined *a, struct joined b)
{
    if (b.answer.status != CITYSEQ_COMPLETE) {
        b.answer.peak_bytes = a->answer.peak_bytes;
        b.answer.peak_tokens = a->answer.peak_tokens;
        b.answer.peak_depth = a->answer.peak_depth;
    }
    return !memcmp(&a->answer, &b.answer, sizeof b.answer) && !memcmp(&a->tally, &b.tally, sizeof b.tally) &&
           !memcmp(a->reports, b.reports, sizeof *b.reports * b.answer.refused) &&
           !memcmp(a->output, b.output, b.answer.written);
}

/* The whole as its lines up to each of these cuts, one part after another. */
static struct joined judge_parts(struct text header, struct text rest, const size_t *cuts, size_t count,
                                 const struct cityseq_request *request)
{
    struct text part = {rest.bytes, count ? cuts[0] : rest.length};
    struct joined all = judge(header, part, request);
    for (size_t i = 0; i < count && all.answer.status == CITYSEQ_COMPLETE; i++) {
        size_t end = i + 1 < count ? cuts[i + 1] : rest.length;
        part.bytes = rest.bytes + cuts[i];
        part.length = end - cuts[i];
        join(&all, judge(header, part, request), header.length);
    }
    return all;
}

/* Where the first lines of a stream end, in bytes after the header. */
static size_t end_of_lines(struct text rest, uint64_t lines)
{
    size_t at = 0;
    for (uint64_t line = 1; line < lines; line++) {
        const char *end = memchr(rest.bytes + at, '\n', rest.length - at);
        at = end ? (size_t)(end - rest.bytes) + 1 : rest.length;
    }
    return at;
}

/* Whether a filter with too little room gives for its first lines what a filter of these alone
 * gives. The lines after them must give the rest of the output. */
static int goes_on(struct text header, struct text rest, const struct cityseq_request *request, const struct joined *whole,
                   const struct joined *little)
{
    if (little->answer.status != CITYSEQ_NO_ROOM)
        return 0;
    if (!little->answer.lines)
        return !little->answer.written && !little->answer.kept && !little->answer.refused;
    size_t end = end_of_lines(rest, little->answer.lines);
    struct text front = {rest.bytes, end}, back = {rest.bytes + end, rest.length - end};
    struct joined first = judge(header, front, request), next = judge(header, back, request);
    size_t written = first.answer.written;
    int holds = first.answer.status == CITYSEQ_COMPLETE && first.answer.lines == little->answer.lines &&
                first.answer.kept == little->answer.kept && first.answer.refused == little->answer.refused &&
                written == little->answer.written && !memcmp(first.output, little->output, written) &&
                !memcmp(first.reports, little->reports, sizeof *first.reports * first.answer.refused) &&
                written + next.answer.written - header.length == whole->answer.written &&
                !memcmp(next.output + header.length, whole->output + written, whole->answer.written - written);
    forget(first);
    forget(next);
    return holds;
}

/* Filters into room of several sizes. */
static int try_rooms(struct text header, struct text rest, const struct cityseq_request *request, const struct joined *whole)
{
    int wrong = 0;
    for (size_t i = 0; i < rooms; i++) {
        size_t size = whole->answer.written * i / (rooms - 1);
        struct joined little = *whole;
        little.output = room(size);
        little.reports = room(sizeof *little.reports * (whole->answer.refused + 1));
        little.answer = cityseq_filter(header.bytes, header.length, rest.bytes, rest.length, request, little.output, size,
                                       little.reports, whole->answer.refused + 1);
        if (i + 1 < rooms && size < whole->answer.written ? !goes_on(header, rest, request, whole, &little) : !same(whole, little)) {
            fprintf(stderr, "room for %zu bytes of output: another answer\n", size);
            wrong++;
        }
        forget(little);
    }
    return wrong != 0;
}

static int try_cuts(struct text header, struct text rest, const struct cityseq_request *request, const struct joined *whole)
{
    size_t *cuts = room(sizeof *cuts * (rest.length + 1)), count = 0, wrong = 0;
    for (size_t i = 0; i < rest.length; i++)
        if (rest.bytes[i] == '\n')
            cuts[count++] = i + 1;
    for (size_t i = 0; i <= count; i++) {
        struct joined parts = i < count ? judge_parts(header, rest, &cuts[i], 1, request)
                                        : judge_parts(header, rest, cuts, count, request);
        if (!same(whole, parts)) {
            fprintf(stderr, "cut %zu of %zu: another answer\n", i, count);
            wrong++;
        }
        forget(parts);
    }
    free(cuts);
    return wrong != 0;
}

static void show(const struct joined *found)
{
    struct cityseq_answer a = found->answer;
    printf("%u %u %llu %llu %llu %llu %llu %llu %llu %llu %llu\n", a.status, a.code, (unsigned long long)a.line,
           (unsigned long long)a.place, (unsigned long long)a.lines, (unsigned long long)a.kept,
           (unsigned long long)a.refused, (unsigned long long)a.peak_bytes, (unsigned long long)a.peak_tokens,
           (unsigned long long)a.peak_depth, (unsigned long long)a.written);
    for (uint64_t i = 0; i < a.refused; i++)
        printf("%llu %llu %llu\n", (unsigned long long)found->reports[i].line,
               (unsigned long long)found->reports[i].place, (unsigned long long)found->reports[i].code);
    fwrite(found->output, 1, a.written, stdout);
}

/* Returns texts with LFs between them, from texts with commas between them. */
static const char *with_lfs(const char *word)
{
    char *text = room(strlen(word));
    strcpy(text, word);
    for (char *at = text; *at; at++)
        *at = *at == ',' ? '\n' : *at;
    return text;
}

/* Takes an option of the program, with the word after it if it has one. Returns how many words it
 * took. */
static int take_option(struct cityseq_request *request, const char *word, const char *next)
{
    if (!strcmp(word, "--tree"))
        return request->tree = 1;
    if (!strcmp(word, "--extensions"))
        return request->extensions = 1;
    if (!strcmp(word, "--exclude"))
        return request->exclude = 1;
    if (!strcmp(word, "--keep-going"))
        return request->keep_going = 1;
    const char *value = strchr(word, '=') ? strchr(word, '=') + 1 : next;
    if (!strncmp(word, "--bbox", 6)) {
        request->asks_box = 1;
        request->box = value;
        request->box_length = strlen(value);
    } else if (!strncmp(word, "--id", 4)) {
        request->asks_ids = 1;
        request->ids = with_lfs(value);
        request->ids_length = strlen(value);
    } else if (!strncmp(word, "--type", 6)) {
        request->asks_types = 1;
        request->types = with_lfs(value);
        request->types_length = strlen(value);
    } else if (!strncmp(word, "--lod", 5)) {
        request->asks_lods = 1;
        request->lods = with_lfs(value);
        request->lods_length = strlen(value);
    } else {
        exit(2);
    }
    return value == next ? 2 : 1;
}

static struct text read_all(void)
{
    size_t length = 0, size = 1 << 16;
    char *bytes = room(size);
    for (size_t n; (n = fread(bytes + length, 1, size - length, stdin)) > 0;) {
        length += n;
        if (length == size && !(bytes = realloc(bytes, size *= 2)))
            exit(3);
    }
    struct text found = {bytes, length};
    return found;
}

static int try_stream(int count, char **words)
{
    struct cityseq_request request = CITYSEQ_USUAL;
    request.line_limit = strtoull(words[1], NULL, 10);
    request.depth_limit = strtoull(words[2], NULL, 10);
    for (int i = 3; i < count;)
        i += take_option(&request, words[i], i + 1 < count ? words[i + 1] : "");
    struct text all = read_all();
    const char *end = memchr(all.bytes, '\n', all.length);
    size_t length = end ? (size_t)(end - all.bytes) + 1 : all.length;
    struct text header = {all.bytes, length}, rest = {all.bytes + length, all.length - length};
    struct joined whole = judge(header, rest, &request);
    show(&whole);
    return try_cuts(header, rest, &request, &whole) | try_rooms(header, rest, &request, &whole);
}

/* ---- test cases */

static const char header_line[] = "{\"type\":\"CityJSON\",\"version\":\"2.0\",\"transform\":{\"scale\":[1,1,1],"
                                  "\"translate\":[0,0,0]},\"CityObjects\":{},\"vertices\":[]}\n";
static const char good_line[] = "{\"type\":\"CityJSONFeature\",\"id\":\"b\",\"CityObjects\":{\"b\":{\"type\":\"Building\"}},"
                                "\"vertices\":[]}\n";
static int failed, passed;

static void test_case(const char *name, int holds)
{
    passed += holds != 0;
    failed += holds == 0;
    if (!holds)
        printf("%s: failed\n", name);
}

/* The answer for a header and a good feature. */
static struct cityseq_answer ask(const struct cityseq_request *request, const char *header, const char *part)
{
    struct cityseq_report none;
    return cityseq_check(header, strlen(header), part, strlen(part), request, &none, 0);
}

static void refuses(const char *name, struct cityseq_request request, enum cityseq_fault fault)
{
    struct cityseq_answer answer = ask(&request, header_line, good_line);
    test_case(name, answer.status == CITYSEQ_BAD_REQUEST && answer.code == fault &&
                        answer.lines == 0 && !answer.list && !answer.item);
}

/* Whether a request is refused for an item of a list. */
static void places(const char *name, struct cityseq_request request, enum cityseq_fault fault, enum cityseq_list list,
                   uint64_t item)
{
    struct cityseq_answer answer = ask(&request, header_line, good_line);
    test_case(name, answer.status == CITYSEQ_BAD_REQUEST && answer.code == fault &&
                        answer.list == list && answer.item == item);
}

/* The same for a number of a box. */
static void boxes(const char *box, enum cityseq_fault fault, uint64_t item)
{
    struct cityseq_request r = CITYSEQ_USUAL;
    r.asks_box = 1, r.box = box, r.box_length = strlen(box), places(box, r, fault, CITYSEQ_LIST_BOX, item);
}

static void wrong_requests(void)
{
    struct cityseq_request usual = CITYSEQ_USUAL, r = usual;
    r.line_limit = 0, refuses("no line limit", r, CITYSEQ_LINE_LIMIT);
    r.line_limit = 1073741825, refuses("a line limit above 2^30", r, CITYSEQ_LINE_LIMIT);
    r = usual, r.depth_limit = 0, refuses("no depth", r, CITYSEQ_DEPTH_LIMIT);
    r = usual, r.depth_limit = 1025, refuses("a depth above 1,024", r, CITYSEQ_DEPTH_LIMIT);
    struct cityseq_answer answer = ask(&usual, "{}", good_line);
    test_case("a header without LF",
              answer.status == CITYSEQ_BAD_REQUEST && answer.code == CITYSEQ_NO_LINE);
    answer = ask(&usual, "{}\n{}\n", "");
    test_case("a header of two lines",
              answer.status == CITYSEQ_BAD_REQUEST && answer.code == CITYSEQ_NO_LINE);
    answer = ask(&usual, "", "");
    test_case("nothing at all",
              answer.status == CITYSEQ_REFUSED && answer.code == 1 && answer.line == 1);
}

/* Which text or number has the fault: the first one that breaks a rule, counted from 0. */
static void wrong_items(void)
{
    struct cityseq_request usual = CITYSEQ_USUAL, r = usual;
    r.asks_types = 1, r.types = "Building\nHouse\nHut", r.types_length = 18;
    places("an unknown type", r, CITYSEQ_UNKNOWN_TYPE, CITYSEQ_LIST_TYPES, 1);
    r.types = "Road\n\nRoad", r.types_length = 10, places("an empty type", r, CITYSEQ_UNKNOWN_TYPE, CITYSEQ_LIST_TYPES, 1);
    r.types = "Road\nRoad\xc3", r.types_length = 10, places("a cut type", r, CITYSEQ_NOT_UTF8, CITYSEQ_LIST_TYPES, 1);
    r.types = "Road\n+Hut", r.types_length = 9;
    places("a type of an extension", r, CITYSEQ_UNKNOWN_TYPE, CITYSEQ_LIST_TYPES, 1);
    r.extensions = 1, r.types = "+Hut\nRoad\nHut", r.types_length = 13;
    places("a type after one of an extension", r, CITYSEQ_UNKNOWN_TYPE, CITYSEQ_LIST_TYPES, 2);
    r.extensions = 0, r.types = "Road\nHut", r.types_length = 8, r.asks_ids = 1, r.ids = "\xff", r.ids_length = 1;
    places("an id before a type", r, CITYSEQ_NOT_UTF8, CITYSEQ_LIST_IDS, 0);
    r = usual, r.asks_ids = 1, r.ids = "a\n\n\xff\xff\nb\n\xff", r.ids_length = 8;
    places("the third id", r, CITYSEQ_NOT_UTF8, CITYSEQ_LIST_IDS, 2);
    r = usual, r.asks_lods = 1, r.lods = "2\n\x80", r.lods_length = 3, r.types = "\xff", r.types_length = 1;
    places("an LoD", r, CITYSEQ_NOT_UTF8, CITYSEQ_LIST_LODS, 1);
    boxes("0,0,\xff,1", CITYSEQ_NOT_UTF8, 2);
    boxes("", CITYSEQ_BAD_BOX, 0);
    boxes("1,2,3", CITYSEQ_BAD_BOX, 3);
    boxes("1,2,3,", CITYSEQ_BAD_BOX, 3);
    boxes("1,2,3,4,5", CITYSEQ_BAD_BOX, 4);
    boxes("1,2,3,4,5,x", CITYSEQ_BAD_BOX, 4);
    boxes("1, 2,3,4", CITYSEQ_BAD_BOX, 1);
    boxes("1e99,2,+3,4", CITYSEQ_BAD_BOX, 2);
    boxes("0,0,1e18,1", CITYSEQ_BOX_RANGE, 2);
    boxes("0,0,1,1e-19", CITYSEQ_BOX_RANGE, 3);
    boxes("1,0,0,1", CITYSEQ_EMPTY_BOX, 0);
    boxes("1,1,0,0", CITYSEQ_EMPTY_BOX, 0);
    boxes("0,1,0,0", CITYSEQ_EMPTY_BOX, 1);
}

/* What a query of some texts keeps of the good feature. */
static void keeps(const char *name, const char *ids, size_t length, uint64_t kept)
{
    struct cityseq_request r = CITYSEQ_USUAL;
    r.asks_ids = 1, r.ids = ids, r.ids_length = length;
    struct cityseq_answer answer = ask(&r, header_line, good_line);
    test_case(name, answer.status == CITYSEQ_COMPLETE && answer.kept == kept && answer.lines == 2);
}

static void queries(void)
{
    keeps("its id", "b", 1, 1);
    keeps("its id behind another", "a\nb", 3, 1);
    keeps("another id", "a", 1, 0);
    keeps("no id", "", 0, 0);
    keeps("the empty id", "\n", 1, 0);
}

/* Whether these bytes are all x. */
static int are_xs(const char *bytes, size_t length)
{
    for (size_t i = 0; i < length; i++)
        if (bytes[i] != 'x')
            return 0;
    return 1;
}

/* A filter changes nothing after its output, whether all of it fits or not. */
static void longer_room(void)
{
    struct cityseq_request r = CITYSEQ_USUAL;
    char part[400], out[400];
    size_t header = strlen(header_line), good = strlen(good_line), all = header + good, length;
    memset(out, 'x', sizeof out);
    struct cityseq_answer a = cityseq_filter(header_line, header, good_line, good, &r, out, all + 10, NULL, 0);
    test_case("ten bytes too many", a.status == CITYSEQ_COMPLETE && a.written == all &&
                                        are_xs(out + all, sizeof out - all));
    length = (size_t)snprintf(part, sizeof part, "%s%s", good_line, good_line);
    memset(out, 'x', sizeof out);
    a = cityseq_filter(header_line, header, part, length, &r, out, all + 10, NULL, 0);
    test_case("no room for the second line",
              a.status == CITYSEQ_NO_ROOM && a.written == all && a.lines == 2);
    test_case("nothing of that line", are_xs(out + all, sizeof out - all));
}

static void little_room(void)
{
    struct cityseq_request r = CITYSEQ_USUAL;
    struct cityseq_report reports[2] = {{7, 7, 7, 7}, {7, 7, 7, 7}};
    char part[400], out[400];
    size_t header = strlen(header_line), good = strlen(good_line), length;
    length = (size_t)snprintf(part, sizeof part, "{\n%s[\n", good_line);
    memset(out, 'x', sizeof out);
    r.keep_going = 1;
    struct cityseq_answer a = cityseq_filter(header_line, header, part, length, &r, out, header + good, reports, 1);
    test_case("one report of two", a.status == CITYSEQ_COMPLETE && a.refused == 2 &&
                                       reports[0].line == 2 && reports[0].place == 1 &&
                                       reports[0].code == 4 && reports[1].line == 7);
    test_case("room for the output alone", a.written == header + good &&
                                               out[header + good] == 'x' &&
                                               !memcmp(out, header_line, header) &&
                                               !memcmp(out + header, good_line, good));
    a = cityseq_filter(header_line, header, part, length, &r, out, header + good - 1, reports, 1);
    test_case("a byte too little",
              a.status == CITYSEQ_NO_ROOM && a.written == header && a.lines == 2 && a.refused == 1);
    a = cityseq_filter(header_line, header, part, length, &r, out, 0, reports, 0);
    test_case("no room",
              a.status == CITYSEQ_NO_ROOM && a.written == 0 && a.lines == 0 && a.refused == 0);
}

/* Whether a call that judged nothing left all as it was, and answers only a status and a code. */
static int is_untouched(struct cityseq_answer answer, const char *out, size_t length, const struct cityseq_report *report,
                        const struct cityseq_tally *tally)
{
    static const struct cityseq_report seven = {7, 7, 7, 7};
    struct cityseq_answer nothing = {0};
    struct cityseq_tally sevens;
    nothing.status = answer.status, nothing.code = answer.code;
    memset(&sevens, 7, sizeof sevens);
    for (size_t i = 0; i < length; i++)
        if (out[i] != 'x')
            return 0;
    return !memcmp(&answer, &nothing, sizeof answer) && !memcmp(report, &seven, sizeof seven) &&
           !memcmp(tally, &sevens, sizeof sevens);
}

static void nothing_judged(void)
{
    struct cityseq_request r = CITYSEQ_USUAL;
    struct cityseq_report report = {7, 7, 7, 7};
    struct cityseq_tally tally;
    char out[400];
    size_t header = strlen(header_line), good = strlen(good_line);
    memset(out, 'x', sizeof out);
    memset(&tally, 7, sizeof tally);
    r.line_limit = 0;
    struct cityseq_answer a = cityseq_check(header_line, header, good_line, good, &r, &report, 1);
    test_case("a check of a bad request",
              a.status == CITYSEQ_BAD_REQUEST && is_untouched(a, out, sizeof out, &report, &tally));
    a = cityseq_filter(header_line, header, good_line, good, &r, out, sizeof out, &report, 1);
    test_case("a filter of a bad request",
              a.status == CITYSEQ_BAD_REQUEST && is_untouched(a, out, sizeof out, &report, &tally));
    a = cityseq_info(header_line, header, good_line, good, &r, &tally, &report, 1);
    test_case("a tally of a bad request",
              a.status == CITYSEQ_BAD_REQUEST && is_untouched(a, out, sizeof out, &report, &tally));
}

static int are_same(struct cityseq_answer a, struct cityseq_answer b) { return !memcmp(&a, &b, sizeof a); }

/* Joins where the next part was not judged, where its header did not fit, or where it has an
 * invalid line. */
static void joins(void)
{
    struct cityseq_request r = CITYSEQ_USUAL;
    struct cityseq_report none;
    char out[400];
    size_t header = strlen(header_line), good = strlen(good_line);
    struct cityseq_answer first = cityseq_filter(header_line, header, good_line, good, &r, out, sizeof out, &none, 0), next, all;
    next = cityseq_filter(header_line, header, good_line, good, &r, out, header - 1, &none, 0);
    all = cityseq_answer_then(&first, &next, header);
    next = first, next.status = CITYSEQ_NO_ROOM;
    test_case("a part whose header does not fit",
              are_same(all, next) && first.lines == 2 && first.written == header + good);
    r.depth_limit = 0, next = ask(&r, header_line, good_line), all = cityseq_answer_then(&first, &next, header);
    next = first, next.status = CITYSEQ_BAD_REQUEST, next.code = CITYSEQ_DEPTH_LIMIT;
    test_case("a bad request", are_same(all, next));
    r.depth_limit = 64, r.asks_types = 1, r.types = "Road\nHut", r.types_length = 8;
    next = ask(&r, header_line, good_line), all = cityseq_answer_then(&first, &next, header);
    next = first, next.status = CITYSEQ_BAD_REQUEST, next.code = CITYSEQ_UNKNOWN_TYPE;
    next.list = CITYSEQ_LIST_TYPES, next.item = 1, r.asks_types = 0;
    test_case("a bad request with its place", are_same(all, next));
    memset(&next, 0, sizeof next), next.status = CITYSEQ_NO_MEMORY, all = cityseq_answer_then(&first, &next, header);
    next = first, next.status = CITYSEQ_NO_MEMORY;
    test_case("a part without memory", are_same(all, next));
    test_case("nothing after that", are_same(cityseq_answer_then(&all, &first, header), all));
    next = ask(&r, header_line, "{\n"), all = cityseq_answer_then(&first, &next, header);
    test_case("a part with an invalid line", all.status == CITYSEQ_REFUSED && all.line == 3 &&
                                                 all.place == 1 && all.code == 4 &&
                                                 all.lines == 2 && all.kept == 1 &&
                                                 all.written == header + good);
    test_case("nothing after that either",
              are_same(cityseq_answer_then(&all, &first, header), all));
}

/* Joins where the output of the next part has no room for its last line. */
static void joins_without_room(void)
{
    struct cityseq_request r = CITYSEQ_USUAL;
    char part[400], out[400];
    size_t header = strlen(header_line), good = strlen(good_line), length;
    r.keep_going = 1;
    struct cityseq_answer first = cityseq_filter(header_line, header, good_line, good, &r, out, header + good, NULL, 0);
    length = (size_t)snprintf(part, sizeof part, "%s{\n%s", good_line, good_line);
    struct cityseq_answer next = cityseq_filter(header_line, header, part, length, &r, out, header + good + 9, NULL, 0);
    test_case("a feature and a report", next.status == CITYSEQ_NO_ROOM && next.lines == 3 &&
                                            next.kept == 1 && next.refused == 1);
    struct cityseq_answer all = cityseq_answer_then(&first, &next, header);
    test_case("a part that does not fit",
              all.status == CITYSEQ_NO_ROOM && !all.code && !all.line && !all.place);
    test_case("its lines count", all.lines == 4 && all.kept == 2 && all.refused == 1 &&
                                     all.written == header + 2 * good);
    test_case("nothing after it", are_same(cityseq_answer_then(&all, &first, header), all));
}

static int has_peaks(struct cityseq_answer a, uint64_t bytes, uint64_t tokens, uint64_t depth)
{
    return a.peak_bytes == bytes && a.peak_tokens == tokens && a.peak_depth == depth;
}

/* The peaks of a stream that ends at an invalid line, or where the output does not fit. The header has 116 bytes, 21 values and
 * names, and 3 open at once; the good feature 89, 13 and 3; the invalid one 26, 3 and 1. */
static void peaks(void)
{
    static const char invalid[] = "{\"type\":\"CityJSONFeature\"}\n";
    struct cityseq_request r = CITYSEQ_USUAL;
    char out[400];
    size_t header = strlen(header_line), good = strlen(good_line);
    struct cityseq_answer first = ask(&r, header_line, good_line), alone = ask(&r, header_line, ""), next, full;
    test_case("peaks of a feature",
              first.status == CITYSEQ_COMPLETE && has_peaks(first, 205, 34, 3));
    test_case("peaks of a header",
              alone.status == CITYSEQ_COMPLETE && has_peaks(alone, 116, 21, 3));
    next = ask(&r, "{\"a\":[]}\n", good_line);
    test_case("peaks of an invalid header",
              next.status == CITYSEQ_REFUSED && next.line == 1 && has_peaks(next, 8, 3, 2));
    next = ask(&r, header_line, invalid);
    test_case("peaks at an invalid line",
              next.status == CITYSEQ_REFUSED && next.line == 2 && has_peaks(next, 142, 24, 3));
    test_case("the same after a header",
              has_peaks(cityseq_answer_then(&alone, &next, header), 142, 24, 3));
    test_case("the same after a feature",
              has_peaks(cityseq_answer_then(&first, &next, header), 205, 34, 3));
    full = cityseq_filter(header_line, header, good_line, good, &r, out, header, NULL, 0);
    test_case("peaks without room",
              full.status == CITYSEQ_NO_ROOM && full.lines == 1 && has_peaks(full, 205, 34, 3));
    test_case("the same after a header alone",
              has_peaks(cityseq_answer_then(&alone, &full, header), 205, 34, 3));
    next = ask(&r, header_line, "{\n");
    test_case("peaks at a line that is no text",
              next.status == CITYSEQ_REFUSED && next.peak_bytes == 117);
    test_case("what it may add",
              next.peak_tokens >= 21 && next.peak_tokens <= 22 && next.peak_depth == 3);
}

static int is_number(struct cityseq_decimal n, unsigned negative, uint64_t high, uint64_t low, int power)
{
    return n.negative == negative && n.high == high && n.low == low && n.power == power;
}

/* The numbers of the transform, with their signs, their powers, and all of their 36 digits. */
static void transforms(void)
{
    static const char header[] =
        "{\"type\":\"CityJSON\",\"version\":\"2.0\",\"transform\":{\"scale\":[0.001,1e-18,-2.50],"
        "\"translate\":[0,85000,123456789012345678901234567890.123456]},\"CityObjects\":{},\"vertices\":[]}\n";
    struct cityseq_request r = CITYSEQ_USUAL;
    struct cityseq_tally tally, empty, other;
    size_t length = strlen(good_line);
    cityseq_info(header, sizeof header - 1, good_line, length, &r, &tally, NULL, 0);
    test_case("a transform", tally.transformed == 1 && tally.features == 1);
    test_case("scales", is_number(tally.scale[0], 0, 0, 1, -3) &&
                            is_number(tally.scale[1], 0, 0, 1, -18) &&
                            is_number(tally.scale[2], 1, 0, 25, -1));
    test_case("translations",
              is_number(tally.translate[0], 0, 0, 0, 0) &&
                  is_number(tally.translate[1], 0, 0, 85, 3) &&
                  is_number(tally.translate[2], 0, 6692605942763486u, 16927977054893030080u, -6));
    cityseq_info("{}\n", 3, good_line, length, &r, &empty, NULL, 0);
    test_case("no transform of an invalid header",
              !empty.transformed && is_number(empty.scale[0], 0, 0, 0, 0));
    memset(&empty, 0, sizeof empty), other = cityseq_tally_then(&empty, &tally);
    test_case("no tally, and then one", !memcmp(&other, &tally, sizeof other));
    other = cityseq_tally_then(&tally, &tally);
    test_case("one transform of two parts",
              other.features == 2 && other.transformed == 1 &&
                  !memcmp(other.scale, tally.scale, sizeof other.scale) &&
                  !memcmp(other.translate, tally.translate, sizeof other.translate));
}

/* Returns where a part ends. It looks at one byte after another. */
static size_t slow_part_end(const char *part, size_t length, size_t wanted)
{
    size_t first = 0, last = 0;
    for (size_t i = 0; i < length; i++)
        if (part[i] == '\n') {
            first = first ? first : i + 1;
            last = i < wanted ? i + 1 : last;
        }
    return last ? last : first;
}

/* All parts of up to ten bytes, in which each byte is an LF or an x. */
static void part_ends(void)
{
    char part[10];
    int wrong = 0;
    for (size_t length = 0; length <= sizeof part; length++)
        for (unsigned bits = 0; bits < 1u << length; bits++) {
            for (size_t i = 0; i < length; i++)
                part[i] = bits >> i & 1 ? '\n' : 'x';
            for (size_t wanted = 0; wanted <= length + 1; wanted++)
                wrong += cityseq_part_end(part, length, wanted) != slow_part_end(part, length, wanted);
        }
    test_case("ends of parts", !wrong && cityseq_part_end("\n", 1, SIZE_MAX) == 1);
}

/* Where lines begin: of a header and lines of 0 to 3 bytes, with and without the last LF. */
static void line_begins(void)
{
    static const char part[] = "\na\nbc\ndef\n";
    static const uint64_t begins[] = {0, 0, 3, 4, 6, 9};
    int wrong = 0;
    for (uint64_t line = 0; line < 6; line++)
        wrong += cityseq_line_begin("{}\n", 3, part, sizeof part - 1, line) != begins[line];
    test_case("lines begin", !wrong);
    test_case("no such line", cityseq_line_begin("{}\n", 3, part, 10, 6) == 13 &&
                                  cityseq_line_begin("{}\n", 3, part, 9, UINT64_MAX) == 12);
    test_case("a header alone", cityseq_line_begin("{}", 2, NULL, 0, 1) == 0 &&
                                    cityseq_line_begin("{}", 2, NULL, 0, 2) == 2);
    test_case("no header", cityseq_line_begin("{}", 2, part, 10, 3) == 0 &&
                               cityseq_line_begin(NULL, 0, NULL, 0, 2) == 0);
}

/* NULL for pointers to no bytes, no reports and no texts. */
static void nulls(void)
{
    struct cityseq_request r = CITYSEQ_USUAL;
    struct cityseq_answer a = cityseq_check(NULL, 0, NULL, 0, &r, NULL, 0);
    test_case("no header, no part",
              a.status == CITYSEQ_REFUSED && a.code == CITYSEQ_REASON_NO_HEADER && a.line == 1);
    a = cityseq_check(header_line, strlen(header_line), NULL, 0, &r, NULL, 0);
    test_case("no part", a.status == CITYSEQ_COMPLETE && a.lines == 1);
    a = cityseq_check(NULL, 0, good_line, strlen(good_line), &r, NULL, 0);
    test_case("a part without a header",
              a.status == CITYSEQ_BAD_REQUEST && a.code == CITYSEQ_NO_LINE);
    a = cityseq_filter(header_line, strlen(header_line), NULL, 0, &r, NULL, 0, NULL, 0);
    test_case("no output", a.status == CITYSEQ_NO_ROOM && a.lines == 0 && a.written == 0);
    r.keep_going = 1, a = cityseq_check(header_line, strlen(header_line), "{\n", 2, &r, NULL, 0);
    test_case("a report for no room", a.status == CITYSEQ_COMPLETE && a.refused == 1);
    r.ids = r.types = r.lods = r.box = NULL;
    test_case("texts that are not asked", ask(&r, header_line, good_line).kept == 1);
    r.asks_ids = 1;
    test_case("no id at all", ask(&r, header_line, good_line).kept == 0);
    r.asks_ids = 0, r.asks_types = r.asks_lods = r.exclude = 1;
    test_case("no type and no LoD, left out", ask(&r, header_line, good_line).kept == 1);
    r.asks_box = 1, a = ask(&r, header_line, good_line);
    test_case("no box at all", a.status == CITYSEQ_BAD_REQUEST && a.code == CITYSEQ_BAD_BOX &&
                                   a.list == CITYSEQ_LIST_BOX && !a.item);
    test_case("no end", cityseq_part_end(NULL, 0, 0) == 0 && cityseq_part_end(NULL, 0, 9) == 0);
    test_case("no text", cityseq_reason_text(4, NULL, 0) == 6 &&
                             cityseq_type_name(1, NULL, 0) == 8 && cityseq_version(NULL, 0) == 5);
}

/* The reasons, as docs/RULES.md has them. */
static const struct {
    enum cityseq_reason code;
    const char *text;
} reasons[] = {
    {CITYSEQ_REASON_NO_HEADER, "no header line"},
    {CITYSEQ_REASON_LINE_TOO_LONG, "line too long"},
    {CITYSEQ_REASON_NOT_UTF8, "not UTF-8"},
    {CITYSEQ_REASON_SYNTAX, "syntax"},
    {CITYSEQ_REASON_TOO_DEEP, "nested too deep"},
    {CITYSEQ_REASON_MISSING_MEMBER, "member missing"},
    {CITYSEQ_REASON_DUPLICATE_NAME, "duplicate name"},
    {CITYSEQ_REASON_WRONG_KIND, "wrong kind"},
    {CITYSEQ_REASON_NUMBER_RANGE, "number out of range"},
    {CITYSEQ_REASON_WRONG_TYPE, "wrong type"},
    {CITYSEQ_REASON_WRONG_VERSION, "wrong version"},
    {CITYSEQ_REASON_NOT_EMPTY, "not empty"},
    {CITYSEQ_REASON_NOT_THREE, "not three items"},
    {CITYSEQ_REASON_NOT_WHOLE, "not a whole number"},
    {CITYSEQ_REASON_UNKNOWN_OBJECT_TYPE, "unknown object type"},
    {CITYSEQ_REASON_ID_NOT_FOUND, "id not among the city objects"},
    {CITYSEQ_REASON_CHILD_NOT_FOUND, "child not found"},
    {CITYSEQ_REASON_LINK_NOT_MUTUAL, "link not mutual"},
    {CITYSEQ_REASON_NO_PARENT, "no parent in the feature"},
    {CITYSEQ_REASON_UNKNOWN_GEOMETRY_TYPE, "unknown geometry type"},
    {CITYSEQ_REASON_VERTEX_INDEX, "vertex index out of range"},
    {CITYSEQ_REASON_SEMANTICS_COUNT, "semantics count"},
    {CITYSEQ_REASON_SEMANTICS_INDEX, "semantics index out of range"},
    {CITYSEQ_REASON_TEMPLATE_INDEX, "template index out of range"},
    {CITYSEQ_REASON_BAD_INSTANCE, "bad instance"},
    {CITYSEQ_REASON_TRANSFORM_NOT_FIXED, "transform not fixed"},
    {CITYSEQ_REASON_NOT_REACHED, "not reached from the main object"},
};

static void reason_texts(void)
{
    char text[64];
    unsigned known = 0;
    for (size_t i = 0; i < sizeof reasons / sizeof *reasons; i++) {
        size_t length = cityseq_reason_text(reasons[i].code, text, sizeof text);
        test_case(reasons[i].text,
                  length == strlen(reasons[i].text) && !memcmp(text, reasons[i].text, length));
    }
    for (uint64_t code = 0; code < 1000; code++)
        known += cityseq_reason_text(code, text, sizeof text) != 0;
    test_case("no other reason", known == sizeof reasons / sizeof *reasons);
}

static void texts(void)
{
    char text[64];
    memset(text, '.', sizeof text);
    test_case("the first letters", cityseq_reason_text(CITYSEQ_REASON_SYNTAX, text, 3) == 6 &&
                                       !memcmp(text, "syn...", 6));
    test_case("a type",
              cityseq_type_name(1, text, sizeof text) == 8 && !memcmp(text, "Building", 8));
    test_case("the last type",
              cityseq_type_name(32, text, sizeof text) == 10 && !memcmp(text, "TunnelPart", 10));
    test_case("types of extensions",
              cityseq_type_name(33, text, sizeof text) == 9 && !memcmp(text, "extension", 9));
    test_case("the interface", cityseq_interface() == CITYSEQ_INTERFACE);
    test_case("the version", cityseq_version(text, sizeof text) == 5 && !memcmp(text, "0.2.0", 5));
    test_case("no type", cityseq_type_name(CITYSEQ_TYPES, text, sizeof text) == 0);
}

static void *call_often(void *unused)
{
    struct cityseq_request r = CITYSEQ_USUAL;
    uintptr_t good = 0;
    for (int i = 0; i < rounds; i++)
        good += ask(&r, header_line, good_line).kept == 1;
    (void)unused;
    return (void *)good;
}

static void at_once(void)
{
    pthread_t started[threads];
    uintptr_t good = 0;
    void *one;
    for (int i = 0; i < threads; i++)
        if (pthread_create(&started[i], NULL, call_often, NULL))
            exit(3);
    for (int i = 0; i < threads; i++) {
        pthread_join(started[i], &one);
        good += (uintptr_t)one;
    }
    test_case("threads at once", good == (uintptr_t)threads * rounds);
}

int main(int count, char **words)
{
    if (count > 2)
        return try_stream(count, words);
    wrong_requests();
    wrong_items();
    queries();
    little_room();
    longer_room();
    nothing_judged();
    joins();
    joins_without_room();
    peaks();
    transforms();
    part_ends();
    line_begins();
    nulls();
    reason_texts();
    texts();
    at_once();
    printf("%d passed, %d failed\n", passed, failed);
    return failed != 0;
}
