/* Runs each call of the library for C on worked examples, with enough memory.
 *
 *     library_worked
 *
 * The inputs are a header and a feature, invalid lines, and wrong requests. The last line is 'N passed, M failed', and the status
 * is 0 if all passed. */
#include "../../c/cityseq.h"
#include <stdio.h>
#include <string.h>

/* A string, and its length. */
#define TEXT(text) text, sizeof text - 1

/* 140 bytes and the LF. */
static const char header[] = "{\"type\":\"CityJSON\",\"version\":\"2.0\",\"transform\":{\"scale\":[0.001,0.001,0.001],"
                             "\"translate\":[1000.0,2000.0,0.0]},\"CityObjects\":{},\"vertices\":[]}\n";

/* 210 bytes and the LF. */
static const char feature[] = "{\"type\":\"CityJSONFeature\",\"id\":\"b1\",\"CityObjects\":{\"b1\":{\"type\":\"Building\","
                              "\"geometry\":[{\"type\":\"MultiSurface\",\"lod\":\"2.2\",\"boundaries\":[[[0,1,2,3]]]}]}},"
                              "\"vertices\":[[0,0,0],[1000,0,0],[1000,1000,0],[0,1000,0]]}\n";

/* A feature whose main city object comes last. Its attributes are the 9 bytes from byte 168 on. */
static const char furnished[] = "{\"type\":\"CityJSONFeature\",\"id\":\"a\",\"CityObjects\":{\"b\":{\"type\":\"BuildingPart\","
                                "\"parents\":[\"a\"],\"attributes\":{\"n\":1}},\"a\":{\"type\":\"Building\","
                                "\"children\":[\"b\"],\"attributes\":{\"n\":[2]}}},\"vertices\":[]}\n";

/* The first feature with an index that is one too great, and then a line that is no JSON text. */
static const char broken[] = "{\"type\":\"CityJSONFeature\",\"id\":\"b1\",\"CityObjects\":{\"b1\":{\"type\":\"Building\","
                             "\"geometry\":[{\"type\":\"MultiSurface\",\"lod\":\"2.2\",\"boundaries\":[[[0,1,2,4]]]}]}},"
                             "\"vertices\":[[0,0,0],[1000,0,0],[1000,1000,0],[0,1000,0]]}\n{\n";

static const struct cityseq_request usual = CITYSEQ_USUAL;
static int failed, passed;

static void test_case(const char *name, int holds)
{
    passed += holds != 0;
    failed += holds == 0;
    if (!holds)
        printf("%s: failed\n", name);
}

/* ---- comparisons */

static int has_ended(struct cityseq_answer a, uint32_t status, uint32_t code, uint64_t line, uint64_t place)
{
    return a.status == status && a.code == code && a.line == line && a.place == place;
}

static int has_fault(struct cityseq_answer a, uint32_t code, uint64_t list, uint64_t item)
{
    return a.status == CITYSEQ_BAD_REQUEST && a.code == code && a.list == list && a.item == item;
}

static int has_counts(struct cityseq_answer a, uint64_t lines, uint64_t kept, uint64_t refused, uint64_t written)
{
    return a.lines == lines && a.kept == kept && a.refused == refused && a.written == written;
}

static int has_peaks(struct cityseq_answer a, uint64_t bytes, uint64_t tokens, uint64_t depth)
{
    return a.peak_bytes == bytes && a.peak_tokens == tokens && a.peak_depth == depth;
}

static int is_report(struct cityseq_report r, uint64_t line, uint64_t begin, uint64_t place, uint64_t code)
{
    return r.line == line && r.begin == begin && r.place == place && r.code == code;
}

static int is_range(struct cityseq_range r, uint64_t some, int64_t least, int64_t greatest)
{
    return r.some == some && r.least == least && r.greatest == greatest;
}

/* Whether a number is `low` * 10^`power`. */
static int is_number(struct cityseq_decimal n, uint64_t low, int32_t power)
{
    return !n.negative && !n.high && n.low == low && n.power == power;
}

/* ---- calls */

/* Checks a part behind the header. It has no room for reports. */
static struct cityseq_answer checked(const char *part, struct cityseq_request request)
{
    return cityseq_check(TEXT(header), part, strlen(part), &request, NULL, 0);
}

/* Writes the feature to an output. */
static struct cityseq_answer filtered(char *output, size_t room)
{
    return cityseq_filter(TEXT(header), TEXT(feature), &usual, output, room, NULL, 0);
}

/* ---- checks and filters */

static void checks(void)
{
    struct cityseq_request going = usual;
    struct cityseq_report reports[2] = {{0, 0, 0, 0}, {0, 0, 0, 0}};
    struct cityseq_answer answer = checked(feature, usual);
    test_case("a feature", has_ended(answer, CITYSEQ_COMPLETE, 0, 0, 0) &&
                               has_counts(answer, 2, 1, 0, 0) && has_peaks(answer, 350, 65, 8));
    answer = checked(broken, usual);
    test_case("an invalid line",
              has_ended(answer, CITYSEQ_REFUSED, CITYSEQ_REASON_VERTEX_INDEX, 2, 144) &&
                  has_counts(answer, 1, 0, 0, 0) && has_peaks(answer, 350, 65, 8));
    going.keep_going = true;
    answer = cityseq_check(TEXT(header), TEXT(broken), &going, reports, 2);
    test_case("two invalid lines", has_ended(answer, CITYSEQ_COMPLETE, 0, 0, 0) &&
                                       has_counts(answer, 3, 0, 2, 0));
    test_case("the first report", is_report(reports[0], 2, 141, 144, CITYSEQ_REASON_VERTEX_INDEX));
    test_case("the second report", is_report(reports[1], 3, 352, 1, CITYSEQ_REASON_SYNTAX));
}

static void filters(void)
{
    char output[354];
    memset(output, 9, sizeof output);
    struct cityseq_answer answer = filtered(output, sizeof output);
    test_case("a filter", has_counts(answer, 2, 1, 0, 352) && !memcmp(output, TEXT(header)) &&
                              !memcmp(output + 141, TEXT(feature)));
    test_case("bytes after the output", output[352] == 9 && output[353] == 9);
    memset(output, 9, sizeof output);
    answer = filtered(output, 352);
    test_case("an output that just fits", has_counts(answer, 2, 1, 0, 352));
    answer = filtered(output, 351);
    test_case("an output that does not fit", has_ended(answer, CITYSEQ_NO_ROOM, 0, 0, 0) &&
                                                 has_counts(answer, 1, 0, 0, 141));
}

static void line_begins(void)
{
    static const uint64_t begins[] = {0, 141, 144, 145};
    int wrong = 0;
    for (uint64_t line = 1; line <= 4; line++)
        wrong += cityseq_line_begin(TEXT(header), TEXT("ab\nc"), line) != begins[line - 1];
    test_case("lines begin", !wrong && cityseq_line_begin(TEXT("{}"), TEXT("ab"), 2) == 0);
}

/* ---- tallies and records */

static void tallies(void)
{
    struct cityseq_tally tally, both;
    memset(&tally, 7, sizeof tally);
    struct cityseq_answer answer = cityseq_info(TEXT(header), TEXT(feature), &usual, &tally, NULL, 0);
    test_case("a tally", has_ended(answer, CITYSEQ_COMPLETE, 0, 0, 0) && tally.features == 1 &&
                             tally.types[1] == 1 && tally.lods[2] == 1);
    test_case("ranges", is_range(tally.ranges[0], 1, 0, 1000) &&
                            is_range(tally.ranges[1], 1, 0, 1000) && is_range(tally.ranges[2], 1, 0, 0));
    test_case("a transform", tally.transformed == 1 && is_number(tally.scale[2], 1, -3) &&
                                 is_number(tally.translate[1], 2, 3) && is_number(tally.translate[2], 0, 0));
    both = cityseq_tally_then(&tally, &tally);
    test_case("two tallies", both.features == 2 && both.types[1] == 2 && both.lods[2] == 2);
    test_case("their ranges", is_range(both.ranges[0], 1, 0, 1000));
    test_case("their transform", both.transformed == 1 && is_number(both.translate[0], 1, 3));
}

static void records(void)
{
    struct cityseq_feature listed[2];
    memset(listed, 0, sizeof listed);
    struct cityseq_answer answer = cityseq_features(TEXT(header), TEXT(feature), &usual, listed, 2, NULL, 0);
    const struct cityseq_feature *it = &listed[0];
    test_case("a record", has_ended(answer, CITYSEQ_COMPLETE, 0, 0, 0) && it->line == 2 &&
                              it->begin == 0 && it->length == 210);
    test_case("its id", it->id_begin == 31 && it->id_length == 4);
    test_case("its city objects", it->objects == 1 && it->geometries == 1 && it->types == 2 && it->lods == 4);
    test_case("its vertices", is_range(it->ranges[0], 1, 0, 1000));
    test_case("no attributes", it->attributes_begin == 0 && it->attributes_length == 0);
    test_case("no other record", listed[1].line == 0);
    answer = cityseq_features(TEXT(header), TEXT(furnished), &usual, listed, 1, NULL, 0);
    test_case("attributes of the main city object", has_ended(answer, CITYSEQ_COMPLETE, 0, 0, 0) &&
                                                        it->attributes_begin == 168 && it->attributes_length == 9);
}

/* ---- requests */

static void queries(void)
{
    struct cityseq_request r = usual;
    r.asks_ids = true, r.ids = "b2\nb1", r.ids_length = 5;
    r.asks_types = true, r.types = "Road\nBuilding", r.types_length = 13;
    r.asks_lods = true, r.lods = "2.2", r.lods_length = 3;
    r.asks_box = true, r.box = "1000.5,2000,1001,2001", r.box_length = 21;
    test_case("a feature that is asked for", has_counts(checked(feature, r), 2, 1, 0, 0));
    r.box = "1001.5,2000,1002,2001";
    test_case("a feature beside the box", has_counts(checked(feature, r), 2, 0, 0, 0));
}

/* Asks for types, where those of extensions are known or not. */
static struct cityseq_answer typed(const char *types, bool extensions)
{
    struct cityseq_request r = usual;
    r.extensions = extensions, r.asks_types = true, r.types = types, r.types_length = strlen(types);
    return checked(feature, r);
}

static struct cityseq_answer boxed(const char *box)
{
    struct cityseq_request r = usual;
    r.asks_box = true, r.box = box, r.box_length = strlen(box);
    return checked(feature, r);
}

static void faults(void)
{
    struct cityseq_request r = usual;
    r.line_limit = 0;
    test_case("no line limit", has_ended(checked(feature, r), CITYSEQ_BAD_REQUEST, CITYSEQ_LINE_LIMIT, 0, 0));
    test_case("a header without LF",
              has_ended(cityseq_check(TEXT("{}"), TEXT(feature), &usual, NULL, 0), CITYSEQ_BAD_REQUEST, CITYSEQ_NO_LINE, 0, 0));
    r = usual, r.asks_ids = true, r.ids = "a", r.ids_length = 1;
    r.asks_lods = true, r.lods = "1\n2\n\xff\n\xff", r.lods_length = 7;
    test_case("an LoD that is not UTF-8", has_fault(checked(feature, r), CITYSEQ_NOT_UTF8, CITYSEQ_LIST_LODS, 2));
    test_case("an unknown type", has_fault(typed("Building\nHouse", false), CITYSEQ_UNKNOWN_TYPE, CITYSEQ_LIST_TYPES, 1));
    test_case("a type of an extension", has_fault(typed("Road\n+Shed", false), CITYSEQ_UNKNOWN_TYPE, CITYSEQ_LIST_TYPES, 1));
    test_case("a type after one of an extension",
              has_fault(typed("+Shed\nShed", true), CITYSEQ_UNKNOWN_TYPE, CITYSEQ_LIST_TYPES, 1));
    struct cityseq_answer answer = typed("+Shed\nRoad", true);
    test_case("a known type of an extension",
              has_ended(answer, CITYSEQ_COMPLETE, 0, 0, 0) && has_counts(answer, 2, 0, 0, 0));
    test_case("three numbers", has_fault(boxed("0,0,1"), CITYSEQ_BAD_BOX, CITYSEQ_LIST_BOX, 3));
    test_case("a letter", has_fault(boxed("0,0,1,x"), CITYSEQ_BAD_BOX, CITYSEQ_LIST_BOX, 3));
    test_case("five numbers", has_fault(boxed("0,0,1,1,1"), CITYSEQ_BAD_BOX, CITYSEQ_LIST_BOX, 4));
    test_case("a number out of range", has_fault(boxed("0,1e18,1,1e18"), CITYSEQ_BOX_RANGE, CITYSEQ_LIST_BOX, 1));
    test_case("a box that is empty on x", has_fault(boxed("2,3,1,1"), CITYSEQ_EMPTY_BOX, CITYSEQ_LIST_BOX, 0));
    test_case("a box that is empty on y", has_fault(boxed("0,3,1,1"), CITYSEQ_EMPTY_BOX, CITYSEQ_LIST_BOX, 1));
}

/* ---- parts */

static void parts(void)
{
    char output[352];
    struct cityseq_answer first = filtered(output, sizeof output), next = checked(broken, usual);
    struct cityseq_answer all = cityseq_answer_then(&first, &first, 141);
    test_case("two parts", has_counts(all, 3, 2, 0, 563));
    all = cityseq_answer_then(&first, &next, 141);
    test_case("a part with an invalid line", has_ended(all, CITYSEQ_REFUSED, CITYSEQ_REASON_VERTEX_INDEX, 3, 144) &&
                                                 has_counts(all, 2, 1, 0, 352) && has_peaks(all, 350, 65, 8));
    test_case("ends of parts", cityseq_part_end(TEXT("ab\nc\nd"), 6) == 5 &&
                                   cityseq_part_end(TEXT("ab\nc\nd"), 2) == 3 && cityseq_part_end(TEXT("ab"), 2) == 0);
}

/* ---- words and memory */

static void words(void)
{
    char text[10];
    memset(text, '.', sizeof text);
    test_case("a reason", cityseq_reason_text(4, text, 10) == 6 && !memcmp(text, "syntax....", 10));
    test_case("a type", cityseq_type_name(1, text, 10) == 8 && !memcmp(text, "Building..", 10));
    test_case("the version", cityseq_version(text, 10) == 5 && !memcmp(text, CITYSEQ_VERSION "ing..", 10));
    test_case("the interface", cityseq_interface() == 3);
}

static void memory(void)
{
    struct cityseq_request r = usual;
    r.line_limit = 65536;
    test_case("the stack of short lines", cityseq_stack(&r) == 131072);
    r.line_limit = 65537;
    test_case("the stack of longer lines", cityseq_stack(&r) == 2097152);
    test_case("the memory of a call", cityseq_memory(&usual, 100, 90) == 200 + 24 * 82);
    r = usual, r.depth_limit = 65, r.asks_ids = true, r.ids = "a\nb", r.ids_length = 3;
    test_case("the memory of more", cityseq_memory(&r, 100, 90) == 200 + 24 * 83 + 260 + 9 + 192 + 1024);
    r.line_limit = 0;
    test_case("no memory of a bad request", cityseq_memory(&r, 100, 90) == 0);
}

int main(void)
{
    checks();
    filters();
    line_begins();
    tallies();
    records();
    queries();
    faults();
    parts();
    words();
    memory();
    printf("%d passed, %d failed\n", passed, failed);
    return failed != 0;
}
