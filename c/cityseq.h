/* cityseq: checks, filters and tallies CityJSONSeq 2.0 streams that lie in memory.
 *
 * STREAMS. A call takes a stream as two pieces: the header and a part. The header is the first line with its LF. A part is the
 * bytes after the header, all or some. A part that is not the last one ends with an LF, and cityseq_part_end finds where to cut.
 * Any number of threads may judge parts of one stream at once, each with the same header. No call keeps anything for the next.
 *
 * JOINING. The results of the parts, in their order, make the result of the stream:
 * - The first part whose status is not CITYSEQ_COMPLETE is the end of the stream. The parts before it are valid.
 * - cityseq_answer_then joins answers, and cityseq_tally_then joins tallies.
 * - The output is that of the first part, then that of each later part without the header's line.
 * - To the line of a report, add the lines of all parts before it, less one for each of them. To its `begin`, add their bytes.
 *
 * POINTERS. A pointer to bytes, reports or records may be NULL if their number is 0. No other pointer may be NULL. A bool is 0
 * or 1. A call changes only what it writes by its description. That overlaps nothing else that the call gets.
 *
 * WHAT A CALLER OWES. The proof of the library assumes these, and no call checks them:
 * - No thread and no other process changes what a call reads before it returns. If a mapped file becomes shorter, SIGBUS ends the
 *   process. So read a file that others may write to.
 * - Do not call from a signal handler. In a child of a process with threads, do not call before exec.
 * - malloc, realloc and free belong to one allocator, and align a block as the C standard says. A call frees what it took before
 *   it returns. By measurement, it has at most as many bytes at one time as cityseq_memory says.
 * - A thread has as much of the stack as cityseq_stack says. With glibc it has more by default. By measurement, a call takes at
 *   most 2 MB, or 128 KB under a line limit of 65,536. If no feature has more than 256 city objects, it takes at most 64 KB.
 * - The processor has x86-64-v2: SSE 4.2, SSSE3 and POPCNT.
 */
#ifndef CITYSEQ_H
#define CITYSEQ_H

#include <stdbool.h>
#include <stddef.h>
#include <stdint.h>

/* Marks the pointers, by their places from 1, that are never NULL, so that a compiler warns. */
#if defined(__GNUC__)
#define CITYSEQ_NOT_NULL(...) __attribute__((nonnull(__VA_ARGS__)))
#else
#define CITYSEQ_NOT_NULL(...)
#endif

#ifdef __cplusplus
extern "C" {
#endif

/* The interface that this file declares. cityseq_interface returns that of the library.
 *
 * 3. A feature has `attributes_begin` and `attributes_length`, and an answer has `list` and `item`. A request has `extensions`, and
 *    a tally has a last count of types, for those of extensions.
 * 2. cityseq_tally is now cityseq_info, so that in C++ the struct needs no keyword. New are cityseq_features, the joins,
 *    cityseq_part_end, cityseq_line_begin, cityseq_stack, cityseq_memory and cityseq_version. A report has `begin`, and a tally
 *    has the transform. There are constants for the reasons and for the sizes of a tally. NULL is allowed if there are no bytes.
 *    After CITYSEQ_NO_MEMORY all counts are 0. After it and CITYSEQ_BAD_REQUEST a tally is as it was.
 * 1. The first one. */
#define CITYSEQ_INTERFACE 3

/* The version of cityseq that this file belongs to. */
#define CITYSEQ_VERSION "0.2.0"

/* How a call ended. After CITYSEQ_BAD_REQUEST and CITYSEQ_NO_MEMORY nothing was judged: output, reports and tally are as they
 * were. Then all fields of the answer but status, code, list and item are 0. */
enum cityseq_status {
    CITYSEQ_COMPLETE = 0,    /* All lines were read, and none was the end. */
    CITYSEQ_REFUSED = 1,     /* A line is invalid: line, place and code say which, where and why. */
    CITYSEQ_BAD_REQUEST = 2, /* The request is wrong. `code` is a cityseq_fault, and list and item say where it is. */
    CITYSEQ_NO_ROOM = 4,     /* Of cityseq_filter alone: the next kept line does not fit in the output. */
    CITYSEQ_NO_MEMORY = 5    /* No memory was granted. */
};

/* What is wrong with a request. */
enum cityseq_fault {
    CITYSEQ_LINE_LIMIT = 1,   /* The line limit is not from 1 to 1,073,741,824. */
    CITYSEQ_DEPTH_LIMIT = 2,  /* The depth limit is not from 1 to 1,024. */
    CITYSEQ_NO_LINE = 3,      /* The header is not one line with its LF. It may lack the LF if the part is empty. */
    CITYSEQ_NOT_UTF8 = 4,     /* A text is not UTF-8. */
    CITYSEQ_UNKNOWN_TYPE = 5, /* No city object type has this name. */
    CITYSEQ_BAD_BOX = 6,      /* The box is not four numbers with commas between them. Item 3 may be missing. Item 4 is a fifth. */
    CITYSEQ_BOX_RANGE = 7,    /* A number of the box is out of range. */
    CITYSEQ_EMPTY_BOX = 8,    /* The least edge of the box is above the greatest: item 0 on x, or else 1 on y. */
    CITYSEQ_TOO_LONG = 9      /* The header and the part have more than 2^60 bytes. */
};

/* The lists of a request. */
enum cityseq_list {
    CITYSEQ_LIST_IDS = 1,
    CITYSEQ_LIST_TYPES = 2,
    CITYSEQ_LIST_LODS = 3,
    CITYSEQ_LIST_BOX = 4
};

/* Why a line is invalid: the code of an answer whose status is CITYSEQ_REFUSED, and of a report. docs/RULES.md explains each. */
enum cityseq_reason {
    CITYSEQ_REASON_NO_HEADER = 1,
    CITYSEQ_REASON_LINE_TOO_LONG = 2,
    CITYSEQ_REASON_NOT_UTF8 = 3,
    CITYSEQ_REASON_SYNTAX = 4,
    CITYSEQ_REASON_TOO_DEEP = 5,
    CITYSEQ_REASON_MISSING_MEMBER = 10,
    CITYSEQ_REASON_DUPLICATE_NAME = 11,
    CITYSEQ_REASON_WRONG_KIND = 12,
    CITYSEQ_REASON_NUMBER_RANGE = 13,
    CITYSEQ_REASON_WRONG_TYPE = 14,
    CITYSEQ_REASON_WRONG_VERSION = 15,
    CITYSEQ_REASON_NOT_EMPTY = 16,
    CITYSEQ_REASON_NOT_THREE = 17,
    CITYSEQ_REASON_NOT_WHOLE = 18,
    CITYSEQ_REASON_UNKNOWN_OBJECT_TYPE = 19,
    CITYSEQ_REASON_ID_NOT_FOUND = 20,
    CITYSEQ_REASON_CHILD_NOT_FOUND = 21,
    CITYSEQ_REASON_LINK_NOT_MUTUAL = 22,
    CITYSEQ_REASON_NO_PARENT = 23,
    CITYSEQ_REASON_UNKNOWN_GEOMETRY_TYPE = 24,
    CITYSEQ_REASON_VERTEX_INDEX = 25,
    CITYSEQ_REASON_SEMANTICS_COUNT = 26,
    CITYSEQ_REASON_SEMANTICS_INDEX = 27,
    CITYSEQ_REASON_TEMPLATE_INDEX = 28,
    CITYSEQ_REASON_BAD_INSTANCE = 29,
    CITYSEQ_REASON_TRANSFORM_NOT_FIXED = 30,
    CITYSEQ_REASON_NOT_REACHED = 31
};

/* How lines are judged, and which features are kept: those that satisfy each part of the query that is set. Ids, types and LoDs
 * are texts in UTF-8, with an LF between each two. A length of 0 means no text. */
struct cityseq_request {
    uint64_t line_limit;  /* The most bytes of a line without its LF. 8,388,608 is usual. */
    uint64_t depth_limit; /* The most arrays and objects that are open at once. 64 is usual. */
    bool keep_going;      /* After an invalid line that is not the header, report it and go on. */
    bool tree;            /* Each city object must be reached from the feature's main one. */
    bool exclude;         /* Leave out the features that satisfy the query, and keep all others. */
    bool extensions;      /* Accept types that begin with `+`, the types of extensions, in features and in `types`. */
    bool asks_ids;        /* The id must be one of these. */
    bool asks_types;      /* Some city object must have one of these types. Only types of extensions need memory. */
    bool asks_lods;       /* Some geometry must have one of these LoDs, spelled the same. */
    bool asks_box;        /* Some vertices must be in the box: minx,miny,maxx,maxy. */
    const char *ids;
    size_t ids_length;
    const char *types;
    size_t types_length;
    const char *lods;
    size_t lods_length;
    const char *box;
    size_t box_length;
};

/* A request for all features, at the usual limits. */
#define CITYSEQ_USUAL \
    { 8388608, 64, false, false, false, false, false, false, false, false, "", 0, "", 0, "", 0, "", 0 }

/* An invalid line after which reading went on. */
struct cityseq_report {
    uint64_t line;  /* Its number in the header and the part, from 1. */
    uint64_t begin; /* Where it begins in the header and the part, in bytes from 0. */
    uint64_t place; /* The byte in the line, from 0. */
    uint64_t code;  /* A cityseq_reason. */
};

/* The result for a stream. */
struct cityseq_answer {
    uint32_t status;      /* A cityseq_status. */
    uint32_t code;        /* A cityseq_reason of an invalid line, or a cityseq_fault of a bad request. Else 0. */
    uint64_t line;        /* The number of the invalid line, from 1, else 0. cityseq_line_begin finds it. */
    uint64_t place;       /* The byte in it, from 0, else 0. */
    uint64_t lines;       /* The lines that were handled: the header, features, blank lines and reported ones. */
    uint64_t kept;        /* The kept features among them. */
    uint64_t refused;     /* The reported lines among them, also those without room for their report. */
    uint64_t peak_bytes;  /* The most bytes of lines that were held at once. */
    uint64_t peak_tokens; /* The most tokens. */
    uint64_t peak_depth;  /* The most open arrays and objects. */
    uint64_t written;     /* The bytes of output that cityseq_filter wrote. Else 0. */
    uint64_t list;        /* Of a bad request, the list that is at fault, a cityseq_list. Else 0. */
    uint64_t item;        /* The first text or number in this list that is at fault, from 0. Else 0. */
};

/* The least and the greatest whole number on an axis. */
struct cityseq_range {
    uint64_t some; /* 1 if there is one, else 0. */
    int64_t least;
    int64_t greatest;
};

#define CITYSEQ_TYPES 34 /* The number of city object types, and the last count: all types of extensions. */
#define CITYSEQ_LODS 6   /* The number of LoD classes. */

/* The number (high * 2^64 + low) * 10^power, exactly. It has at most 36 digits, and no zero at its end. */
struct cityseq_decimal {
    uint32_t negative; /* 1 if it is below 0, else 0. */
    int32_t power;
    uint64_t high; /* 0 if the coefficient is below 2^64. */
    uint64_t low;
};

/* The kept features in numbers, and the transform of the header. */
struct cityseq_tally {
    uint64_t features;
    uint64_t types[CITYSEQ_TYPES];       /* City objects by type. cityseq_type_name has the names. */
    uint64_t lods[CITYSEQ_LODS];         /* Geometries by the class of their LoD: 0 to 4, and other. */
    struct cityseq_range ranges[3];      /* The vertices, x, y and z, as the features have them. */
    uint64_t transformed;                /* 1 if the header is valid. Else 0, and so are the numbers below. */
    struct cityseq_decimal scale[3];     /* The world coordinate of a vertex is its number times this, */
    struct cityseq_decimal translate[3]; /* plus this. */
};

/* A kept feature. The content of its line is the `length` bytes of the part from `begin` on. */
struct cityseq_feature {
    uint64_t line;                  /* The number of its line in header and part, from 1. */
    uint64_t begin;                 /* Where its line begins in the part, in bytes from 0. */
    uint64_t length;                /* The bytes of the line, without LF. */
    uint64_t id_begin;              /* Where the string of its id begins in the line, in bytes from 0. */
    uint64_t id_length;             /* The bytes of that string, with quotes and escapes. */
    uint64_t attributes_begin;      /* Where `attributes` of the city object with that id begin in the line, from 0. Else 0. */
    uint64_t attributes_length;     /* The bytes of that value, of whatever kind. 0 if that city object has none. */
    uint64_t objects;               /* The number of its city objects. */
    uint64_t geometries;            /* The number of their geometries. */
    uint64_t types;                 /* Bit n is set if a city object has the type of number n. */
    uint64_t lods;                  /* Bit n is set if a geometry has an LoD of class n: 0 to 4, and 5 for any other. */
    struct cityseq_range ranges[3]; /* Its vertices, x, y and z, as the feature has them. */
};

/* The number of the library's interface. It must equal CITYSEQ_INTERFACE. */
uint32_t cityseq_interface(void);

/* Judges the lines of a stream. It writes the first reports to `reports`, as many as fit. */
struct cityseq_answer cityseq_check(const char *header, size_t header_length, const char *part, size_t part_length,
                                    const struct cityseq_request *request, struct cityseq_report *reports, size_t reports_room)
    CITYSEQ_NOT_NULL(5);

/* The same. It also writes the header and the kept features to `output`, byte for byte. Room for as many bytes as the header and
 * the part have is always enough.
 *
 * After CITYSEQ_NO_ROOM, `output` has the output of the first `lines` lines, whole, and counts and reports are of these. So a
 * caller goes on after line `lines`: it calls again with the header and the rest of the part, and more room. If `lines` is 0, the
 * header did not fit. */
struct cityseq_answer cityseq_filter(const char *header, size_t header_length, const char *part, size_t part_length,
                                     const struct cityseq_request *request, char *output, size_t output_room,
                                     struct cityseq_report *reports, size_t reports_room) CITYSEQ_NOT_NULL(5);

/* Judges the lines of a stream, and tallies the kept features. After CITYSEQ_COMPLETE and CITYSEQ_REFUSED the tally is that of
 * the stream, up to its end. */
struct cityseq_answer cityseq_info(const char *header, size_t header_length, const char *part, size_t part_length,
                                   const struct cityseq_request *request, struct cityseq_tally *tally,
                                   struct cityseq_report *reports, size_t reports_room) CITYSEQ_NOT_NULL(5, 6);

/* Judges the lines of a stream, and writes a record of each kept feature, in order, as many as fit. `kept` counts all of them.
 * After CITYSEQ_BAD_REQUEST and CITYSEQ_NO_MEMORY the records are as they were. */
struct cityseq_answer cityseq_features(const char *header, size_t header_length, const char *part, size_t part_length,
                                       const struct cityseq_request *request, struct cityseq_feature *features,
                                       size_t features_room, struct cityseq_report *reports, size_t reports_room)
    CITYSEQ_NOT_NULL(5);

/* The answer for a header with the lines of two parts, from the answers for the header with each. The first part ends with an LF.
 * `header_length` is that of the calls, since the length of the output counts the header once. If the first answer is not
 * CITYSEQ_COMPLETE, it is the answer for both. If nothing of the next part was judged, the answer has its status, code, list
 * and item, with the counts of the first. Counts stop at 2^64 - 1. */
struct cityseq_answer cityseq_answer_then(const struct cityseq_answer *first, const struct cityseq_answer *next,
                                          size_t header_length) CITYSEQ_NOT_NULL(1, 2);

/* The tally for a header with the lines of two parts, from the tallies for the header with each. The first part is complete. A
 * tally of zeros joined with another is that other. Counts stop at 2^64 - 1. */
struct cityseq_tally cityseq_tally_then(const struct cityseq_tally *first, const struct cityseq_tally *next)
    CITYSEQ_NOT_NULL(1, 2);

/* Where to cut a part of about `wanted` bytes: after the last LF among the first `wanted` bytes, else after the first LF. It is 0
 * if there is no LF. */
size_t cityseq_part_end(const char *part, size_t length, size_t wanted);

/* Where the line of this number begins in a header and a part, in bytes from the beginning of the header. If there is no such
 * line, it is the end of the part. It is 0 if the header is not one line (CITYSEQ_NO_LINE). */
uint64_t cityseq_line_begin(const char *header, size_t header_length, const char *part, size_t part_length, uint64_t line);

/* Returns how many bytes of the stack a thread must have left for a call with this request. They are 131,072 if the line limit is
 * at most 65,536, else 2,097,152. */
size_t cityseq_stack(const struct cityseq_request *request) CITYSEQ_NOT_NULL(1);

/* Returns the most bytes that the blocks of a call have at one time, for this request and for pieces of these lengths. A block
 * that realloc moves counts twice. Let n be the line limit, or the length of the longer piece if that is less, but at least 1.
 * Let d be the depth limit. Then the bytes are the sum of these:
 * - 2 * n for a header and a later line, and 24 * ((n + d + 1) / 2), rounded down, for their tokens.
 * - 4 * d if d is above 64.
 * - For ids that are asked for: 3 * ids_length, 96 for each id, and 1,024. For LoDs the same, and for types if `extensions` is set.
 * It is 0 if a limit is out of range, and stops at SIZE_MAX. */
size_t cityseq_memory(const struct cityseq_request *request, size_t header_length, size_t part_length) CITYSEQ_NOT_NULL(1);

/* Writes the words of a reason as far as they fit, in ASCII and without a NUL. It returns how many bytes they have, and 0 if no
 * reason has this code. */
size_t cityseq_reason_text(uint64_t code, char *text, size_t room);

/* Writes the name of a city object type in the same way, from its number, 0 to CITYSEQ_TYPES - 1. */
size_t cityseq_type_name(uint64_t number, char *text, size_t room);

/* Writes the version of the library, as 1.2.3, in the same way. */
size_t cityseq_version(char *text, size_t room);

#ifdef __cplusplus
}
#endif

#endif
