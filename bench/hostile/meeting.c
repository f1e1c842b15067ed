/* Finds names that meet in a hash of 64 bits, by which names were looked up once: a search by a hash is not to come back
 * unseen. And names that meet in the tag by which the texts of links are ordered first.
 *
 *   meeting marks COUNT     so many names, one a line, whose marks all lie in one 32nd of the places for marks: a block
 *                           of them sets nearly all marks there, so that both marks of each other one are set
 *   meeting whole PAIRS     so many pairs of texts, a pair a line with a space between. However one of each pair is
 *                           taken, in order, these texts together have one and the same hash of 64 bits: N pairs are
 *                           2^N names
 *   meeting tag COUNT       so many names of nine letters, one a line, that all have one tag
 *   meeting list COUNT      so many names of seven letters, one a line, that all stand in one list where many city objects
 *                           are marked
 */
#include <stdint.h>
#include <stdio.h>
#include <stdlib.h>
#include <string.h>

static const uint64_t START = 14695981039346656037u, FACTOR = 11400714819323198485u;
static const char LETTERS[] = "ABCDEFGHIJKLMNOPQRSTUVWXYZabcdefghijklmnopqrstuvwxyz0123456789-_";

/* Of texts of five letters so many are tried, in a table of so many places. */
enum { DIGITS = 5, ALL = 1 << 30, TEXTS = 3 << 23, PLACES = 1 << 25 };

/* The state after one code point more. */
static uint64_t step(uint64_t state, uint32_t point) {
    uint64_t product = (state ^ point) * FACTOR;
    return product ^ product >> 32;
}

/* The text of a number, in digits of 64, and the state after it. */
static uint64_t text_of(uint64_t state, uint64_t number, int digits, char *text) {
    for (int i = 0; i < digits; i++) {
        text[i] = LETTERS[number >> 6 * i & 63];
        state = step(state, (uint32_t)text[i]);
    }
    text[digits] = 0;
    return state;
}

/* The same, and the number that the text is mixed to from a front on. */
static uint64_t mix_of(uint64_t front, uint64_t number, int digits, char *text) {
    for (int i = 0; i < digits; i++) {
        text[i] = LETTERS[number >> 6 * i & 63];
        front = front * FACTOR + (uint32_t)text[i];
    }
    text[digits] = 0;
    return front;
}

/* The tag is the remainder of that number by a prime. */
static const uint64_t TAGS = 4294967291u;

/* The numbers of the texts of four letters, in order of their tags without the lowest byte, and where those of each such part
 * of a tag begin: at the place behind it, and those of the next one behind that. */
enum { ENDS = 1 << 24, PARTS = (1 << 24) + 2 };

static void sort_ends(uint32_t *ends, uint32_t *starts) {
    char text[16];
    for (uint32_t number = 0; number < ENDS; number++) starts[(mix_of(0, number, 4, text) % TAGS >> 8) + 1]++;
    for (uint32_t part = 1; part < PARTS; part++) starts[part] += starts[part - 1];
    for (uint32_t number = ENDS; number-- > 0;) ends[--starts[(mix_of(0, number, 4, text) % TAGS >> 8) + 1]] = number;
}

/* Each front of five letters is looked up by what is left of the tag for its end, whether their sum passes 2^64 or not. */
static int names_of_one_tag(long count) {
    const uint64_t tag = 12345, past = UINT64_MAX % TAGS + 1, four = FACTOR * FACTOR * FACTOR * FACTOR;
    char text[16], end[16];
    uint32_t *ends = malloc(ENDS * sizeof *ends), *starts = calloc(PARTS, sizeof *starts);
    if (!ends || !starts) return 1;
    sort_ends(ends, starts);
    for (uint64_t number = 0; count > 0 && number < ALL; number++) {
        uint64_t front = mix_of(0, number, 5, text) * four;
        for (int passes = 0; passes < 2; passes++) {
            uint64_t part = (tag + TAGS - front % TAGS + passes * past) % TAGS >> 8;
            for (uint32_t i = starts[part + 1]; count > 0 && i < starts[part + 2]; i++) {
                uint64_t sum = front + mix_of(0, ends[i], 4, end);
                if (sum % TAGS != tag || (sum < front) != passes) continue;
                printf("%s%s\n", text, end);
                count--;
            }
        }
    }
    free(ends);
    free(starts);
    return 0;
}

/* The list is the remainder of that number by another prime; each front of six letters is looked up for a last letter. */
static void names_of_one_list(long count) {
    const uint64_t lists = 65521, list = 12345;
    char text[16];
    for (uint64_t number = 0; count > 0; number++) {
        uint64_t front = mix_of(0, number, 6, text) * FACTOR;
        uint64_t last = (list + lists - front % lists) % lists;
        if (last == 0 || last > 127 || !strchr(LETTERS, (int)last) || front + last < front) continue;
        printf("%s%c\n", text, (int)last);
        count--;
    }
}

static void names_of_few_marks(long count) {
    char text[16];
    for (uint64_t number = 0; count > 0; number++) {
        uint64_t hash = text_of(START, number, 6, text);
        if ((hash & 65535) < 2048 && (hash >> 32 & 65535) < 2048) {
            puts(text);
            count--;
        }
    }
}

/* Whether a code point can stand in a JSON string as it is. */
static int is_plain(uint32_t point) {
    return point >= 32 && point != '"' && point != '\\' && point != 127 && (point < 0xD800 || point > 0xDFFF);
}

/* Writes a code point in UTF-8. */
static void put_point(uint32_t point) {
    if (point < 0x80) {
        putchar((int)point);
    } else if (point < 0x800) {
        printf("%c%c", 0xC0 | point >> 6, 0x80 | (point & 63));
    } else if (point < 0x10000) {
        printf("%c%c%c", 0xE0 | point >> 12, 0x80 | (point >> 6 & 63), 0x80 | (point & 63));
    } else {
        printf("%c%c%c%c", 0xF0 | point >> 18, 0x80 | (point >> 12 & 63), 0x80 | (point >> 6 & 63), 0x80 | (point & 63));
    }
}

/* Two texts of `DIGITS` letters whose states differ in the lowest 20 bits alone: a last code point for each makes the
 * states the same. They are written; the answer is the state after both. */
static uint64_t pair_from(uint64_t state, uint32_t *table) {
    char text[16], other[16];
    memset(table, 0xFF, PLACES * sizeof *table);
    for (uint32_t tried = 0; tried < TEXTS; tried++) {
        uint32_t number = tried * 2654435769u % ALL;
        uint64_t mine = text_of(state, number, DIGITS, text);
        uint64_t place = (mine >> 20) * FACTOR >> 39;
        for (; table[place] != UINT32_MAX; place = (place + 1) % PLACES) {
            uint64_t difference = text_of(state, table[place], DIGITS, other) ^ mine;
            if (difference >> 20) continue;
            for (uint32_t last = 'a'; last <= 'z'; last++) {
                if (!is_plain(last ^ (uint32_t)difference)) continue;
                printf("%s%c %s", text, (int)last, other);
                put_point(last ^ (uint32_t)difference);
                putchar('\n');
                return step(mine, last);
            }
        }
        table[place] = number;
    }
    fputs("no pair was found\n", stderr);
    exit(1);
}

int main(int count, char **words) {
    if (count == 3 && !strcmp(words[1], "marks")) {
        names_of_few_marks(atol(words[2]));
        return 0;
    }
    if (count == 3 && !strcmp(words[1], "whole")) {
        uint32_t *table = malloc(PLACES * sizeof *table);
        uint64_t state = START;
        if (!table) return 1;
        for (long left = atol(words[2]); left > 0; left--) state = pair_from(state, table);
        free(table);
        return 0;
    }
    if (count == 3 && !strcmp(words[1], "tag")) return names_of_one_tag(atol(words[2]));
    if (count == 3 && !strcmp(words[1], "list")) {
        names_of_one_list(atol(words[2]));
        return 0;
    }
    fputs("meeting marks COUNT | meeting whole PAIRS | meeting tag COUNT | meeting list COUNT\n", stderr);
    return 2;
}
