/* What claims.c, sessions.c and written.c share: a sheet that is written line by line, memory that is painted
   before a call, and the count of the tests. */
#include <inttypes.h>
#include <stdarg.h>
#include <stdint.h>
#include <stdio.h>
#include <stdlib.h>
#include <string.h>

#include "keymove.h"

enum { SPARE = 8 };

static char sheet[KEYMOVE_MAX_SHEET_BYTES + 2];
static size_t bytes;
static uint64_t words[KEYMOVE_WORDS + SPARE];
static uint8_t tags[KEYMOVE_TAGS + SPARE];
static uint64_t out[KEYMOVE_OUT_WORDS + SPARE];
static unsigned long tests;

static inline void add(const char *form, ...) {
    va_list list;
    va_start(list, form);
    int n = vsnprintf(sheet + bytes, sizeof sheet - bytes, form, list);
    va_end(list);
    if (n < 0 || (size_t)n >= sizeof sheet - bytes) abort();
    bytes += (size_t)n;
}

static inline void begin(int transitions, int places) {
    bytes = 0;
    add("row at place n cap\nsize %d %d - -\n", transitions, places);
}

/* one move of side 1, from place 0, and `pays` rewards */
enum rewards { ZEROS, ONES, POWERS };
static inline void one_move(int places, int pays, enum rewards of) {
    begin(1, places);
    add("mark - 0 1 -\nturn 0 - 1 -\nin 0 0 1 -\n");
    for (int i = 0; i < pays; i++) add("pay - 0 %d -\n", of == ZEROS ? 0 : of == ONES ? 1 : 1 << i);
}

static inline void hold(int yes, const char *what) {
    tests++;
    if (yes) return;
    printf("not as the header says: %s\n%.300s..\n", what, sheet);
    exit(1);
}

/* the memory before a call */
static inline uint64_t word_at(size_t i) { return 0xA5A5A5A500000000 + i; }
static inline uint8_t tag_at(size_t i) { return (uint8_t)(i % 255 + 1); }

static inline void fill(void) {
    for (size_t i = 0; i < KEYMOVE_WORDS + SPARE; i++) words[i] = word_at(i);
    for (size_t i = 0; i < KEYMOVE_TAGS + SPARE; i++) tags[i] = tag_at(i);
    for (size_t i = 0; i < KEYMOVE_OUT_WORDS + SPARE; i++) out[i] = word_at(i);
}

static inline int words_kept(size_t from) {
    for (size_t i = from; i < KEYMOVE_WORDS + SPARE; i++)
        if (words[i] != word_at(i)) return 0;
    return 1;
}

static inline int tags_kept(size_t from) {
    for (size_t i = from; i < KEYMOVE_TAGS + SPARE; i++)
        if (tags[i] != tag_at(i)) return 0;
    return 1;
}

static inline int out_kept(size_t from) {
    for (size_t i = from; i < KEYMOVE_OUT_WORDS + SPARE; i++)
        if (out[i] != word_at(i)) return 0;
    return 1;
}

/* how many of the first w words and t tags are not 0 */
static inline size_t taken(size_t w, size_t t) {
    size_t n = 0;
    for (size_t i = 0; i < w; i++) n += words[i] != 0;
    for (size_t i = 0; i < t; i++) n += tags[i] != 0;
    return n;
}

static inline int answers(uint64_t kind, uint64_t a, uint64_t b, uint64_t count) {
    return out[0] == kind && out[1] == a && out[2] == b && out[3] == count;
}

/* the words of a row */
static inline size_t stride(int places, int wide) { return (places > 192 ? 4 : places > 128 ? 3 : 2) + (wide ? 3u : 1u); }
