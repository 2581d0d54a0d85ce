/* Replays the fixed list (lists/README.md) from standard input through keymove_choose of the archive. Each case is held to the list: the answer's four words, bit
   by bit, and the hash of all lent words and tags. Sheet and chain must be as they were, and so must guards on both sides of each buffer and behind the sheet; the list must be whole.
   Last line: how many cases, and how many failed. Status 1 where one failed, 2 where the list is not as it should be. */
#include <ctype.h>
#include <inttypes.h>
#include <stdint.h>
#include <stdio.h>
#include <stdlib.h>
#include <string.h>

#include "keymove.h"

enum { GUARD = 16, SHEET = 65537, WORDS = 7200, TAGS = 1100, LINE = 127 };
static const uint64_t WORD = 0x5EED5EED5EED5EED;
static const uint8_t BYTE = 0xD5;

static uint8_t sheet[SHEET + GUARD];
static size_t bytes;
static uint64_t words[WORDS + 2 * GUARD];
static uint8_t tags[TAGS + 2 * GUARD];
static uint64_t out[4 + 2 * GUARD];

static void broken(const char *why, const char *line) {
    printf("archive: %s: %s\n", why, line);
    exit(2);
}

static uint64_t hashed(uint64_t h, uint64_t byte) { return (h ^ byte) * 1099511628211u; }

static void add(const char *text, size_t n, const char *line) {
    if (SHEET - bytes < n) broken("a sheet over 65,537 bytes", line);
    memcpy(sheet + bytes, text, n);
    bytes += n;
}

static void add_line(const char *text, const char *line) {
    add(text, strlen(text), line);
    add("\n", 1, line);
}

static void add_hex(const char *digits, const char *line) {
    for (; *digits; digits += 2) {
        unsigned x;
        if (!isxdigit((unsigned char)digits[0]) || !isxdigit((unsigned char)digits[1]) || sscanf(digits, "%2x", &x) != 1)
            broken("no pairs of hexadecimal digits", line);
        add((char[]){(char)x}, 1, line);
    }
}

static void fill(size_t w, size_t t) {
    memset(sheet + bytes, BYTE, sizeof sheet - bytes);
    for (size_t i = 0; i < WORDS + 2 * GUARD; i++) words[i] = WORD;
    memset(tags, BYTE, sizeof tags);
    for (size_t i = 0; i < 4 + 2 * GUARD; i++) out[i] = WORD;
    for (size_t i = 0; i < w; i++) words[GUARD + i] = 0xA5A5A5A500000000 + i;
    for (size_t i = 0; i < t; i++) tags[GUARD + i] = (uint8_t)(i % 255 + 1);
}

/* nothing outside of what is lent was written */
static int intact(size_t w, size_t t) {
    for (size_t i = 0; i < WORDS + 2 * GUARD; i++)
        if ((i < GUARD || i >= GUARD + w) && words[i] != WORD) return 0;
    for (size_t i = 0; i < TAGS + 2 * GUARD; i++)
        if ((i < GUARD || i >= GUARD + t) && tags[i] != BYTE) return 0;
    for (size_t i = 0; i < 4 + 2 * GUARD; i++)
        if ((i < GUARD || i >= GUARD + 4) && out[i] != WORD) return 0;
    for (size_t i = bytes; i < sizeof sheet; i++)
        if (sheet[i] != BYTE) return 0;
    return 1;
}

static uint64_t bytes_hash(uint64_t h, const uint8_t *p, size_t n) {
    for (size_t i = 0; i < n; i++) h = hashed(h, p[i]);
    return h;
}

static uint64_t memory_hash(size_t w, size_t t) {
    uint64_t h = 14695981039346656037u;
    for (size_t i = 0; i < w; i++)
        for (int k = 0; k < 8; k++) h = hashed(h, words[GUARD + i] >> 8 * k & 255);
    return bytes_hash(h, tags + GUARD, t);
}

/* a number of the list, 0 for `-` */
static uint64_t number(const char *s) { return strcmp(s, "-") ? strtoull(s, NULL, 10) : 0; }

/* the four words of an answer by its fields in the list: kind, move or number, bits of the value or line, count */
static void words_of(uint64_t want[4], const char *kind, const char *a, const char *b, const char *nodes, const char *line) {
    static const char *kinds[] = {"exact", "none", "spent", "refused"};
    for (want[0] = 0; want[0] < 4 && strcmp(kind, kinds[want[0]]); want[0]++);
    if (want[0] == 4) broken("no answer", line);
    double value = (double)strtoll(b, NULL, 10);
    want[1] = number(a);
    want[2] = number(b);
    if (want[0] == 0) memcpy(want + 2, &value, 8);
    want[3] = number(nodes);
}

/* whether the case holds; what it gave is written where it does not and `say` */
static int holds(const char *line, int say) {
    uint64_t budget, entries, driver, filters, hash, want[4];
    const uint64_t *got = out + GUARD;
    size_t w, t;
    char pieces[LINE + 1], kind[LINE + 1], a[LINE + 1], b[LINE + 1], nodes[LINE + 1];
    if (sscanf(line, "c %" SCNu64 " %" SCNu64 " %" SCNu64 " %" SCNu64 " %s %zu %zu %s %s %s %s %" SCNx64,
               &budget, &entries, &driver, &filters, pieces, &w, &t, kind, a, b, nodes, &hash) != 12 || w > WORDS || t > TAGS)
        broken("no case", line);
    words_of(want, kind, a, b, nodes, line);
    size_t n = strcmp(pieces, "-") ? strlen(pieces) : 0;
    uint8_t chain[LINE + 1];
    for (size_t i = 0; i < n; i++) chain[i] = (uint8_t)(pieces[i] - 48);
    fill(w, t);
    uint64_t before = bytes_hash(bytes_hash(1, sheet, bytes), chain, n);
    keymove_choose(sheet, bytes, budget, entries, driver, filters, chain, n, words + GUARD, w, tags + GUARD, t, out + GUARD, 4);
    int kept = intact(w, t) && before == bytes_hash(bytes_hash(1, sheet, bytes), chain, n);
    if (!memcmp(want, got, sizeof want) && hash == memory_hash(w, t) && kept) return 1;
    if (say)
        printf("archive: %s\narchive: gave %" PRIu64 " %" PRIu64 " %" PRIu64 " %" PRIu64 " and left %016" PRIx64 "%s\n",
               line, got[0], got[1], got[2], got[3], memory_hash(w, t), kept ? "" : ", and wrote what is not lent to be written");
    return 0;
}

int main(void) {
    char line[LINE + 3];
    uint64_t sheets = 0, cases = 0, failed = 0, sum = 14695981039346656037u;
    while (fgets(line, sizeof line, stdin)) {
        size_t n = strlen(line);
        if (n == 0 || line[n - 1] != '\n') broken("a line that is too long or has no end", line);
        uint64_t before = sum;
        for (size_t i = 0; i < n; i++) sum = hashed(sum, (uint8_t)line[i]);
        line[n - 1] = 0;
        uint64_t times, s, c, x;
        int at = 0;
        switch (line[0]) {
        case '#': break;
        case 's': bytes = 0, sheets++; break;
        case '|': add_line(line + 1, line); break;
        case '!': add(line + 1, n - 2, line); break;
        case 'x': add_hex(line + 1, line); break;
        case '*':
            if (sscanf(line, "*%" SCNu64 "%n", &times, &at) != 1 || line[at] != ' ') broken("no repetition", line);
            while (times--) add_line(line + at + 1, line);
            break;
        case 'c': cases++, failed += !holds(line, failed < 3); break;
        case 'e':
            if (sscanf(line, "e %" SCNu64 " %" SCNu64 " %" SCNx64, &s, &c, &x) != 3 || s != sheets || c != cases || x != before)
                broken("the list was cut or changed", line);
            if (!cases || fgets(line, sizeof line, stdin)) broken("no case, or something behind the end", line);
            printf("archive: %" PRIu64 " cases through the archive, %" PRIu64 " failed\n", cases, failed);
            return failed != 0;
        default: broken("a line of another kind", line);
        }
    }
    broken("the list has no end", "");
}
