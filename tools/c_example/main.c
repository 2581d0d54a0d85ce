/* Writes the two lines of a sheet's answer, as the program keymove does:
     c_example [SHEETFILE [MARKING..]]
   With no name the sheet is read from standard input. With markings they are chosen for, one after
   another, in a session of the sheet: a line each, with the nodes behind it that the same choice
   takes in a session just opened. A marking is the numbers of the places that hold a token, such
   as 1,4,9,10. Status 1 where a file cannot be read or written, 2 for other arguments; the answer
   has no part in it. */
#include <errno.h>
#include <inttypes.h>
#include <stdint.h>
#include <stdio.h>
#include <stdlib.h>
#include <string.h>

#include "keymove.h"

/* One byte more than a sheet may have, so that a longer one is seen to be too long. */
static uint8_t sheet[KEYMOVE_MAX_SHEET_BYTES + 1];
static uint64_t words[KEYMOVE_WORDS];
static uint8_t tags[KEYMOVE_TAGS];
static const uint8_t chain[] = {KEYMOVE_REMEMBERED, KEYMOVE_IMMEDIATE_WIN, KEYMOVE_HISTORY};

/* all that a session keeps */
struct kept {
    uint64_t session[KEYMOVE_SESSION_WORDS];
    uint64_t words[KEYMOVE_WORDS];
    uint8_t tags[KEYMOVE_TAGS];
};

static struct kept going_on, just_opened;

static int failed(const char *what) {
    fprintf(stderr, "c_example: %s: %s\n", what, strerror(errno));
    return 1;
}

static int usage(void) {
    fputs("c_example [SHEETFILE [MARKING..]]\n", stderr);
    return 2;
}

static void print(const uint64_t answer[KEYMOVE_OUT_WORDS]) {
    uint64_t nodes = answer[3];
    double value;
    switch (answer[0]) {
    case KEYMOVE_EXACT:
        memcpy(&value, &answer[2], sizeof value);
        printf("exact %" PRIu64 " %.0f %" PRIu64, answer[1], value, nodes);
        break;
    case KEYMOVE_NONE:
        printf("none - - %" PRIu64, nodes);
        break;
    case KEYMOVE_SPENT:
        printf("spent - - %" PRIu64, nodes);
        break;
    case KEYMOVE_REFUSED:
        printf("refused %" PRIu64 " %" PRIu64 " %" PRIu64, answer[1], answer[2], nodes);
        break;
    }
}

static void choose(size_t bytes) {
    uint64_t answer[KEYMOVE_OUT_WORDS];
    keymove_choose(sheet, bytes, 1000, KEYMOVE_MAX_ENTRIES, KEYMOVE_SCOUT, KEYMOVE_MUST_WIN,
                   chain, sizeof chain, words, KEYMOVE_WORDS, tags, KEYMOVE_TAGS,
                   answer, KEYMOVE_OUT_WORDS);
    puts("answer move value nodes");
    print(answer);
    puts("");
}

static void open_sheet(struct kept *k, size_t bytes, uint64_t answer[KEYMOVE_OUT_WORDS]) {
    keymove_open(k->session, KEYMOVE_SESSION_WORDS, sheet, bytes,
                 KEYMOVE_MAX_ENTRIES, KEYMOVE_SCOUT, KEYMOVE_MUST_WIN, chain, sizeof chain,
                 k->words, KEYMOVE_WORDS, k->tags, KEYMOVE_TAGS, answer, KEYMOVE_OUT_WORDS);
}

static void pick(struct kept *k, const uint64_t m[4], uint64_t answer[KEYMOVE_OUT_WORDS]) {
    keymove_pick(k->session, KEYMOVE_SESSION_WORDS, 1000, m[0], m[1], m[2], m[3],
                 k->words, KEYMOVE_WORDS, k->tags, KEYMOVE_TAGS, answer, KEYMOVE_OUT_WORDS);
}

/* The marking of places with commas between them; false where the text is something else. */
static int read_marking(const char *text, uint64_t m[4]) {
    char *end;
    memset(m, 0, 4 * sizeof *m);
    for (;; text = end + 1) {
        unsigned long place = strtoul(text, &end, 10);
        if (end == text || place > 255) return 0;
        m[place / 64] |= UINT64_C(1) << place % 64;
        if (*end != ',') return *end == 0;
    }
}

/* Chooses in a session, for each marking in turn. The sheet is opened once; for the nodes that a
   choice takes by itself it is opened again. */
static int play_on(size_t bytes, char **markings, int count) {
    uint64_t answer[KEYMOVE_OUT_WORDS], alone[KEYMOVE_OUT_WORDS], m[4];
    if (keymove_session_words() > KEYMOVE_SESSION_WORDS) {
        fputs("c_example: the archive is not that of keymove.h\n", stderr);
        return 2;
    }
    puts("answer move value nodes alone");
    open_sheet(&going_on, bytes, answer);
    if (answer[0] == KEYMOVE_REFUSED) {
        print(answer);
        puts(" -");
        return 0;
    }
    for (int i = 0; i < count; i++) {
        if (!read_marking(markings[i], m)) return usage();
        pick(&going_on, m, answer);
        open_sheet(&just_opened, bytes, alone);
        pick(&just_opened, m, alone);
        print(answer);
        printf(" %" PRIu64 "\n", alone[3]);
    }
    return 0;
}

int main(int argc, char **argv) {
    int status = 0;
    const char *name = argc > 1 ? argv[1] : "standard input";
    FILE *file = argc > 1 ? fopen(name, "rb") : stdin;
    if (!file) return failed(name);
    size_t bytes = fread(sheet, 1, sizeof sheet, file);
    if (ferror(file)) return failed(name);
    if (file != stdin) fclose(file);
    if (argc < 3) choose(bytes);
    else status = play_on(bytes, argv + 2, argc - 2);
    return fflush(stdout) ? failed("standard output") : status;
}
