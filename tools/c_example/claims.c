/* Tests what include/keymove.h says of keymove_choose (sessions.c tests what it says of sessions): the
   sizes of the memo for every number of entries, for sheets of each stride (refusal 6 begins where
   a word or a tag is missing); the limits; slices of length 0 at NULL; what is written to `out` of
   each length; what each kind of answer leaves in words and tags. Status 1 where something is
   otherwise. */
#include "claims.h"

static const uint8_t chain[KEYMOVE_MAX_PIECES + 1] = {0};

/* a call on the sheet with the settings of the program keymove, but for budget and entries, and so many words and tags */
static void call(uint64_t budget, uint64_t entries, size_t w, size_t t) {
    static const uint8_t own[] = {KEYMOVE_REMEMBERED, KEYMOVE_IMMEDIATE_WIN, KEYMOVE_HISTORY};
    keymove_choose((const uint8_t *)sheet, bytes, budget, entries, KEYMOVE_SCOUT, KEYMOVE_MUST_WIN, own, sizeof own,
                   words, w, tags, t, out, KEYMOVE_OUT_WORDS);
}

static int no_memory(uint64_t entries, size_t w, size_t t) {
    call(0, entries, w, t);
    return answers(KEYMOVE_REFUSED, KEYMOVE_REFUSED_MEMORY, 0, 0);
}

/* the memo takes just so many words and tags on this sheet */
static void takes(uint64_t entries, size_t w, size_t t) {
    hold(!no_memory(entries, w, t), "the memo has room in its words and tags");
    hold(no_memory(entries, w - 1, t), "a word less is refused");
    hold(no_memory(entries, w, t - 1), "a tag less is refused");
}

static void sizes(void) {
    static const int widths[] = {128, 192, 256};
    for (int i = 0; i < 3; i++)
        for (int wide = 0; wide < 2; wide++) {
            one_move(widths[i], wide ? 16 : 15, ONES);
            for (uint64_t n = 1; n <= KEYMOVE_MAX_ENTRIES; n++) {
                size_t rows = n < 4 ? n : n & ~(uint64_t)3;
                takes(n, rows * stride(widths[i], wide), rows);
                hold(rows == KEYMOVE_TAGS_FOR(n) && rows * 7 == KEYMOVE_WORDS_FOR(n), "the macros");
                if (stride(widths[i], wide) == 7) takes(n, KEYMOVE_WORDS_FOR(n), KEYMOVE_TAGS_FOR(n));
                hold(KEYMOVE_WORDS_FOR(n) <= KEYMOVE_WORDS && KEYMOVE_TAGS_FOR(n) <= KEYMOVE_TAGS, "the greatest sizes");
            }
        }
    for (int places = 1; places <= 256; places++) {
        /* the number of distinct sums is 1, 1, 16, 16; then 17 rewards, and 17 and 32 sums */
        static const struct { int pays; enum rewards of; int wide; } nets[] =
            {{0, ZEROS, 0}, {16, ZEROS, 0}, {15, ONES, 0}, {4, POWERS, 0}, {17, ZEROS, 1}, {16, ONES, 1}, {5, POWERS, 1}};
        for (size_t i = 0; i < sizeof nets / sizeof *nets; i++) {
            one_move(places, nets[i].pays, nets[i].of);
            takes(1, stride(places, nets[i].wide), 1);
        }
    }
    hold(KEYMOVE_WORDS == KEYMOVE_WORDS_FOR(KEYMOVE_MAX_ENTRIES) && KEYMOVE_TAGS == KEYMOVE_TAGS_FOR(KEYMOVE_MAX_ENTRIES),
         "the greatest memo is that of the most entries");
}

/* the number of the refusal of a call with these settings, 0 where it is not refused */
static uint64_t refusal(uint64_t budget, uint64_t entries, uint64_t driver, uint64_t filters, const uint8_t *pieces, size_t n) {
    keymove_choose((const uint8_t *)sheet, bytes, budget, entries, driver, filters, pieces, n, words, KEYMOVE_WORDS, tags, KEYMOVE_TAGS,
                   out, KEYMOVE_OUT_WORDS);
    return out[0] == KEYMOVE_REFUSED ? out[1] : 0;
}

static void limits(void) {
    static const uint8_t four = KEYMOVE_THREATS, five = 5;
    const uint64_t no = KEYMOVE_REFUSED_SETTINGS;
    one_move(2, 1, ONES);
    hold(refusal(KEYMOVE_MAX_BUDGET, 1, KEYMOVE_SINGLE, 0, chain, KEYMOVE_MAX_PIECES) == 0, "the largest budget, the longest chain");
    hold(refusal(KEYMOVE_MAX_BUDGET + 1, 1, KEYMOVE_SINGLE, 0, NULL, 0) == no, "a larger budget");
    hold(refusal(0, KEYMOVE_MAX_ENTRIES, KEYMOVE_MTD, KEYMOVE_MUST_WIN + KEYMOVE_NON_LOSING, NULL, 0) == 0, "the most entries, both filters");
    hold(refusal(0, KEYMOVE_MAX_ENTRIES + 1, KEYMOVE_SINGLE, 0, NULL, 0) == no, "more entries");
    hold(refusal(0, 0, KEYMOVE_SINGLE, 0, NULL, 0) == no, "no entry");
    hold(refusal(0, 1, KEYMOVE_MTD + 1, 0, NULL, 0) == no, "driver 3");
    hold(refusal(0, 1, KEYMOVE_SINGLE, 4, NULL, 0) == no, "filters 4");
    hold(refusal(0, 1, KEYMOVE_SINGLE, 0, chain, KEYMOVE_MAX_PIECES + 1) == no, "nine pieces");
    hold(refusal(0, 1, KEYMOVE_SINGLE, 0, &five, 1) == no, "piece 5");
    hold(refusal(0, 1, KEYMOVE_SINGLE, 0, &four, 1) == KEYMOVE_REFUSED_NO_GOALS, "a piece that needs goals");
    /* as long as a sheet may be, by lines of 13 and of 14 bytes, and one byte longer */
    const size_t lines = (KEYMOVE_MAX_SHEET_BYTES - bytes) / 13, longer = (KEYMOVE_MAX_SHEET_BYTES - bytes) % 13;
    for (size_t i = 0; i < lines; i++) add(i < longer ? "out 0 1 100 -\n" : "void 0 - - -\n");
    hold(bytes == KEYMOVE_MAX_SHEET_BYTES && refusal(0, 1, KEYMOVE_SINGLE, 0, NULL, 0) == 0, "the longest sheet");
    add("\n");
    hold(refusal(0, 1, KEYMOVE_SINGLE, 0, NULL, 0) == KEYMOVE_REFUSED_SHEET && out[2] == 0, "a longer sheet");
}

static void slices(void) {
    fill();
    keymove_choose(NULL, 0, 1, 1, 0, 0, NULL, 0, NULL, 0, NULL, 0, out, KEYMOVE_OUT_WORDS);
    hold(answers(KEYMOVE_REFUSED, KEYMOVE_REFUSED_SHEET, 1, 0), "an empty sheet at NULL");
    one_move(2, 1, ONES);
    keymove_choose((const uint8_t *)sheet, bytes, 1, 1, 0, 0, NULL, 0, NULL, 0, NULL, 0, out, KEYMOVE_OUT_WORDS);
    hold(answers(KEYMOVE_REFUSED, KEYMOVE_REFUSED_MEMORY, 0, 0), "no memory at NULL");
    keymove_choose(NULL, 0, 1, 1, 0, 0, NULL, 0, NULL, 0, NULL, 0, NULL, 0);
    for (size_t n = 0; n < KEYMOVE_OUT_WORDS; n++) {
        fill();
        keymove_choose((const uint8_t *)sheet, bytes, 1, 1024, 0, 0, NULL, 0, words, KEYMOVE_WORDS, tags, KEYMOVE_TAGS, out, n);
        hold(out_kept(0) && words_kept(0) && tags_kept(0), "nothing happens where out is shorter than four words");
    }
    for (size_t n = KEYMOVE_OUT_WORDS; n <= KEYMOVE_OUT_WORDS + SPARE; n++) {
        fill();
        keymove_choose((const uint8_t *)sheet, bytes, 1000, 1024, 0, 0, NULL, 0, words, KEYMOVE_WORDS, tags, KEYMOVE_TAGS, out, n);
        hold(out[0] == KEYMOVE_EXACT && out_kept(KEYMOVE_OUT_WORDS), "words of out behind the fourth stay");
    }
}

/* after a call with 1,001 entries on all of the memory: how many words and tags of the memo's part are not 0; the rest is as it was */
static size_t left_by(uint64_t budget, size_t w) {
    fill();
    call(budget, 1001, KEYMOVE_WORDS + SPARE, KEYMOVE_TAGS + SPARE);
    hold(words_kept(w) && tags_kept(1000) && out_kept(KEYMOVE_OUT_WORDS), "what lies behind the memo's part stays");
    return taken(w, 1000);
}

static void left(void) {
    const size_t w = 1000 * 3;
    double value;
    uint64_t bits;
    /* a line of two moves, the second of side -1 or of side 1, to a place that pays -3 */
    for (int side = -1; side < 2; side += 2) {
        begin(2, 3);
        add("mark - 0 1 -\npay - 2 -3 -\nturn 0 - 1 -\nturn 1 - %d -\nin 0 0 1 -\nout 0 1 1 -\nin 1 1 1 -\nout 1 2 1 -\n", side);
        size_t rows = left_by(1000, w);
        memcpy(&value, &out[2], sizeof value);
        hold(out[0] == KEYMOVE_EXACT && out[1] == 0 && value == -3 && out[3] <= 1000, "exact");
        hold(rows > 0 && rows <= 4 * out[3], "an exact answer leaves the rows of its search");
    }
    left_by(0, w);
    hold(answers(KEYMOVE_SPENT, 0, 0, 1) && taken(w, 1000) == 0, "spent at the first node, which stores nothing");
    left_by(1, w);
    hold(answers(KEYMOVE_SPENT, 0, 0, 2), "spent");
    /* the second move puts a second token on a place */
    begin(2, 3);
    add("mark - 0 1 -\nmark - 2 1 -\nturn 0 - 1 -\nturn 1 - 1 -\nin 0 0 1 -\nout 0 1 1 -\nin 1 1 1 -\nout 1 2 1 -\n");
    hold(left_by(1000, w) == 0 && out[0] == KEYMOVE_REFUSED && out[1] == KEYMOVE_REFUSED_SPILLED, "a refusal from the state leaves zeros");
    /* no move */
    begin(1, 1);
    add("turn 0 - 1 -\nin 0 0 1 -\n");
    hold(left_by(1000, w) == 0 && answers(KEYMOVE_NONE, 0, 0, 0), "none leaves zeros");
    /* zero is +0.0 */
    begin(1, 1);
    add("pay - 0 -1 -\nmark - 0 1 -\nturn 0 - -1 -\nin 0 0 1 -\n");
    left_by(1000, w);
    value = 0;
    memcpy(&bits, &value, sizeof bits);
    hold(out[0] == KEYMOVE_EXACT && out[2] == bits, "zero has no sign");
    /* refusals from the input */
    const char *spoils[] = {"turn 0 - 1\n", "pay - 1 1 -\n", "turn 0 - 1 -\n", "auto 1 - 1 -\n"};
    const uint64_t numbers[] = {KEYMOVE_REFUSED_SHEET, KEYMOVE_REFUSED_RANGE, KEYMOVE_REFUSED_ROLL, KEYMOVE_REFUSED_UNSETTLED};
    for (int i = 0; i < 4; i++) {
        begin(2, 1);
        add("turn 0 - 1 -\n%s", spoils[i]);
        fill();
        call(1000, 1001, KEYMOVE_WORDS, KEYMOVE_TAGS);
        hold(answers(KEYMOVE_REFUSED, numbers[i], i < 3 ? 4 : 0, 0), "refused from the input");
        hold(words_kept(0) && tags_kept(0), "a refusal from the input leaves all as it was");
    }
}

int main(void) {
    sizes();
    limits();
    slices();
    left();
    printf("claims: %lu tests of what the header says\n", tests);
    return 0;
}
