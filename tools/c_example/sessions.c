/* Tests what include/keymove.h says of sessions: their size; the order of the refusals; markings; what
   each kind of answer leaves in session, words and tags, bit for bit; that a first choice is
   keymove_choose's; that later ones have the value that they must, and search less; that all can
   be copied, and that more or less may be lent; many choices; and sessions in turn:
     sessions [SHEETFILE..]
   First choices are made on these sheets too. Status 1 where something is otherwise. */
#include "sessions.h"

static int same_session(const struct kept *a, const struct kept *b) { return !memcmp(a->session, b->session, sizeof a->session); }

static int same_memo(const struct kept *a, const struct kept *b) {
    return !memcmp(a->words, b->words, sizeof a->words) && !memcmp(a->tags, b->tags, sizeof a->tags);
}

/* the size of a session, and what is refused before a session that is too short, and after */
static void session_size(void) {
    const struct lengths shorter = {KEYMOVE_SESSION_WORDS - 1, KEYMOVE_WORDS, KEYMOVE_TAGS, KEYMOVE_OUT_WORDS};
    const struct lengths just = {KEYMOVE_SESSION_WORDS, KEYMOVE_WORDS, KEYMOVE_TAGS, KEYMOVE_OUT_WORDS};
    hold(keymove_session_words() == KEYMOVE_SESSION_WORDS, "the words of a session");
    bag();
    paint(&here);
    was = here;
    open_lent(&here, usual, shorter);
    hold(refused(KEYMOVE_REFUSED_MEMORY) && same(&here, &was), "a session that is a word too short is not opened");
    open_lent(&here, (struct settings){1001, 3, 0, ""}, shorter);
    hold(refused(KEYMOVE_REFUSED_SETTINGS) && same(&here, &was), "the settings are refused before it");
    open_lent(&here, (struct settings){1001, 0, 0, "3"}, shorter);
    hold(refused(KEYMOVE_REFUSED_NO_GOALS) && same(&here, &was), "so are the goals");
    const size_t whole = bytes;
    add("void 0\n");
    open_lent(&here, (struct settings){1001, 3, 0, ""}, shorter);
    hold(out[0] == KEYMOVE_REFUSED && out[1] == KEYMOVE_REFUSED_SHEET && out[2] > 0 && same(&here, &was), "so is the sheet");
    bytes = whole;
    keymove_open(NULL, 0, (const uint8_t *)sheet, bytes, 1, 0, 0, NULL, 0, NULL, 0, NULL, 0, out, KEYMOVE_OUT_WORDS);
    hold(refused(KEYMOVE_REFUSED_MEMORY), "a session of no words at NULL");
    open_lent(&here, usual, just);
    hold(answers(KEYMOVE_OPENED, 0, 0, 0), "a session that is just as long as it must be");
    pick_lent(&here, 1000, marked(1, 0), just);
    hold(answers(KEYMOVE_EXACT, 0, out[2], out[3]) && value_of() == 1, "a choice in it");
    was = here;
    pick_lent(&here, KEYMOVE_MAX_BUDGET + 1, marked(1, BAG_PLACES), shorter);
    hold(refused(KEYMOVE_REFUSED_SETTINGS) && same(&here, &was), "the budget is refused before the session's words");
    pick_lent(&here, 1000, marked(1, BAG_PLACES), shorter);
    hold(refused(KEYMOVE_REFUSED_MEMORY) && same(&here, &was), "the marking behind them");
    keymove_pick(NULL, 0, 1000, 1, 0, 0, 0, NULL, 0, NULL, 0, out, KEYMOVE_OUT_WORDS);
    hold(refused(KEYMOVE_REFUSED_MEMORY), "a choice in no words at NULL");
}

/* the order of the refusals of a choice, and its budget */
static void session_order(void) {
    struct lengths little = all;
    little.words = 999;
    bag();
    paint(&here);
    open_on(&here, usual);
    hold(answers(KEYMOVE_OPENED, 0, 0, 0), "a sheet whose marking is not settled opens");
    pick_lent(&here, KEYMOVE_MAX_BUDGET + 1, marked(2, 3, BAG_PLACES), little);
    hold(refused(KEYMOVE_REFUSED_SETTINGS), "4 before 6");
    pick_lent(&here, 1000, marked(2, 3, BAG_PLACES), little);
    hold(refused(KEYMOVE_REFUSED_MEMORY), "6 before 13");
    pick_on(&here, 1000, marked(2, 3, BAG_PLACES));
    hold(refused(KEYMOVE_REFUSED_MARKING), "13 before 7");
    pick_on(&here, 1000, marked(2, 3, 10));
    hold(refused(KEYMOVE_REFUSED_UNSETTLED), "7 before the search");
    pick_on(&here, KEYMOVE_MAX_BUDGET, marked(1, 0));
    hold(out[0] == KEYMOVE_EXACT, "the largest budget");
    pick_on(&here, 0, marked(1, 11));
    hold(answers(KEYMOVE_SPENT, 0, 0, 1), "the smallest budget");
}

/* the settings that keymove_open refuses */
static uint64_t open_refusal(struct settings s) {
    paint(&here);
    was = here;
    open_on(&here, s);
    if (out[0] == KEYMOVE_OPENED) return 0;
    hold(out[0] == KEYMOVE_REFUSED && out[2] == 0 && out[3] == 0 && same(&here, &was), "a refused opening leaves all as it was");
    return out[1];
}

static void open_limits(void) {
    const uint64_t no = KEYMOVE_REFUSED_SETTINGS;
    one_move(2, 1, ONES);
    hold(open_refusal((struct settings){1, KEYMOVE_SINGLE, 0, "00000000"}) == 0, "the longest chain");
    hold(open_refusal((struct settings){KEYMOVE_MAX_ENTRIES, KEYMOVE_MTD, 3, ""}) == 0, "the most entries, both filters");
    hold(open_refusal((struct settings){KEYMOVE_MAX_ENTRIES + 1, KEYMOVE_SINGLE, 0, ""}) == no, "more entries");
    hold(open_refusal((struct settings){0, KEYMOVE_SINGLE, 0, ""}) == no, "no entry");
    hold(open_refusal((struct settings){1, KEYMOVE_MTD + 1, 0, ""}) == no, "driver 3");
    hold(open_refusal((struct settings){1, KEYMOVE_SINGLE, 4, ""}) == no, "filters 4");
    hold(open_refusal((struct settings){1, KEYMOVE_SINGLE, 0, "000000000"}) == no, "nine pieces");
    hold(open_refusal((struct settings){1, KEYMOVE_SINGLE, 0, "5"}) == no, "piece 5");
    hold(open_refusal((struct settings){1, KEYMOVE_SINGLE, 0, "4"}) == KEYMOVE_REFUSED_NO_GOALS, "a piece that needs goals");
}

/* An opening refuses the sheet as keymove_choose does, and leaves all as it was. */
static void open_refused(uint64_t number, uint64_t line) {
    paint(&here);
    was = here;
    open_on(&here, usual);
    hold(answers(KEYMOVE_REFUSED, number, line, 0) && same(&here, &was) && out_kept(KEYMOVE_OUT_WORDS), "a sheet that is refused is not opened");
    keymove_choose((const uint8_t *)sheet, bytes, 0, 1, 0, 0, NULL, 0, words, KEYMOVE_WORDS, tags, KEYMOVE_TAGS, out, KEYMOVE_OUT_WORDS);
    hold(answers(KEYMOVE_REFUSED, number, line, 0), "nor answered");
}

static void open_sheets(void) {
    static const char *const spoils[] = {"turn 0 - 1\n", "pay - 1 1 -\n", "turn 0 - 1 -\n"};
    static const uint64_t numbers[] = {KEYMOVE_REFUSED_SHEET, KEYMOVE_REFUSED_RANGE, KEYMOVE_REFUSED_ROLL};
    for (int i = 0; i < 3; i++) {
        begin(2, 1);
        add("turn 0 - 1 -\n%s", spoils[i]);
        open_refused(numbers[i], 4);
    }
    begin(1, 1);
    open_refused(KEYMOVE_REFUSED_ROLL, 0);
    bytes = 0;
    open_refused(KEYMOVE_REFUSED_SHEET, 1);
    begin(1, 1);
    add("turn 0 - 1 -\n");
    while (bytes <= KEYMOVE_MAX_SHEET_BYTES) add("\n");
    open_refused(KEYMOVE_REFUSED_SHEET, 0);
}

/* the memo of a session takes just so many words and tags */
static void session_takes(uint64_t entries, size_t w, size_t t) {
    const struct settings s = {entries, KEYMOVE_SCOUT, KEYMOVE_MUST_WIN, "012"};
    const struct lengths just = {KEYMOVE_SESSION_WORDS, w, t, KEYMOVE_OUT_WORDS};
    struct lengths word = just, tag = just;
    word.words--;
    tag.tags--;
    paint(&here);
    was = here;
    open_lent(&here, s, word);
    hold(refused(KEYMOVE_REFUSED_MEMORY) && same(&here, &was), "no opening with a word less");
    open_lent(&here, s, tag);
    hold(refused(KEYMOVE_REFUSED_MEMORY) && same(&here, &was), "no opening with a tag less");
    open_lent(&here, s, just);
    hold(answers(KEYMOVE_OPENED, 0, 0, 0) && bounds_kept(&here, w, t) && taken(w, t) == 0, "opening makes the memo's part zero, and no more");
    was = here;
    pick_lent(&here, 1000, marked(1, 0), word);
    hold(refused(KEYMOVE_REFUSED_MEMORY) && same(&here, &was), "no choice with a word less");
    pick_lent(&here, 1000, marked(1, 0), tag);
    hold(refused(KEYMOVE_REFUSED_MEMORY) && same(&here, &was), "no choice with a tag less");
    pick_lent(&here, 1000, marked(1, 0), just);
    hold(out[0] == KEYMOVE_EXACT && bounds_kept(&here, w, t), "a choice in just so much");
}

static void session_sizes(void) {
    static const int widths[] = {128, 192, 256}, entries[] = {1, 3, 4, 7, 1001, 1024};
    session_size();
    for (int i = 0; i < 3; i++)
        for (int wide = 0; wide < 2; wide++) {
            one_move(widths[i], wide ? 16 : 15, ONES);
            for (int j = 0; j < 6; j++) session_takes((uint64_t)entries[j], KEYMOVE_TAGS_FOR((size_t)entries[j]) * stride(widths[i], wide), KEYMOVE_TAGS_FOR((size_t)entries[j]));
        }
}

/* each place has a move of its own, and a marking is taken where its bits are below the number of places */
static void session_markings(void) {
    static const int places[] = {1, 2, 63, 64, 65, 127, 128, 129, 191, 192, 193, 255, 256};
    for (size_t i = 0; i < sizeof places / sizeof *places; i++) {
        begin(places[i], places[i]);
        for (int p = 0; p < places[i]; p++) add("turn %d - 1 -\nin %d %d 1 -\n", p, p, p);
        paint(&here);
        open_on(&here, usual);
        for (int p = 0; p < 256; p++) {
            pick_on(&here, 1000, marked(1, p));
            if (p < places[i]) hold(answers(KEYMOVE_EXACT, (uint64_t)p, 0, out[3]), "place p is bit p % 64 of word p / 64");
            else hold(refused(KEYMOVE_REFUSED_MARKING), "a bit at the number of places or beyond");
        }
    }
}

/* what a choice is given: the session has chosen before, so that it is not newly opened, and `was` is all of it */
static void chosen_before(struct settings s) {
    bag();
    paint(&there);
    open_on(&there, s);
    hold(answers(KEYMOVE_OPENED, 0, 0, 0) && out_kept(KEYMOVE_OUT_WORDS), "opened");
    here = there;
    pick_on(&here, 1000, marked(1, 0));
    hold(out[0] == KEYMOVE_EXACT && out[1] == 0 && value_of() == 1 && out_kept(KEYMOVE_OUT_WORDS), "exact");
    hold(!same_session(&here, &there) && !same_memo(&here, &there), "a choice is remembered in the session and in the memo");
    was = here;
}

/* what each kind of answer leaves; `there` is the session newly opened */
static void session_left(struct settings s) {
    const size_t t = KEYMOVE_TAGS_FOR(s.entries), w = 3 * t;
    struct lengths little = all;
    little.tags = t - 1;
    chosen_before(s);
    hold(bounds_kept(&here, w, t) && bounds_kept(&there, w, t), "what lies behind session and memo stays");
    pick_on(&here, KEYMOVE_MAX_BUDGET + 1, marked(1, 0));
    hold(refused(KEYMOVE_REFUSED_SETTINGS) && same(&here, &was), "4 leaves all as it was");
    pick_lent(&here, 1000, marked(1, 0), little);
    hold(refused(KEYMOVE_REFUSED_MEMORY) && same(&here, &was), "6 leaves all as it was");
    pick_on(&here, 1000, refused_by(KEYMOVE_REFUSED_MARKING));
    hold(refused(KEYMOVE_REFUSED_MARKING) && same(&here, &was), "13 leaves all as it was");
    pick_on(&here, 1000, refused_by(KEYMOVE_REFUSED_UNSETTLED));
    hold(refused(KEYMOVE_REFUSED_UNSETTLED) && same(&here, &was), "7 leaves all as it was");
    for (uint64_t x = KEYMOVE_REFUSED_MIXED; x <= KEYMOVE_REFUSED_DEEP; x++) {
        here = was;
        pick_on(&here, 1000, refused_by(x));
        hold(answers(KEYMOVE_REFUSED, x, 0, out[3]) && out_kept(KEYMOVE_OUT_WORDS), "refused by the search");
        hold(same(&here, &there), "8 to 12 leave the session newly opened, and the memo's part zero");
    }
    here = was;
    pick_on(&here, 2, marked(1, 11));
    hold(answers(KEYMOVE_SPENT, 0, 0, 3) && out_kept(KEYMOVE_OUT_WORDS) && bounds_kept(&here, w, t), "spent");
    hold(!same_session(&here, &there) && taken(w, t) > 0, "what was remembered before stays after it");
}

/* none moves on the choice's number, one word of the session, from 127 to 1 */
static void session_none(void) {
    chosen_before(usual);
    for (int i = 1; i <= 127; i++) {
        size_t other = 0;
        pick_on(&here, 0, marked(1, 2));
        hold(answers(KEYMOVE_NONE, 0, 0, 0) && same_memo(&here, &was) && out_kept(KEYMOVE_OUT_WORDS), "none leaves the memo as it was");
        for (size_t j = 0; j < KEYMOVE_SESSION_WORDS + SPARE; j++) other += here.session[j] != was.session[j];
        hold(other == (i < 127), "none moves on the choice's number, which comes again after 127 choices");
    }
}

/* what happens by the length of out */
static void session_out(void) {
    struct lengths l = all;
    bag();
    for (l.out = 0; l.out < KEYMOVE_OUT_WORDS; l.out++) {
        paint(&here);
        was = here;
        open_lent(&here, usual, l);
        hold(out_kept(0) && same(&here, &was), "no opening where out is shorter than four words");
        open_on(&here, usual);
        was = here;
        fill();
        pick_lent(&here, 1000, marked(1, 0), l);
        hold(out_kept(0) && same(&here, &was), "no choice where out is shorter than four words");
    }
    for (; l.out <= KEYMOVE_OUT_WORDS + SPARE; l.out++) {
        paint(&here);
        open_lent(&here, usual, l);
        hold(answers(KEYMOVE_OPENED, 0, 0, 0) && out_kept(KEYMOVE_OUT_WORDS), "an opening leaves words of out behind the fourth");
        fill();
        pick_lent(&here, 1000, marked(1, 0), l);
        hold(out[0] == KEYMOVE_EXACT && out_kept(KEYMOVE_OUT_WORDS), "so does a choice");
    }
}

/* the first choice, of the sheet's own marking, or the refusal of its opening, and keymove_choose: answer, words and tags */
static void first_is_call(struct settings s, uint64_t budget, struct marking m) {
    uint8_t pieces[KEYMOVE_MAX_PIECES + 1];
    uint64_t chosen[KEYMOVE_OUT_WORDS];
    paint(&here);
    memset(&there, 0, sizeof there);
    open_on(&there, s);
    open_on(&here, s);
    if (out[0] == KEYMOVE_OPENED) {
        hold(!memcmp(here.session, there.session, KEYMOVE_SESSION_WORDS * sizeof *here.session), "what the session holds does not matter to an opening");
        pick_on(&here, budget, m);
    }
    memcpy(chosen, out, sizeof chosen);
    size_t n = pieces_of(s.chain, pieces);
    fill();
    keymove_choose((const uint8_t *)sheet, bytes, budget, s.entries, s.driver, s.filters, pieces, n,
                   words, KEYMOVE_WORDS + SPARE, tags, KEYMOVE_TAGS + SPARE, out, KEYMOVE_OUT_WORDS);
    hold(!memcmp(chosen, out, sizeof chosen), "the first choice of the sheet's marking has the answer of keymove_choose");
    if (out[0] == KEYMOVE_REFUSED && out[1] == KEYMOVE_REFUSED_UNSETTLED) return;
    hold(!memcmp(here.words, words, sizeof words) && !memcmp(here.tags, tags, sizeof tags), "and leaves the same words and tags");
}

static void first_choices(void) {
    static const char *chains[] = {"", "012", "21001"};
    static const uint64_t entries[] = {1, 3, 8, 1024}, budgets[] = {0, 1, 10, 60, 1000};
    for (int i = 0; i < 3 * 4 * 3 * 4 * 5; i++) {
        const struct settings s = {entries[i / 3 % 4], (uint64_t)(i % 3), (uint64_t)(i / 36 % 4), chains[i / 12 % 3]};
        nim();
        first_is_call(s, budgets[i / 144], marked(4, 1, 4, 9, 10));
        bag();
        first_is_call(s, budgets[i / 144], refused_by(KEYMOVE_REFUSED_UNSETTLED));
    }
    /* no move; and a refusal from the search */
    begin(2, 2);
    add("mark - 1 1 -\nturn 0 - 1 -\nin 0 0 1 -\nturn 1 - -1 -\nin 1 0 1 -\n");
    first_is_call(usual, 1000, marked(1, 1));
    begin(2, 2);
    add("mark - 0 1 -\nturn 0 - 1 -\nin 0 0 1 -\nturn 1 - -1 -\nin 1 0 1 -\n");
    first_is_call(usual, 1000, marked(1, 0));
}

/* the sheet of a file, with the marking of its rows */
static struct marking read_sheet(const char *name) {
    struct marking m = {{0}};
    FILE *file = fopen(name, "rb");
    if (!file) abort();
    bytes = fread(sheet, 1, sizeof sheet - 1, file);
    fclose(file);
    sheet[bytes] = 0;
    for (char *row = sheet, *end; (row = strstr(row, "\nmark - ")); row = end) {
        unsigned long p = strtoul(row + 8, &end, 10);
        if (!strncmp(end, " 1 -", 4)) m.word[p / 64] |= UINT64_C(1) << p % 64;
    }
    return m;
}

static void first_of_file(const char *name) {
    static const char *chains[] = {"", "0", "2", "012", "21001", "43210432"};
    for (uint64_t i = 0; i < 3 * 4 * 6; i++) {
        const struct marking m = read_sheet(name);
        first_is_call((struct settings){i < 36 ? 1024 : 20, i % 3, i / 3 % 4, chains[i / 12]}, 1000, m);
    }
}

/* Every position of nim in one session: the values are right, whatever was remembered, and fewer nodes are searched than without. */
static void play_nim(struct settings s) {
    uint64_t together = 0, alone = 0;
    nim();
    paint(&here);
    open_on(&here, s);
    for (int i = 0; i < NIM_POSITIONS; i++) {
        int value;
        const struct marking m = nim_at(i, &value);
        pick_on(&here, 1000, m);
        const uint64_t kind = out[0];
        hold(kind == KEYMOVE_EXACT ? value_of() == value && out[3] <= 1000 : answers(KEYMOVE_NONE, 0, 0, 0), "the value of nim");
        together += out[3];
        open_on(&there, s);
        pick_on(&there, 1000, m);
        hold(out[0] == kind, "the same kind of answer in a session just opened");
        alone += out[3];
    }
    hold(together < alone, "a session saves nodes");
}

/* how many positions of nim, of 60 at random, have another key in a session than in one just opened; the value is the same */
static int other_keys(struct settings s) {
    int other = 0, value;
    paint(&here);
    open_on(&here, s);
    for (int i = 0; i < 60; i++) {
        const struct marking m = nim_at((int)(random_word() % NIM_POSITIONS), &value);
        pick_on(&here, 1000, m);
        const uint64_t kind = out[0], key = out[1];
        hold(kind == KEYMOVE_NONE || (kind == KEYMOVE_EXACT && value_of() == value), "the value of nim, in any order");
        open_on(&there, s);
        pick_on(&there, 1000, m);
        other += out[1] != key;
    }
    return other;
}

static void play_at_random(void) {
    static const char *chains[] = {"", "0", "2", "012"};
    int other = 0;
    nim();
    for (uint64_t i = 0; i < 48; i++) other += other_keys((struct settings){i + 1, i % 3, i / 3 % 4, chains[i / 12]});
    hold(other > 0, "another key, where there are several");
}

/* the answers to the first n positions of nim, from the i-th on */
static void nim_from(struct kept *k, int i, int n, uint64_t answered[][KEYMOVE_OUT_WORDS]) {
    int value;
    for (int j = 0; j < n; j++) {
        pick_on(k, 1000, nim_at((i + j) % NIM_POSITIONS, &value));
        memcpy(answered[j], out, sizeof answered[j]);
    }
}

/* a session is copied elsewhere, and written over where it was; a copy is a session of its own; more and less memory is lent */
static void session_copied(void) {
    static uint64_t first[20][KEYMOVE_OUT_WORDS], again[20][KEYMOVE_OUT_WORDS];
    const size_t t = KEYMOVE_TAGS_FOR(usual.entries);
    const struct lengths just = {KEYMOVE_SESSION_WORDS, 3 * t, t, KEYMOVE_OUT_WORDS};
    int value;
    nim();
    paint(&here);
    open_on(&here, usual);
    nim_from(&here, 0, 5, first);
    was = here;
    nim_from(&here, 5, 20, first);
    there = was;
    paint(&was);
    nim_from(&there, 5, 20, again);
    hold(!memcmp(first, again, sizeof first) && same(&here, &there), "a copy of a session goes on as the session");
    was = there;
    nim_from(&there, 40, 20, again);
    hold(same(&here, &was), "and leaves it alone");
    nim_from(&here, 40, 20, first);
    hold(!memcmp(first, again, sizeof first) && same(&here, &there), "which goes on as its copy did");
    for (int i = 0; i < NIM_POSITIONS; i++) {
        pick_lent(&here, 1000, nim_at(i, &value), i % 2 ? just : all);
        memcpy(first[0], out, sizeof first[0]);
        pick_lent(&there, 1000, nim_at(i, &value), i % 2 ? all : just);
        hold(!memcmp(first[0], out, sizeof first[0]) && same(&here, &there) && bounds_kept(&here, 3 * t, t), "only the memo's part of what is lent counts");
    }
}

/* the same marking again and again, more often than there are numbers for choices */
static void session_long(struct settings s) {
    uint64_t second[KEYMOVE_OUT_WORDS] = {0};
    int value;
    nim();
    paint(&here);
    open_on(&here, s);
    for (int i = 1; i <= 300; i++) {
        pick_on(&here, 1000, nim_at(0, &value));
        hold(out[0] == KEYMOVE_EXACT && value_of() == value, "exact, again and again");
        if (i == 2) memcpy(second, out, sizeof second);
        if (i > 2) hold(!memcmp(second, out, sizeof second), "what is remembered stays so through 300 choices");
    }
}

/* two sessions of two sheets, in turn and one after another */
static void sessions_in_turn(void) {
    static struct kept one, two;
    static uint64_t turns[2][NIM_POSITIONS][KEYMOVE_OUT_WORDS];
    static const struct settings other = {8, KEYMOVE_MTD, KEYMOVE_NON_LOSING, "2"};
    int value;
    bag();
    paint(&two);
    open_on(&two, other);
    was = two;
    nim();
    paint(&one);
    open_on(&one, usual);
    here = one;
    for (int i = 0; i < NIM_POSITIONS; i++) {
        pick_on(&one, 1000, nim_at(i, &value));
        memcpy(turns[0][i], out, sizeof turns[0][i]);
        pick_on(&two, 100, i % 5 ? marked(1, 11 + i) : marked(1, i % 3));
        memcpy(turns[1][i], out, sizeof turns[1][i]);
    }
    for (int i = 0; i < NIM_POSITIONS; i++) {
        pick_on(&here, 1000, nim_at(i, &value));
        hold(!memcmp(turns[0][i], out, sizeof turns[0][i]), "a session knows nothing of another: the first");
    }
    for (int i = 0; i < NIM_POSITIONS; i++) {
        pick_on(&was, 100, i % 5 ? marked(1, 11 + i) : marked(1, i % 3));
        hold(!memcmp(turns[1][i], out, sizeof turns[1][i]), "a session knows nothing of another: the second");
    }
    hold(same(&one, &here) && same(&two, &was), "the two are left as one after another leaves them");
}

/* MTD's root is answered by the memo, and the child is final: no node, which no budget is too small for */
static void no_nodes(void) {
    begin(2, 3);
    add("pay - 1 1 -\npay - 2 -1 -\nturn 0 - 1 -\nturn 1 - 1 -\nin 0 0 1 -\nout 0 1 1 -\nin 1 0 1 -\nout 1 2 1 -\n");
    paint(&here);
    open_on(&here, (struct settings){8, KEYMOVE_MTD, 0, ""});
    pick_on(&here, 1000, marked(1, 0));
    hold(out[0] == KEYMOVE_EXACT && out[3] > 0, "exact");
    pick_on(&here, 0, marked(1, 0));
    hold(out[0] == KEYMOVE_EXACT && out[1] == 0 && value_of() == 1 && out[3] == 0, "an exact answer with the count 0");
}

int main(int argc, char **argv) {
    session_sizes();
    session_order();
    open_limits();
    open_sheets();
    session_markings();
    for (uint64_t driver = 0; driver < 3; driver++) {
        session_left((struct settings){1001, driver, KEYMOVE_MUST_WIN, "012"});
        session_left((struct settings){8, driver, 0, "12"});
        play_nim((struct settings){1001, driver, KEYMOVE_MUST_WIN, "012"});
        play_nim((struct settings){40, driver, KEYMOVE_MUST_WIN + KEYMOVE_NON_LOSING, "2"});
        session_long((struct settings){1001, driver, 0, "2"});
    }
    play_at_random();
    session_none();
    session_out();
    first_choices();
    for (int i = 1; i < argc; i++) first_of_file(argv[i]);
    session_copied();
    sessions_in_turn();
    no_nodes();
    printf("sessions: %lu tests of what the header says\n", tests);
    return 0;
}

