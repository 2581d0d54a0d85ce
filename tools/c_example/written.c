/* Tests what include/keymove.h says of a session and its memo that somebody wrote: a choice has an
   answer, and a count, and nothing outside the slices is written; the refusals that leave the
   words as they were leave these so too. Status 1 where something is otherwise. */
#include "sessions.h"

/* the answer of a choice in memory that was written; whether it is a `spent` within the budget */
static int spent_within(void) {
    hold(out[0] <= KEYMOVE_REFUSED && out_kept(KEYMOVE_OUT_WORDS), "an answer");
    hold(out[0] == KEYMOVE_SPENT ? out[3] <= 101 : out[3] <= 100, "a count");
    return out[0] == KEYMOVE_SPENT && out[3] <= 100;
}

/* Somebody writes into the session, a word at a time of the last ones: the refusals that leave the words leave these as they are too.
   Only the first is certain; it may be the settings that were written. */
static void written_words(void) {
    struct lengths little = all;
    little.tags = 0;
    bag();
    paint(&there);
    open_on(&there, usual);
    pick_on(&there, 1000, marked(1, 0));
    for (size_t i = 0; i < 600; i++) {
        here = there;
        here.session[KEYMOVE_SESSION_WORDS - 1 - i] ^= random_word();
        was = here;
        pick_on(&here, KEYMOVE_MAX_BUDGET + 1, marked(1, 0));
        hold(refused(KEYMOVE_REFUSED_SETTINGS) && same(&here, &was), "4 leaves written words");
        pick_lent(&here, 1000, marked(1, 0), little);
        hold(out[0] == KEYMOVE_REFUSED && out[1] <= KEYMOVE_REFUSED_MEMORY && same(&here, &was), "4 and 6 leave written words");
        pick_on(&here, 1000, refused_by(KEYMOVE_REFUSED_MARKING));
        hold((refused(KEYMOVE_REFUSED_MARKING) || refused(KEYMOVE_REFUSED_SETTINGS) || refused(KEYMOVE_REFUSED_MEMORY)) && same(&here, &was), "so does 13");
        pick_on(&here, 1000, refused_by(KEYMOVE_REFUSED_UNSETTLED));
        if (refused(KEYMOVE_REFUSED_UNSETTLED)) hold(same(&here, &was), "and 7");
    }
}

/* Somebody writes into the memo, or into the session. */
static void written(struct settings s) {
    const size_t t = KEYMOVE_TAGS_FOR(s.entries), w = 3 * t;
    int value;
    nim();
    paint(&there);
    open_on(&there, s);
    pick_on(&there, 1000, nim_at(0, &value));
    for (int i = 0; i < 3000; i++) {
        here = there;
        for (uint64_t n = random_word() % 4; n < 4; n++) {
            here.words[random_word() % w] ^= UINT64_C(1) << random_word() % 64;
            here.tags[random_word() % t] ^= (uint8_t)(random_word() % 2);
            if (i % 3 == 1) here.session[KEYMOVE_SESSION_WORDS - 1 - random_word() % 600] = random_word() >> random_word() % 64;
            if (i % 3 == 2) here.session[random_word() % KEYMOVE_SESSION_WORDS] = random_word() >> random_word() % 64;
        }
        pick_on(&here, 100, nim_at(i % 7, &value));
        spent_within();
        hold(bounds_kept(&here, 7 * t, t), "nothing is written outside the slices");
    }
    paint(&here);
    pick_on(&here, 100, nim_at(0, &value));
    spent_within();
}

/* A bit of two words beside each other, for all of the memo's words: they are the two bounds of the root's row somewhere, and then
   no child has its value. */
static void written_bounds(void) {
    const struct settings s = {8, KEYMOVE_SINGLE, 0, ""};
    const size_t w = 8 * stride(2, 1);
    int within = 0;
    one_move(2, 17, ONES);
    paint(&there);
    open_on(&there, s);
    pick_on(&there, 100, marked(1, 0));
    for (size_t i = 0; i < (w - 1) * 64; i++) {
        here = there;
        here.words[i / 64] ^= UINT64_C(1) << i % 64;
        here.words[i / 64 + 1] ^= UINT64_C(1) << i % 64;
        pick_on(&here, 100, marked(1, 0));
        within += spent_within();
        hold(bounds_kept(&here, w, 8), "nothing is written behind the memo's part");
    }
    hold(within > 0, "spent within the budget");
}

int main(void) {
    for (uint64_t driver = 0; driver < 3; driver++) written((struct settings){64, driver, 0, "02"});
    written_words();
    written_bounds();
    printf("written: %lu tests of what the header says\n", tests);
    return 0;
}
