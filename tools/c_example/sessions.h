/* What sessions.c and written.c share: a session in painted memory, calls on it, and two sheets. */
#include "claims.h"

/* a session and its memo, with a word before them and words behind each */
struct kept {
    uint64_t before;
    uint64_t session[KEYMOVE_SESSION_WORDS + SPARE];
    uint64_t words[KEYMOVE_WORDS + SPARE];
    uint8_t tags[KEYMOVE_TAGS + SPARE];
};

static struct kept here, there, was;

static inline void paint(struct kept *k) {
    fill();
    k->before = word_at(1);
    for (size_t i = 0; i < KEYMOVE_SESSION_WORDS + SPARE; i++) k->session[i] = word_at(i);
    memcpy(k->words, words, sizeof words);
    memcpy(k->tags, tags, sizeof tags);
}

static inline int same(const struct kept *a, const struct kept *b) { return !memcmp(a, b, sizeof *a); }

/* what lies behind the session and behind so many words and tags is as it was painted */
static inline int bounds_kept(const struct kept *k, size_t w, size_t t) {
    memcpy(words, k->words, sizeof words);
    memcpy(tags, k->tags, sizeof tags);
    size_t i = KEYMOVE_SESSION_WORDS;
    while (i < KEYMOVE_SESSION_WORDS + SPARE && k->session[i] == word_at(i)) i++;
    return i == KEYMOVE_SESSION_WORDS + SPARE && k->before == word_at(1) && words_kept(w) && tags_kept(t);
}

struct settings {
    uint64_t entries, driver, filters;
    const char *chain;
};

static const struct settings usual = {1001, KEYMOVE_SCOUT, KEYMOVE_MUST_WIN, "012"};

struct lengths {
    size_t session, words, tags, out;
};

static const struct lengths all = {KEYMOVE_SESSION_WORDS + SPARE, KEYMOVE_WORDS + SPARE, KEYMOVE_TAGS + SPARE, KEYMOVE_OUT_WORDS + SPARE};

static inline size_t pieces_of(const char *text, uint8_t pieces[KEYMOVE_MAX_PIECES + 1]) {
    size_t n = strlen(text);
    for (size_t i = 0; i < n; i++) pieces[i] = (uint8_t)(text[i] - '0');
    return n;
}

static inline void open_lent(struct kept *k, struct settings s, struct lengths l) {
    uint8_t pieces[KEYMOVE_MAX_PIECES + 1];
    size_t n = pieces_of(s.chain, pieces);
    keymove_open(k->session, l.session, (const uint8_t *)sheet, bytes, s.entries, s.driver, s.filters, pieces, n,
                 k->words, l.words, k->tags, l.tags, out, l.out);
}

struct marking {
    uint64_t word[4];
};

static inline struct marking marked(int n, ...) {
    struct marking m = {{0}};
    va_list list;
    va_start(list, n);
    for (int i = 0; i < n; i++) {
        int p = va_arg(list, int);
        m.word[p / 64] |= UINT64_C(1) << p % 64;
    }
    va_end(list);
    return m;
}

static inline void pick_lent(struct kept *k, uint64_t budget, struct marking m, struct lengths l) {
    keymove_pick(k->session, l.session, budget, m.word[0], m.word[1], m.word[2], m.word[3], k->words, l.words, k->tags, l.tags, out, l.out);
}

static inline void open_on(struct kept *k, struct settings s) { open_lent(k, s, all); }

static inline void pick_on(struct kept *k, uint64_t budget, struct marking m) { pick_lent(k, budget, m, all); }

static inline int refused(uint64_t number) { return answers(KEYMOVE_REFUSED, number, 0, 0); }

/* A marking for each kind of answer: moves from place 0 to 1 and 2 (exact; none at 2); an automatic transition from 3; a move that
   spills from 4 and 5; moves of both sides from 6; one without end from 7; 65 moves from 10; and a line of 66 from 11 to 77. */
enum { BAG_PLACES = 78 };

static inline void bag(void) {
    static const char *first[] = {"turn 0 - 1 -\nin 0 0 1 -\nout 0 1 1 -\n", "turn 1 - -1 -\nin 1 1 1 -\nout 1 2 1 -\n", "auto 2 - 0 -\nin 2 3 1 -\n",
        "turn 3 - 1 -\nin 3 4 1 -\nout 3 5 1 -\n", "turn 4 - 1 -\nin 4 6 1 -\n", "turn 5 - -1 -\nin 5 6 1 -\n", "turn 6 - 1 -\nin 6 7 1 -\nout 6 8 1 -\n",
        "auto 7 - 0 -\nin 7 8 1 -\nout 7 9 1 -\n", "auto 8 - 0 -\nin 8 9 1 -\nout 8 8 1 -\n"};
    begin(9 + 65 + 66, BAG_PLACES);
    add("mark - 3 1 -\npay - 2 1 -\npay - 1 -5 -\n");
    for (int t = 0; t < 9; t++) add("%s", first[t]);
    for (int t = 9; t < 74; t++) add("turn %d - 1 -\nin %d 10 1 -\n", t, t);
    for (int t = 74; t < 140; t++) add("turn %d - %d -\nin %d %d 1 -\nout %d %d 1 -\n", t, t % 2 ? -1 : 1, t, t - 63, t, t - 62);
}

static inline struct marking refused_by(uint64_t number) {
    switch (number) {
    case KEYMOVE_REFUSED_UNSETTLED: return marked(1, 3);
    case KEYMOVE_REFUSED_MIXED: return marked(1, 6);
    case KEYMOVE_REFUSED_SPILLED: return marked(2, 4, 5);
    case KEYMOVE_REFUSED_ENDLESS: return marked(1, 7);
    case KEYMOVE_REFUSED_WIDE: return marked(1, 10);
    case KEYMOVE_REFUSED_DEEP: return marked(1, 11);
    default: return marked(2, 0, BAG_PLACES);
    }
}

/* Nim with heaps of 1, 2 and 4: the place of a heap's number of stones, and the mover's place, 10 for side 1. Who cannot move loses. */
enum { NIM_TURN = 10, NIM_MOVES = 28, NIM_POSITIONS = 2 * 3 * 5 * 2 };
static const int heap_of[] = {1, 2, 4}, heap_at[] = {0, 2, 5};

static inline void nim(void) {
    begin(NIM_MOVES, NIM_TURN + 2);
    add("mark - 1 1 -\nmark - 4 1 -\nmark - 9 1 -\nmark - 10 1 -\npay - 10 -1 -\npay - 11 1 -\n");
    int t = 0;
    for (int side = 0; side < 2; side++)
        for (int h = 0; h < 3; h++)
            for (int n = 1; n <= heap_of[h]; n++)
                for (int left = 0; left < n; left++, t++)
                    add("turn %d - %d -\nin %d %d 1 -\nout %d %d 1 -\nin %d %d 1 -\nout %d %d 1 -\n", t, side ? -1 : 1,
                        t, NIM_TURN + side, t, NIM_TURN + 1 - side, t, heap_at[h] + n, t, heap_at[h] + left);
    hold(t == NIM_MOVES, "nim's moves");
}

/* the position i of nim, from all stones with side 1 to move, i = 0, down to none */
static inline struct marking nim_at(int i, int *value) {
    const int side = i % 2, a = 1 - i / 2 % 2, b = 2 - i / 4 % 3, c = 4 - i / 12 % 5;
    *value = ((a ^ b ^ c) != 0) == !side ? 1 : -1;
    return marked(4, a, heap_at[1] + b, heap_at[2] + c, NIM_TURN + side);
}

static inline double value_of(void) {
    double value;
    memcpy(&value, &out[2], sizeof value);
    return value;
}

static uint64_t random_state = 1;
static inline uint64_t random_word(void) {
    random_state = random_state * UINT64_C(6364136223846793005) + UINT64_C(1442695040888963407);
    return random_state >> 33 ^ random_state << 31;
}
