/* Replays cases for the requests (lists/cases, in the form of lists/README.md) from standard input through the archive's entries. Each operation is held to the lines after it: the
   answer's words, bit by bit, and the hash of the lent memory. Beside that, at each one: guards on both sides of each buffer; what is not to be written is as before (what is only read,
   the words behind an answer, behind the memo's part and behind the session's words, and session and memory where a refusal keeps them); with too few words for the answer the entry
   does nothing; with too few for the session it is refused where 6 stands; and the session goes on from a copy of its words at another address.
   Last line: how many cases and operations, and how many failed. Status 1 where one failed, 2 where the file is not as it should be. */
#include <inttypes.h>
#include <stdint.h>
#include <stdio.h>
#include <stdlib.h>
#include <string.h>

#include "keymove.h"

/* until include/keymove.h has them */
uint64_t keymove_session_words(void);
void keymove_open(uint64_t *session, size_t session_len, const uint8_t *sheet, size_t sheet_len, uint64_t entries, uint64_t driver, uint64_t filters, const uint8_t *chain, size_t chain_len,
                  uint64_t *words, size_t words_len, uint8_t *tags, size_t tags_len, uint64_t *out, size_t out_len);
void keymove_pick(uint64_t *session, size_t session_len, uint64_t budget, uint64_t m0, uint64_t m1, uint64_t m2, uint64_t m3, uint64_t *words, size_t words_len, uint8_t *tags, size_t tags_len,
                  uint64_t *out, size_t out_len);

enum { GUARD = 16, SHEET = 65537, WORDS = 10100, TAGS = 2100, LINE = 127, OUT = 6, BEHIND = 5, OPENED = 4 };
static const uint64_t WORD = 0x5EED5EED5EED5EED;
static const uint8_t BYTE = 0xD5;

/* memory lent to calls, of so many words and tags between the guards, of which a memo needs the first */
typedef struct {
    size_t w, t, need_w, need_t;
    uint64_t words[WORDS + 2 * GUARD];
    uint8_t tags[TAGS + 2 * GUARD];
} Lent;

/* what an operation gave: the words of its answer, and the memory that it was on */
typedef struct {
    uint64_t out[OUT + 2 * GUARD];
    Lent *on;
    const char *wrong; /* why it fails, whatever its answer is */
} Given;

static Lent call, kept, before;
static uint8_t sheet[SHEET + GUARD];
static size_t bytes;
static uint8_t chain[LINE + GUARD];
static size_t pieces;
static uint64_t *session, *other, *old; /* the words of the session between guards, those that they are copied to, and those of before the call */
static size_t session_words;
static int is_open;
static char name[LINE + 1];
static uint64_t cases, operations, failed, lines;

static void broken(const char *why, const char *line) {
    printf("cases: line %" PRIu64 ": %s: %s\n", lines, why, line);
    exit(2);
}

/* reads a line without its end; 0 at the end of the file */
static int next(char *line) {
    if (!fgets(line, LINE + 2, stdin)) return 0;
    lines++;
    size_t n = strlen(line);
    if (n == 0 || line[n - 1] != '\n') broken("too long, or without an end", line);
    line[n - 1] = 0;
    return 1;
}

static void guard(uint64_t *words, size_t n) {
    for (size_t i = 0; i < n; i++) words[i] = WORD;
}

static int guards(const uint64_t *words, size_t n) {
    for (size_t i = 0; i < GUARD; i++)
        if (words[i] != WORD || words[GUARD + n + i] != WORD) return 0;
    return 1;
}

static int byte_guards(const uint8_t *tags, size_t n) {
    for (size_t i = 0; i < GUARD; i++)
        if (tags[i] != BYTE || tags[GUARD + n + i] != BYTE) return 0;
    return 1;
}

/* so many words and tags, as the cases begin with them */
static void fill(Lent *m, size_t w, size_t t) {
    m->w = w, m->t = t;
    guard(m->words, WORDS + 2 * GUARD);
    memset(m->tags, BYTE, sizeof m->tags);
    for (size_t i = 0; i < w; i++) m->words[GUARD + i] = 0xabcd0123456789ef;
    memset(m->tags + GUARD, 0x5a, t);
}

static uint64_t hashed(uint64_t h, uint64_t byte) { return (h ^ (byte & 255)) * 1099511628211u; }

static uint64_t memory_hash(const Lent *m) {
    uint64_t h = 14695981039346656037u;
    for (size_t i = 0; i < 8 * m->w; i++) h = hashed(h, m->words[GUARD + i / 8] >> i % 8 * 8);
    for (size_t i = 0; i < m->t; i++) h = hashed(h, m->tags[GUARD + i]);
    return h;
}

/* what is only read, hashed */
static uint64_t read_hash(void) {
    uint64_t h = 14695981039346656037u;
    for (size_t i = 0; i < sizeof sheet; i++) h = hashed(h, sheet[i]);
    for (size_t i = 0; i < sizeof chain; i++) h = hashed(h, chain[i]);
    return h;
}

static void read_sheet(const char *line) {
    char text[LINE + 2];
    size_t n;
    if (sscanf(line, "sheet %zu", &n) != 1) broken("no sheet", line);
    memset(sheet, BYTE, sizeof sheet);
    sheet[sizeof sheet - 1] = 0;
    for (bytes = 0; n--; bytes += strlen(text)) {
        if (!next(text)) broken("the sheet is cut", line);
        strcat(text, "\n");
        if (SHEET - bytes < strlen(text)) broken("a sheet over 65,537 bytes", line);
        memcpy(sheet + bytes, text, strlen(text));
    }
}

/* the call, as all of this file makes it */
static void choose(const uint64_t set[3], uint64_t budget, uint64_t *words, size_t w, uint8_t *tags, size_t t, uint64_t *out, size_t n) {
    keymove_choose(sheet, bytes, budget, set[0], set[1], set[2], chain, pieces, words, w, tags, t, out, n);
}

/* the least of the other settings: which of 1 to 3 the sheet is refused with, if any */
static int sheet_refused(void) {
    uint64_t words[7], out[4];
    uint8_t tags[1];
    keymove_choose(sheet, bytes, 0, 1, 0, 0, chain, 0, words, 7, tags, 1, out, 4);
    return out[0] == KEYMOVE_REFUSED && out[1] <= KEYMOVE_REFUSED_ROLL;
}

/* adds a reward to the distinct sums, of which there may be 17 at most */
static size_t add_reward(long *sums, size_t n, long reward) {
    size_t had = n;
    for (size_t i = 0; i < had && n <= 16; i++) {
        size_t j = 0;
        while (j < n && sums[j] != sums[i] + reward) j++;
        if (j == n) sums[n++] = sums[i] + reward;
    }
    return n;
}

/* words of a row, by what include/keymove.h says of the sheet */
static size_t stride(void) {
    long sums[33] = {0}, places = 1, reward;
    size_t n = 1, pays = 0;
    for (const uint8_t *at = sheet; at < sheet + bytes; at = (const uint8_t *)memchr(at, '\n', sizeof sheet) + 1) {
        sscanf((const char *)at, "size %*d %ld", &places);
        if (sscanf((const char *)at, "pay - %*d %ld", &reward) == 1 && ++pays <= 16) n = add_reward(sums, n, reward);
    }
    return (places <= 128 ? 2 : places <= 192 ? 3 : 4) + (pays <= 16 && n <= 16 ? 1 : 3);
}

/* how much a memo needs; or, where there is none, what the cases lend */
static void need(Lent *m, uint64_t entries) {
    m->need_w = 10000, m->need_t = 2000;
    if (entries < 1 || entries > KEYMOVE_MAX_ENTRIES || sheet_refused()) return;
    m->need_t = KEYMOVE_TAGS_FOR(entries);
    m->need_w = m->need_t * stride();
}

/* so many words and tags as are needed, and x and y more */
static void lend(const Lent *m, long x, long y, size_t *w, size_t *t, const char *line) {
    long a = (long)m->need_w + x, b = (long)m->need_t + y;
    if (a < 0 || b < 0 || a > WORDS || b > TAGS) broken("more or less memory than can be lent", line);
    *w = (size_t)a, *t = (size_t)b;
}

/* the fields behind the budget: three numbers, the chain, x and y */
static void settings(const char *fields, uint64_t set[3], long more[2], const char *line) {
    char digits[LINE + 1];
    int end = 0;
    if (sscanf(fields, "%" SCNu64 " %" SCNu64 " %" SCNu64 " %127s %ld %ld%n", set, set + 1, set + 2, digits, more, more + 1, &end) != 6 || fields[end])
        broken("no settings", line);
    memset(chain, BYTE, sizeof chain);
    pieces = strcmp(digits, "-") ? strlen(digits) : 0;
    for (size_t i = 0; i < pieces; i++) chain[i] = (uint8_t)(digits[i] - '0');
}

/* nothing was written but what the answer lets be: the first `named` words of it, the memo's part of the memory, the session's words */
static void judge(Given *g, size_t named, uint64_t reading, int keeps_memory, int keeps_session) {
    const Lent *m = g->on;
    size_t w = keeps_memory ? 0 : m->need_w, t = keeps_memory ? 0 : m->need_t;
    if (w > m->w) w = m->w;
    if (t > m->t) t = m->t;
    if (!guards(g->out, OUT) || !guards(m->words, WORDS) || !byte_guards(m->tags, TAGS)) g->wrong = "a guard was written";
    for (size_t i = named; i < OUT; i++)
        if (g->out[GUARD + i] != WORD) g->wrong = "a word behind the answer's was written";
    if (memcmp(m->words + GUARD + w, before.words + GUARD + w, 8 * (WORDS + GUARD - w))) g->wrong = "words behind the memo's part, or that stay, were written";
    if (memcmp(m->tags + GUARD + t, before.tags + GUARD + t, TAGS + GUARD - t)) g->wrong = "tags behind the memo's part, or that stay, were written";
    if (read_hash() != reading) g->wrong = "the sheet or the chain was written";
    if (!guards(session, session_words + BEHIND)) g->wrong = "a guard of the session was written";
    if (memcmp(session + GUARD + session_words, old + GUARD + session_words, 8 * BEHIND)) g->wrong = "words behind the session's were written";
    if (keeps_session && memcmp(session, old, 8 * (session_words + BEHIND + 2 * GUARD))) g->wrong = "the session was written";
}

/* before an operation: what is there is noted */
static void note(Given *g, Lent *on) {
    guard(g->out, OUT + 2 * GUARD);
    g->on = on;
    before = *on;
    memcpy(old, session, 8 * (session_words + BEHIND + 2 * GUARD));
}

static int keeps(const uint64_t *answer) {
    return answer[0] == KEYMOVE_REFUSED && (answer[1] <= KEYMOVE_REFUSED_UNSETTLED || answer[1] == 13);
}

static void run_choose(const char *line, Given *g) {
    uint64_t budget, set[3], reading;
    long more[2];
    int at;
    if (sscanf(line, "choose %" SCNu64 " %n", &budget, &at) != 1) broken("no call", line);
    settings(line + at, set, more, line);
    need(&call, set[0]);
    lend(&call, more[0], more[1], &call.w, &call.t, line);
    fill(&call, call.w, call.t);
    note(g, &call);
    reading = read_hash();
    choose(set, budget, call.words + GUARD, call.w, call.tags + GUARD, call.t, g->out + GUARD, operations % 4);
    judge(g, 0, reading, 1, 1);
    choose(set, budget, call.words + GUARD, call.w, call.tags + GUARD, call.t, g->out + GUARD, OUT);
    judge(g, 4, reading, keeps(g->out + GUARD), 1);
}

/* opening in a session of so many words */
static void open_in(const uint64_t set[3], size_t words, uint64_t *out, size_t n) {
    keymove_open(session + GUARD, words, sheet, bytes, set[0], set[1], set[2], chain, pieces, kept.words + GUARD, kept.w, kept.tags + GUARD, kept.t, out, n);
}

/* whether `got`, with too few words for a session, is `want` if that comes before refusal 6, or else refusal 6 */
static int is_short(const uint64_t got[4], const uint64_t want[4], uint64_t before_6) {
    static const uint64_t six[4] = {KEYMOVE_REFUSED, KEYMOVE_REFUSED_MEMORY, 0, 0};
    return !memcmp(got, want[0] == KEYMOVE_REFUSED && want[1] <= before_6 ? want : six, sizeof six);
}

static void run_open(const char *line, Given *g) {
    uint64_t set[3], reading, shorter[4], *out = g->out + GUARD;
    long more[2];
    settings(line + 5, set, more, line);
    need(&kept, set[0]);
    lend(&kept, more[0], more[1], &kept.w, &kept.t, line);
    fill(&kept, kept.w, kept.t);
    guard(session, session_words + BEHIND + 2 * GUARD);
    note(g, &kept);
    reading = read_hash();
    open_in(set, session_words, out, operations % 4);
    judge(g, 0, reading, 1, 1);
    open_in(set, operations % 3 ? session_words - 1 : operations % session_words, out, OUT);
    judge(g, 4, reading, 1, 1);
    memcpy(shorter, out, sizeof shorter);
    open_in(set, session_words + operations % BEHIND, out, OUT);
    is_open = out[0] == OPENED;
    judge(g, 4, reading, !is_open, !is_open);
    if (!is_short(shorter, out, KEYMOVE_REFUSED_NO_GOALS)) g->wrong = "opened with too few words for a session, or refused otherwise";
}

/* a choice in a session of so many words */
static void pick_in(const uint64_t m[5], size_t words, size_t w, size_t t, uint64_t *out, size_t n) {
    keymove_pick(session + GUARD, words, m[0], m[1], m[2], m[3], m[4], kept.words + GUARD, w, kept.tags + GUARD, t, out, n);
}

/* the session's words at another address, and other words where they were */
static void move_session(void) {
    uint64_t *from = session;
    memcpy(other, session, 8 * (session_words + BEHIND + 2 * GUARD));
    session = other, other = from;
    guard(other, session_words + BEHIND + 2 * GUARD);
}

static void run_pick(const char *line, Given *g) {
    uint64_t m[5], reading = read_hash(), shorter[4], *out = g->out + GUARD;
    long more[2];
    size_t w, t;
    int end = 0;
    if (sscanf(line, "pick %" SCNu64 " %" SCNx64 " %" SCNx64 " %" SCNx64 " %" SCNx64 " %ld %ld%n", m, m + 1, m + 2, m + 3, m + 4, more, more + 1, &end) != 7 || line[end] || !is_open)
        broken("no choice", line);
    lend(&kept, more[0], more[1], &w, &t, line);
    if (w > kept.w || t > kept.t) broken("more memory than the session's", line);
    if (operations % 3 == 0) move_session();
    note(g, &kept);
    pick_in(m, session_words, w, t, out, operations % 4);
    judge(g, 0, reading, 1, 1);
    pick_in(m, operations % 3 ? session_words - 1 : operations % session_words, w, t, out, OUT);
    judge(g, 4, reading, 1, 1);
    memcpy(shorter, out, sizeof shorter);
    pick_in(m, session_words + operations % BEHIND, w, t, out, OUT);
    judge(g, 4, reading, keeps(out), keeps(out));
    if (!is_short(shorter, out, KEYMOVE_REFUSED_SETTINGS)) g->wrong = "a choice with too few words for a session is not refused as it should be";
}

static void poke(const char *line, int tags) {
    size_t i;
    uint64_t v;
    if (sscanf(line, tags ? "poketag %zu %" SCNx64 : "poke %zu %" SCNx64, &i, &v) != 2 || i >= (tags ? kept.t : kept.w) || (tags && v > 255)) broken("nothing to write", line);
    if (tags) kept.tags[GUARD + i] = (uint8_t)v;
    else kept.words[GUARD + i] = v;
}

/* the words of an answer that is expected */
static void wanted(const char *line, uint64_t want[4]) {
    double value;
    memset(want, 0, 4 * sizeof *want);
    if (!strcmp(line, "none")) want[0] = KEYMOVE_NONE;
    else if (!strcmp(line, "opened")) want[0] = OPENED;
    else if (sscanf(line, "spent %" SCNu64, want + 3) == 1) want[0] = KEYMOVE_SPENT;
    else if (sscanf(line, "refused %" SCNu64 " %" SCNu64 " %" SCNu64, want + 1, want + 2, want + 3) == 3) want[0] = KEYMOVE_REFUSED;
    else if (sscanf(line, "exact %" SCNu64 " %lf %" SCNu64, want + 1, &value, want + 3) == 3) memcpy(want + 2, &value, 8);
    else broken("no answer", line);
}

/* one line that is expected of an operation: its answer, the first, or its memory */
static void hold(const char *line, const Given *g, const char *of, int first) {
    uint64_t want[4], hash, left = memory_hash(g->on);
    const uint64_t *got = g->out + GUARD;
    int fits;
    if (!first) {
        if (sscanf(line, "memory %" SCNx64, &hash) != 1) broken("nothing that is expected", line);
        fits = hash == left;
    } else {
        wanted(line, want);
        fits = !memcmp(want, got, sizeof want) && !g->wrong;
    }
    if (fits) return;
    failed++;
    if (failed <= 10)
        printf("cases: line %" PRIu64 " (%s): %s: %s, but gave %" PRIu64 " %" PRIu64 " %" PRIu64 " %" PRIu64 " and left %016" PRIx64 "%s%s\n", lines, name, of, line, got[0], got[1], got[2],
               got[3], left, g->wrong ? ": " : "", g->wrong ? g->wrong : "");
}

static int begins(const char *line, const char *word) { return !strncmp(line, word, strlen(word)); }

static void prepare(void) {
    session_words = (size_t)keymove_session_words();
    size_t n = session_words + BEHIND + 2 * GUARD;
    session = malloc(8 * n), other = malloc(8 * n), old = malloc(8 * n);
    if (!session || !other || !old) broken("no memory for a session", "");
    guard(session, n);
    fill(&kept, 0, 0);
}

/* an operation; 0 where the line is none that has an answer */
static int operation(const char *line, Given *g) {
    g->wrong = NULL;
    if (begins(line, "choose ")) run_choose(line, g);
    else if (begins(line, "open ")) run_open(line, g);
    else if (begins(line, "pick ")) run_pick(line, g);
    else if (begins(line, "case ")) cases++, is_open = 0, strcpy(name, line + 5);
    else if (begins(line, "sheet ")) read_sheet(line);
    else if (begins(line, "poke ")) poke(line, 0);
    else if (begins(line, "poketag ")) poke(line, 1);
    else broken("a line of another kind", line);
    return begins(line, "choose ") || begins(line, "open ") || begins(line, "pick ");
}

int main(void) {
    static Given given;
    char line[LINE + 2], of[LINE + 2] = "";
    int answers = 0, seen = 0; /* of the operation: whether it has an answer, and how many lines were held to it */
    prepare();
    while (next(line)) {
        if (begins(line, "> ")) {
            if (!answers) broken("expected of nothing", line);
            hold(line + 2, &given, of, !seen++);
            continue;
        }
        if (answers && !seen) broken("nothing is expected of the operation before", line);
        strcpy(of, line);
        answers = operation(line, &given), seen = 0;
        operations += (uint64_t)answers;
    }
    if (!operations || (answers && !seen)) broken("no operation, or the file was cut", "");
    printf("cases: %" PRIu64 " cases, %" PRIu64 " operations through the archive, %" PRIu64 " failed\n", cases, operations, failed);
    return failed != 0;
}
