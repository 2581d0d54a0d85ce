/* How much stack a call of each entry of the archive takes (but for keymove_session_words, which
   only gives a number), and whether KEYMOVE_STACK_BYTES of include/keymove.h is enough. Each
   call runs in a thread whose stack is memory of our own, painted before: what it takes is
   counted from the frame that makes the call down to the deepest byte that is no longer as
   painted. (What was set aside below that byte and never written is not seen; tools/stack/bound
   counts it.) The calls are the deepest that we know: 64 moves and more below a run's root, each
   driver, both filters, chains of eight with all pieces, compact and wide rows of the memo, with
   goals and without, moves that are settled, positions with one move and with three, and a run
   of a child that goes deeper than the root's: keymove_choose's; and with the same settings a
   sheet is opened in words that are too few, and as a session, in which its marking is chosen
   for with several budgets, one after another. The deepest of each entry is made again in
   threads that have less than it takes, each in a process of its own, and all of them in one
   thread of just KEYMOVE_STACK_BYTES. Status 1 where a call takes more, or answers otherwise
   there. */
#define _POSIX_C_SOURCE 200809L
#include <inttypes.h>
#include <pthread.h>
#include <signal.h>
#include <stdarg.h>
#include <stdint.h>
#include <stdio.h>
#include <stdlib.h>
#include <string.h>
#include <sys/resource.h>
#include <sys/wait.h>
#include <unistd.h>

#include "keymove.h"

enum { PAGE = 4096, SIZE = 4 << 20, PAINT = 0xA7, CASES = 8192 };

enum entry { CHOOSE, OPEN, PICK, ENTRIES };
static const char *const names[ENTRIES] = {"keymove_choose", "keymove_open", "keymove_pick"};

struct sheet {
    char *text;
    size_t bytes;
    char name[64];
};

struct call {
    enum entry entry;
    const struct sheet *sheet;
    size_t session; /* its words that are lent */
    uint64_t budget, entries, driver, filters;
    const char *chain;
    uint64_t out[KEYMOVE_OUT_WORDS];
    char *frame; /* of the function that made the call */
};

static struct call calls[CASES];
static size_t count;
static uint64_t session[KEYMOVE_SESSION_WORDS];
static uint64_t words[KEYMOVE_WORDS];
static uint8_t tags[KEYMOVE_TAGS];

static void stop(const char *why) {
    printf("stack: %s\n", why);
    exit(1);
}

static void add(struct sheet *s, const char *form, ...) {
    va_list list;
    va_start(list, form);
    int n = vsnprintf(s->text + s->bytes, KEYMOVE_MAX_SHEET_BYTES + 1 - s->bytes, form, list);
    va_end(list);
    if (n < 0 || s->bytes + (size_t)n > KEYMOVE_MAX_SHEET_BYTES) stop("a sheet that is too long");
    s->bytes += (size_t)n;
}

static struct sheet *fresh(const char *form, ...) {
    struct sheet *s = malloc(sizeof *s);
    if (!s || !(s->text = malloc(KEYMOVE_MAX_SHEET_BYTES + 1))) stop("no memory");
    s->bytes = 0;
    va_list list;
    va_start(list, form);
    vsnprintf(s->name, sizeof s->name, form, list);
    va_end(list);
    return s;
}

/* The sides in turn move a token along `moves` + 1 places, whose last pays 1. `ways` moves lead on
   from each place, of which all but one end at places that pay nothing. Each move also rings
   a bell, which an automatic transition takes away again, if `settled`. `wide`: five rewards more,
   which are never paid, so that the memo's rows are wide. `goals`: two, for the chain's pieces 3
   and 4; with none, non-losing plays every reply. */
static struct sheet *line(int moves, int ways, int settled, int wide, int goals) {
    struct sheet *s = fresh("line of %d, %d ways%s%s%s", moves, ways, settled ? ", settled" : "", wide ? ", wide" : "", goals ? ", goals" : "");
    const int bell = moves + 1, first = bell + 1, second = first + 1, paid = second + 1, off = paid + 1, rest = off + 2;
    int t = ways * moves;
    add(s, "row at place n cap\nsize %d %d - -\nmark - 0 1 -\npay - %d 1 -\npay - %d 1 -\n", t + 3, rest + 5, moves, paid);
    for (int i = 0; wide && i < 5; i++) add(s, "pay - %d %d -\n", rest + i, 1 << i);
    for (int i = 0; i < t; i++) {
        int at = i / ways, way = i % ways;
        add(s, "turn %d - %d -\nin %d %d 1 -\nout %d %d 1 -\n", i, at % 2 ? -1 : 1, i, at, i, way ? off + way - 1 : at + 1);
        if (settled) add(s, "out %d %d 1 -\n", i, bell);
    }
    add(s, "auto %d - 0 -\nin %d %d 1 -\n", t, t, bell);
    for (int i = 1; i < 3; i++) {
        add(s, "auto %d - 0 -\nin %d %d 1 -\nin %d %d 1 -\n", t + i, t + i, first, t + i, i == 1 ? bell : second);
        if (goals) add(s, "out %d %d 1 -\n", t + i, paid);
    }
    return s;
}

/* Move 0 ends the game at 1; move 1 leads to a position, A, with a move to the other side's
   choice between an end at 0 and a line of moves, and a move that ends at 2. The run of the root passes
   over the line, as 0 is less than 1. With one entry the memo has forgotten A when it is
   checked, and that run goes down the line: the search begins a function deeper than the root's. */
static struct sheet *late(int moves) {
    struct sheet *s = fresh("line of %d, late", moves);
    add(s, "row at place n cap\nsize %d %d - -\nmark - 0 1 -\npay - 2 1 -\npay - 3 2 -\npay - 6 -1 -\n", moves + 6, moves + 8);
    static const int from[] = {0, 0, 1, 1, 4, 4}, to[] = {2, 1, 4, 3, 5, 7};
    for (int t = 0; t < 6; t++) add(s, "turn %d - %d -\nin %d %d 1 -\nout %d %d 1 -\n", t, t < 4 ? 1 : -1, t, from[t], t, to[t]);
    for (int i = 0; i < moves; i++) add(s, "turn %d - %d -\nin %d %d 1 -\nout %d %d 1 -\n", i + 6, i % 2 ? -1 : 1, i + 6, i + 7, i + 6, i + 8);
    return s;
}

/* a sheet as long as may be: of 256 transitions and places, `void` again and again */
static struct sheet *longest(void) {
    struct sheet *s = fresh("the longest sheet");
    add(s, "row at place n cap\nsize 256 256 - -\nmark - 0 1 -\npay - 255 1 -\n");
    for (int t = 0; t < 256; t++) add(s, "%s %d - 1 -\nin %d 0 1 -\n", t ? "turn" : "auto", t, t);
    while (s->bytes + 13 <= KEYMOVE_MAX_SHEET_BYTES) add(s, "void 0 - - -\n");
    return s;
}

static void one(struct call c) {
    if (count == CASES) stop("too many calls");
    calls[count++] = c;
}

/* a call; an opening in a session that is too short; then a session, in which a choice that is spent at once, one that is spent on
   its way, the whole search, and one that begins with all that is remembered */
static void with(const struct sheet *s, uint64_t budget, uint64_t entries, uint64_t driver, uint64_t filters, const char *chain) {
    const uint64_t budgets[] = {0, 40, budget, budget};
    const struct call open = {OPEN, s, KEYMOVE_SESSION_WORDS, budget, entries, driver, filters, chain, {0}, NULL};
    struct call choose = open, little = open, pick = open;
    choose.entry = CHOOSE;
    little.session--;
    pick.entry = PICK;
    one(choose);
    one(little);
    one(open);
    for (size_t i = 0; i < sizeof budgets / sizeof *budgets; i++) {
        pick.budget = budgets[i];
        one(pick);
    }
}

static void cases(void) {
    static const char *chains[] = {"", "01201201", "43210432"};
    static const int moves[] = {1, 64, 65, 66, 80};
    for (size_t i = 0; i < sizeof moves / sizeof *moves; i++)
        for (int form = 0; form < 16; form++) {
            const int ways = form & 1 ? 3 : 1, settled = form >> 1 & 1, wide = form >> 2 & 1, goals = form >> 3;
            const struct sheet *s = line(moves[i], ways, settled, wide, goals);
            with(s, 0, KEYMOVE_MAX_ENTRIES, 0, 0, "");
            for (uint64_t driver = 0; driver < 3; driver++)
                for (int c = 0; c < 2 + goals; c++) with(s, 1000, KEYMOVE_MAX_ENTRIES, driver, KEYMOVE_MUST_WIN + KEYMOVE_NON_LOSING, chains[c]);
        }
    with(longest(), 1000, KEYMOVE_MAX_ENTRIES, KEYMOVE_SCOUT, KEYMOVE_MUST_WIN + KEYMOVE_NON_LOSING, "43210432");
    for (int n = 60; n < 68; n++)
        for (uint64_t filters = 0; filters < 4; filters++) with(late(n), 1000, 1, KEYMOVE_SINGLE, filters, "");
}

static void run(struct call *c) {
    uint8_t pieces[KEYMOVE_MAX_PIECES];
    size_t n = strlen(c->chain);
    for (size_t i = 0; i < n; i++) pieces[i] = (uint8_t)(c->chain[i] - '0');
    c->frame = (char *)&pieces;
    switch (c->entry) {
    case OPEN:
        keymove_open(session, c->session, (const uint8_t *)c->sheet->text, c->sheet->bytes, c->entries, c->driver, c->filters, pieces, n,
                     words, KEYMOVE_WORDS, tags, KEYMOVE_TAGS, c->out, KEYMOVE_OUT_WORDS);
        break;
    case PICK: /* of place 0, the marking of each sheet */
        keymove_pick(session, c->session, c->budget, 1, 0, 0, 0, words, KEYMOVE_WORDS, tags, KEYMOVE_TAGS, c->out, KEYMOVE_OUT_WORDS);
        break;
    default:
        keymove_choose((const uint8_t *)c->sheet->text, c->sheet->bytes, c->budget, c->entries, c->driver, c->filters, pieces, n,
                       words, KEYMOVE_WORDS, tags, KEYMOVE_TAGS, c->out, KEYMOVE_OUT_WORDS);
    }
}

static void *run_one(void *c) {
    run(c);
    return NULL;
}

/* all calls; NULL where each answer is as before */
static void *run_all(void *unused) {
    (void)unused;
    for (size_t i = 0; i < count; i++) {
        struct call c = calls[i];
        run(&c);
        if (memcmp(c.out, calls[i].out, sizeof c.out)) return calls + i;
    }
    return NULL;
}

static void *in_thread(const pthread_attr_t *attr, void *(*work)(void *), void *with_this) {
    pthread_t thread;
    void *result;
    if (pthread_create(&thread, attr, work, with_this) || pthread_join(thread, &result)) stop("no thread");
    return result;
}

/* how far below its caller's frame a call went */
static size_t need(struct call *c, char *stack) {
    pthread_attr_t attr;
    unsigned char painted[64];
    memset(painted, PAINT, sizeof painted);
    memset(stack, PAINT, SIZE);
    if (pthread_attr_init(&attr) || pthread_attr_setstack(&attr, stack, SIZE)) stop("no stack of our own");
    in_thread(&attr, run_one, c);
    pthread_attr_destroy(&attr);
    size_t i = 0;
    while (i < SIZE && !memcmp(stack + i, painted, sizeof painted)) i += sizeof painted;
    while (i < SIZE && (unsigned char)stack[i] == PAINT) i++;
    if (i == 0 || c->frame < stack + i) stop("the paint says nothing");
    return (size_t)(c->frame - (stack + i));
}

/* the calls from the one that opened its session, for a choice, up to this one, each on the stack of this thread */
static void come_to(struct call *c) {
    struct call *from = c;
    while (from->entry == PICK) from--;
    for (; from < c; from++) run(from);
}

/* the signal that ends a process which makes the call in a thread of so many bytes; 0 where it ends by itself */
static int signal_in(size_t size, struct call *c) {
    fflush(stdout);
    pid_t child = fork();
    if (child < 0) stop("no process");
    if (child == 0) {
        const struct rlimit no_core = {0, 0};
        pthread_attr_t attr;
        setrlimit(RLIMIT_CORE, &no_core);
        if (pthread_attr_init(&attr) || pthread_attr_setstacksize(&attr, size)) _exit(3);
        in_thread(&attr, run_one, c);
        _exit(0);
    }
    int status;
    if (waitpid(child, &status, 0) != child || (WIFEXITED(status) && WEXITSTATUS(status) == 3)) stop("the process is lost");
    return WIFSIGNALED(status) ? WTERMSIG(status) : 0;
}

/* measures the calls; finds the deepest of each entry, with what it takes */
static void measure(struct call *deepest[ENTRIES], size_t most[ENTRIES], size_t made[ENTRIES]) {
    char *stack = aligned_alloc(PAGE, SIZE);
    if (!stack) stop("no memory");
    for (size_t i = 0; i < count; i++) {
        struct call *c = calls + i;
        size_t n = need(c, stack);
        made[c->entry]++;
        if (n > most[c->entry] || !deepest[c->entry]) most[c->entry] = n, deepest[c->entry] = c;
    }
}

/* the call, which takes so many bytes, ends by SIGSEGV in threads that have less */
static void cut_short(struct call *c, size_t most) {
    const size_t sizes[] = {most / PAGE * PAGE - PAGE, most / 2, 16 * PAGE};
    come_to(c);
    for (size_t i = 0; i < sizeof sizes / sizeof *sizes; i++)
        if (signal_in(sizes[i] / PAGE * PAGE, c) != SIGSEGV) stop("a call in a thread with less than its need does not end by SIGSEGV");
}

int main(void) {
    pthread_attr_t attr;
    struct call *deepest[ENTRIES] = {NULL};
    size_t most[ENTRIES] = {0}, made[ENTRIES] = {0};
    cases();
    measure(deepest, most, made);
    for (int i = 0; i < ENTRIES; i++) {
        struct call *c = deepest[i];
        printf("stack: %zu bytes at the most in %zu calls of %s: %s, budget %" PRIu64 ", driver %" PRIu64 ", filters %" PRIu64 ", chain %s, answer %" PRIu64 " %" PRIu64 " %" PRIu64 "\n",
               most[i], made[i], names[i], c->sheet->name, c->budget, c->driver, c->filters, c->chain, c->out[0], c->out[1], c->out[3]);
        if (most[i] > KEYMOVE_STACK_BYTES) stop("KEYMOVE_STACK_BYTES is less");
    }
    /* (before any thread whose stack the library keeps: it would be taken again for a smaller one) */
    for (int i = 0; i < ENTRIES; i++) cut_short(deepest[i], most[i]);
    printf("stack: with less than their need these end by SIGSEGV\n");
    if (pthread_attr_init(&attr) || pthread_attr_setstacksize(&attr, KEYMOVE_STACK_BYTES)) stop("no thread of this size");
    if (in_thread(&attr, run_all, NULL)) stop("another answer in a thread of KEYMOVE_STACK_BYTES");
    printf("stack: all calls run in a thread of KEYMOVE_STACK_BYTES, %d\n", KEYMOVE_STACK_BYTES);
    return 0;
}
