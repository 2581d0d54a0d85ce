/* The key move of a two-sided game on a Petri net, for programs in C and C++: the entries of the
   archive libkeymove_c.a, which `rt lib` in crates/keymove_c makes. The README describes sheets,
   answers and settings; crates/keymove_c/specs has the definitions that the entries are proved
   equal to; tools/c_example has programs that use them, and tests of what is said here.

   keymove_choose answers a sheet. keymove_open opens one as a session, and keymove_pick answers a
   marking of its net, and another, each with what is remembered of those before.

   Slices. A slice is a pointer and a length, the number of its elements. The pointer is true and
   aligned for as many elements; with length 0 it may be any, NULL too. Slices that are given to
   one call do not overlap. `const` ones are only read. Nothing else is asked of a caller: every
   sheet and every number has an answer.

   Answers. `out` takes KEYMOVE_OUT_WORDS words, which are written for every answer, a refusal too;
   words behind them stay as they were. Where `out` is shorter, the call does nothing at all:
   neither `out` nor the lent memory nor the session is written.

     out[0]             out[1]   out[2]              out[3]
     KEYMOVE_EXACT      move     bits of the value   count
     KEYMOVE_NONE       0        0                   0
     KEYMOVE_SPENT      0        0                   count
     KEYMOVE_REFUSED    number   line                count
     KEYMOVE_OPENED     0        0                   0

   keymove_open has the last two, the others the first four. The move is the number of a
   transition, from 0. The value is as side 1 sees it: the bits of an IEEE 754 double that is a
   whole number from -64,000,000 to 64,000,000, and never -0.0:

     double value;
     memcpy(&value, &out[2], sizeof value);

   The count is the nodes searched, at most the budget; after KEYMOVE_SPENT it is the budget + 1,
   and after refusals 1 to 7 and 13 it is 0. The line is that of refusals 1 to 3, from 1, or 0 where
   they have none; it is 0 for the others.

   Lent memory. `words` and `tags` are lent for the memo; what they hold before does not matter,
   but for keymove_pick (see below). The memo's part is the first rows * stride words and the first
   `rows` tags:

     rows      the entries, if fewer than 4; else the entries rounded down to a multiple of 4
     stride    2 for up to 128 places, 3 for up to 192, 4 for up to 256; and 1 more where the sheet
               has at most 16 `pay` rows and their subsets at most 16 distinct sums, else 3 more

   KEYMOVE_WORDS_FOR(entries) and KEYMOVE_TAGS_FOR(entries) are enough for every sheet, and nothing
   less is; KEYMOVE_WORDS and KEYMOVE_TAGS are enough for every number of entries as well. What lies
   behind the memo's part is never written. What a call leaves in it:

     keymove_choose  KEYMOVE_EXACT, KEYMOVE_SPENT          the rows as they were last stored
                     KEYMOVE_NONE, refusals 8 to 12        zeros
                     refusals 1 to 7                       what was there before
     keymove_open    KEYMOVE_OPENED                        zeros
                     refusals 1 to 6                       what was there before
     keymove_pick    KEYMOVE_EXACT, KEYMOVE_SPENT          the rows as they were last stored
                     refusals 8 to 12                      zeros
                     KEYMOVE_NONE, refusals 4, 6, 7, 13    what was there before

   Sessions. keymove_open reads a sheet once, with all settings but the budget; keymove_pick then
   chooses the key of a marking within a budget, for as many markings, one after another, as a
   caller likes. A marking is four words: place p holds a token where bit p % 64 of m0, m1, m2 or
   m3, by p / 64, is set. The sheet's own marking is read and has no other part in a session: where
   an automatic transition is enabled in it, the sheet opens. keymove_open checks 1 to 6 as
   keymove_choose does; keymove_pick checks 4, which is the budget's alone, 6, 13 and 7, in this
   order, and then searches.

   `session` takes keymove_session_words() words: KEYMOVE_SESSION_WORDS in the archive that this
   header comes with. A later archive may take more; a program that has to fit any asks it. In a
   shorter one keymove_open is refused by 6, after 1 to 5, and keymove_pick by 6, after 4. What it
   holds does not matter to keymove_open; words behind those that it takes are never written. They
   are the library's own: the net, the settings, and what is remembered beside the memo's rows; no
   address is among them. What a call leaves in them:

     keymove_open    KEYMOVE_OPENED                        the session, newly opened
                     refusals 1 to 6                       what was there before
     keymove_pick    KEYMOVE_EXACT, KEYMOVE_SPENT          the session, with what it now remembers
                     refusals 8 to 12                      the session, newly opened
                     KEYMOVE_NONE                          what was there before, with the choice's
                                                           number moved on (127 of them, in turn)
                     refusals 4, 6, 7, 13                  what was there before

   Each keymove_pick is given the session's words and the memo's part of words and tags as the last
   call of that session left them; nobody else writes them. Then its answer means what that of
   keymove_choose means for a sheet with this marking. The first one, for the sheet's own marking,
   is keymove_choose's, and leaves the same words and tags; later ones mostly have lower counts
   (even 0), and where there are several keys may give another one. All three may be copied
   elsewhere between two calls, and a copy of them is a session of its own. More or less memory may
   be lent than before: only the memo's part counts.

   Where somebody else has written them, keymove_pick has an answer all the same, and reads and
   writes nothing outside its slices; but of what answer nothing is said, and the count of
   KEYMOVE_SPENT may be at most the budget.

   The library keeps nothing from call to call; what a session remembers is in its caller's memory.

   Stack. A call takes less than KEYMOVE_STACK_BYTES of stack, and a thread that does little else
   can have just that. It is not checked: in a thread with too little, which has a guard page below
   its stack, the program ends by SIGSEGV. tools/stack measures what a call takes, and bounds it
   from the archive's instructions.

   Threads. The archive has no data that is written, makes no system call, and neither allocates nor
   locks. Calls on different memory can run at the same time, and one can begin before another
   has ended, as in a signal handler. A session is for one thread at a time.

   Linking. The archive is for Linux on x86-64-v2 processors. It needs memcpy, memmove and memset
   of the C library, and nothing else.

   From Rust: tools/c_example/main.rs declares the entries in an `extern "C"` block. */

#ifndef KEYMOVE_H
#define KEYMOVE_H

#include <stddef.h>
#include <stdint.h>

#ifdef __cplusplus
extern "C" {
#endif

/* Kinds of answer: out[0]. */
enum {
    KEYMOVE_EXACT = 0,
    KEYMOVE_NONE = 1,   /* the position has no move */
    KEYMOVE_SPENT = 2,  /* the search passed its budget */
    KEYMOVE_REFUSED = 3,
    KEYMOVE_OPENED = 4  /* the sheet is open as a session */
};

/* Numbers of the refusals: out[1] of KEYMOVE_REFUSED. */
enum {
    KEYMOVE_REFUSED_SHEET = 1,     /* a line is not in its form; the sheet is too long (line 0) */
    KEYMOVE_REFUSED_RANGE = 2,     /* a number, an index or a count of rows is beyond its limit */
    KEYMOVE_REFUSED_ROLL = 3,      /* a second `mark`, `turn` or `auto`; or neither role (line 0) */
    KEYMOVE_REFUSED_SETTINGS = 4,  /* budget, entries, driver, filters or chain */
    KEYMOVE_REFUSED_NO_GOALS = 5,  /* the chain needs goals, and the net has none */
    KEYMOVE_REFUSED_MEMORY = 6,    /* too few words or tags, or a session that is too short */
    KEYMOVE_REFUSED_UNSETTLED = 7, /* an automatic transition is enabled in the marking */
    KEYMOVE_REFUSED_MIXED = 8,     /* a position has moves of two sides, or of side 0 */
    KEYMOVE_REFUSED_SPILLED = 9,   /* a firing would leave a place with neither 0 nor 1 token */
    KEYMOVE_REFUSED_ENDLESS = 10,  /* a 10,001st automatic firing is enabled after a move */
    KEYMOVE_REFUSED_WIDE = 11,     /* over 64 moves in a position */
    KEYMOVE_REFUSED_DEEP = 12,     /* a node 65 moves below the root of its run */
    KEYMOVE_REFUSED_MARKING = 13   /* a bit of a marking is set at the number of places or beyond */
};

/* Settings. The chain holds up to KEYMOVE_MAX_PIECES pieces, a byte each; one may come again. */
enum { KEYMOVE_SINGLE = 0, KEYMOVE_SCOUT = 1, KEYMOVE_MTD = 2 }; /* driver */
enum { KEYMOVE_MUST_WIN = 1, KEYMOVE_NON_LOSING = 2 };           /* filters, added together */
enum {
    KEYMOVE_REMEMBERED = 0,    /* the remembered move */
    KEYMOVE_IMMEDIATE_WIN = 1, /* moves that win at once */
    KEYMOVE_HISTORY = 2,       /* moves that cut off before */
    KEYMOVE_CENTRALITY = 3,    /* moves that feed many goals; needs goals */
    KEYMOVE_THREATS = 4        /* moves that leave many goals one place short; needs goals */
};

/* Limits: the most that is not refused. Budget and entries begin at 0 and 1. */
#define KEYMOVE_MAX_SHEET_BYTES 65536
#define KEYMOVE_MAX_BUDGET 10000000
#define KEYMOVE_MAX_ENTRIES 1024
#define KEYMOVE_MAX_PIECES 8

/* Sizes, as described above; `entries` is 1 to KEYMOVE_MAX_ENTRIES. */
#define KEYMOVE_OUT_WORDS 4
#define KEYMOVE_TAGS_FOR(entries) ((entries) < 4 ? (entries) : (entries) / 4 * 4)
#define KEYMOVE_WORDS_FOR(entries) (7 * KEYMOVE_TAGS_FOR(entries))
#define KEYMOVE_TAGS 1024
#define KEYMOVE_WORDS 7168
#define KEYMOVE_SESSION_WORDS 75789
#define KEYMOVE_STACK_BYTES 1572864

/* The key of the position that a sheet describes, searched with a budget of nodes. */
void keymove_choose(const uint8_t *sheet, size_t sheet_len,
                    uint64_t budget, uint64_t entries, uint64_t driver, uint64_t filters,
                    const uint8_t *chain, size_t chain_len,
                    uint64_t *words, size_t words_len,
                    uint8_t *tags, size_t tags_len,
                    uint64_t *out, size_t out_len);

/* The words that a session takes. */
uint64_t keymove_session_words(void);

/* Opens the sheet as a session. */
void keymove_open(uint64_t *session, size_t session_len,
                  const uint8_t *sheet, size_t sheet_len,
                  uint64_t entries, uint64_t driver, uint64_t filters,
                  const uint8_t *chain, size_t chain_len,
                  uint64_t *words, size_t words_len,
                  uint8_t *tags, size_t tags_len,
                  uint64_t *out, size_t out_len);

/* The key of a marking of the session's net, searched with a budget of nodes. */
void keymove_pick(uint64_t *session, size_t session_len,
                  uint64_t budget,
                  uint64_t m0, uint64_t m1, uint64_t m2, uint64_t m3,
                  uint64_t *words, size_t words_len,
                  uint8_t *tags, size_t tags_len,
                  uint64_t *out, size_t out_len);

#ifdef __cplusplus
}
#endif

#endif
