/* A host that hands each parameter of include/glyvrask.h the variable of its name: calls.h, made of the header by tests/built/header.sh,
 * has a call of each function.
 *   header list|dump|trace|run|head|listing < INPUT
 * Reads what the programs `list`, `dump` and `trace` read, and prints what they print: `listing` as the library writes it, `list` by the
 * queries, `trace` by single calls, `run` by one run of calls, `head` over a lent head where the player is the measured one. Each length lent is the least that will do, and what may be written is marked before a call, so that no two arguments can be
 * exchanged unseen. */
#include "glyvrask.h"

/* The kit's compiler has no header files. */
extern long read(int, void *, glyvrask_size);
extern int printf(const char *, ...);
extern int strcmp(const char *, const char *);
extern void exit(int);

typedef unsigned char byte;
typedef glyvrask_word word;

enum { INPUT = 69544, BLOCKS = 512, TONES = 2048, CALLS = 1000, ANSWER = 16, OUT = 300000, MARK = 0x5A };

/* ---- every parameter that the header names */

static const byte *tape;
static byte out[OUT];
static word blocks[BLOCKS * GLYVRASK_BLOCK_WORDS], tones[TONES * GLYVRASK_TONE_WORDS];
static word position[GLYVRASK_POS_WORDS], head[GLYVRASK_POS_WORDS], answer[ANSWER], answers[CALLS * GLYVRASK_PLAYED_WORDS + 1];
static unsigned counts[CALLS];
static glyvrask_size tape_len, out_len, blocks_len, tones_len, position_len = GLYVRASK_POS_WORDS, answer_len;
static glyvrask_size head_len = GLYVRASK_POS_WORDS, counts_len, answers_len;
static word count, i, block;
static unsigned model, n, measured;

#include "calls.h"

/* ---- calls */

static const char *const models[] = {"48K", "128K", "Plus3"};

static void fail(const char *what, unsigned no) {
    printf("header: %s %u\n", what, no);
    exit(1);
}

/* marks what a call may write, and lends so many words for its answer */
static void lend(glyvrask_size values) {
    for (unsigned k = 0; k < ANSWER; k++) answer[k] = MARK;
    for (unsigned k = 0; k < OUT; k++) out[k] = MARK;
    answer_len = values;
}

/* a call that is not refused, and leaves the words past its values */
static void given(unsigned no, const char *what) {
    if (no) fail(what, no);
    for (glyvrask_size k = answer_len; k < ANSWER; k++)
        if (answer[k] != MARK) fail(what, 99);
}

/* the tables just as long as the tape's rows; whether it loads */
static int load(void) {
    blocks_len = sizeof blocks / sizeof *blocks, tones_len = sizeof tones / sizeof *tones;
    for (int pass = 0; pass < 2; pass++) {
        for (glyvrask_size k = 0; k < sizeof blocks / sizeof *blocks; k++) blocks[k] = MARK;
        for (glyvrask_size k = 0; k < sizeof tones / sizeof *tones; k++) tones[k] = MARK;
        lend(3);
        unsigned no = call_glyvrask_load();
        if (no && !pass) {
            printf("refused %u\n", no);
            return 0;
        }
        given(no, "load");
        blocks_len = answer[1] * GLYVRASK_BLOCK_WORDS, tones_len = answer[2] * GLYVRASK_TONE_WORDS;
    }
    word format = answer[0];
    count = answer[1];
    lend(1), given(call_glyvrask_len(), "len");
    if (answer[0] != count) fail("len: not the load's count but", answer[0]);
    answer[0] = format;
    return 1;
}

/* the block's name in just so many bytes; how many */
static word name(void) {
    out_len = OUT;
    lend(1), given(call_glyvrask_block_name(), "name");
    out_len = answer[0];
    lend(1), given(call_glyvrask_block_name(), "name in as many bytes");
    if (answer[0] != out_len || out[out_len] != MARK) fail("name: other bytes", answer[0]);
    return out_len;
}

static word size(void) {
    lend(1), given(call_glyvrask_block_size(), "size");
    return answer[0];
}

static word selectable(void) {
    lend(1), given(call_glyvrask_block_selectable(), "selectable");
    return answer[0];
}

/* ---- as `list` prints, but that a name is printed as it is */

static void list(void) {
    if (!load()) return;
    printf("model %s format %s blocks %lu\n", models[model], answer[0] ? "TZX" : "TAP", count);
    for (i = 0; i < count; i++) {
        printf("%lu %c ", i, selectable() ? '*' : '-');
        printf("%lu ", size());
        lend(2), given(call_glyvrask_block_time(), "time");
        if (answer[0]) printf("stop ");
        else printf("%lu ", answer[1]);
        word chars = name();
        printf("%.*s\n", (int)chars, (const char *)out);
    }
    lend(1), given(call_glyvrask_loading_time(), "loading time");
    printf("time %lu\n", answer[0]);
}

/* ---- as `dump` prints: rows by the header's words */

static void hex(const byte *from, word bytes) {
    for (; bytes; bytes--) printf("%02x", *from++);
}

static void dump(void) {
    if (!load()) return;
    printf("%s %lu\n", answer[0] ? "TZX" : "TAP", count);
    for (i = 0; i < count; i++) {
        const word *row = blocks + i * GLYVRASK_BLOCK_WORDS, *tone = tones + row[GLYVRASK_TONE] * GLYVRASK_TONE_WORDS;
        printf("%lu sel=%lu ", i, selectable());
        printf("zero=%lu one=%lu last=%lu pause=", row[GLYVRASK_ZERO], row[GLYVRASK_ONE], row[GLYVRASK_LAST]);
        if (row[GLYVRASK_ENDLESS]) printf("endless name=");
        else printf("%lu name=", row[GLYVRASK_PAUSE]);
        hex(out, name());
        printf(" data=");
        hex(tape + row[GLYVRASK_START], size());
        printf(" tones=");
        for (word k = 0; k < row[GLYVRASK_TONES]; k++, tone += GLYVRASK_TONE_WORDS)
            printf("%lux%lu/%lu,", tone[GLYVRASK_NUM], tone[GLYVRASK_LEN1], tone[GLYVRASK_LEN2]);
        printf("\n");
    }
}

/* ---- as `trace` prints */

static word number(const byte *from, unsigned width) {
    word k = 0;
    while (width-- > 0) k = k << 8 | from[width];
    return k;
}

/* the line of a call's ten words; whether the run goes on */
static int line(const word *told) {
    static const char *const how[] = {"stands", "stopped", "ended"};
    static const char *const phases[] = {"start", "tone", "data", "pause", "edge"};
    word state = told[GLYVRASK_HOW], passed = told[GLYVRASK_PASSED], level = told[GLYVRASK_LEVEL];
    for (unsigned k = 0; k < GLYVRASK_POS_WORDS; k++) position[k] = told[GLYVRASK_AT + k];
    if (!measured && state == 2) {
        printf("ended\n");
        return 0;
    }
    if (measured) printf("%s passed %lu at ", how[state], passed);
    printf("%lu %s", position[GLYVRASK_POS_BLOCK], phases[position[GLYVRASK_POS_PHASE]]);
    if (position[GLYVRASK_POS_PHASE] == 1 || position[GLYVRASK_POS_PHASE] == 2)
        printf(" %lu %lu %lu", position[GLYVRASK_POS_ITEM], position[GLYVRASK_POS_PART], position[GLYVRASK_POS_HALF]);
    if (position[GLYVRASK_POS_ENDLESS]) printf(" left endless");
    else printf(" left %lu", position[GLYVRASK_POS_LEFT]);
    lend(1), given(call_glyvrask_position_block(), "block of a position");
    printf(" level %lu selected %lu\n", level, answer[0]);
    return 1;
}

/* a run as crates/prog_calls/src/lib.rt has it, its first byte taken off: the tape loaded, the counts, and the block's start; whether it loads */
static int begin(void) {
    const byte *run = tape;
    counts_len = number(run + 5, 2);
    for (word k = 0; k < counts_len; k++) counts[k] = number(run + 7 + 4 * k, 4);
    tape += 7 + 4 * counts_len, tape_len -= 7 + 4 * counts_len;
    if (!load()) return 0;
    measured = run[0] == 'm';
    block = number(run + 1, 4);
    lend(GLYVRASK_POS_WORDS), given(call_glyvrask_new_at_block(), "start of a block");
    for (unsigned k = 0; k < GLYVRASK_POS_WORDS; k++) position[k] = head[k] = answer[k];
    return 1;
}

/* call by call */
static void trace(void) {
    if (!begin()) return;
    for (word k = 0; k < counts_len; k++) {
        n = counts[k];
        lend(GLYVRASK_PLAYED_WORDS);
        given(measured ? call_glyvrask_play_measured() : call_glyvrask_play(), "play");
        if (!line(answer)) return;
    }
}

/* all calls at once, into just so many words */
static void run(void) {
    if (!begin()) return;
    answers_len = counts_len * GLYVRASK_PLAYED_WORDS;
    answers[answers_len] = MARK;
    lend(0), given(call_glyvrask_play_run(), "run");
    if (answers[answers_len] != MARK) fail("run: a word too many", 0);
    for (word k = 0; k < counts_len; k++)
        if (!line(answers + k * GLYVRASK_PLAYED_WORDS)) return;
}

/* over the lent head; the source's play has none */
static void heads(void) {
    if (!begin()) return;
    for (word k = 0; k < counts_len; k++) {
        n = counts[k];
        lend(GLYVRASK_PLAYED_WORDS);
        given(measured ? call_glyvrask_play_head() : call_glyvrask_play(), "head");
        for (unsigned j = 0; measured && j < GLYVRASK_POS_WORDS; j++)
            if (head[j] != answer[GLYVRASK_AT + j]) fail("head: not where the answer says", j);
        if (!line(answer)) return;
    }
}

/* ---- the listing, in just so many bytes */

static void listing(void) {
    out_len = OUT;
    lend(0);
    unsigned no = call_glyvrask_listing();
    if (no < 32) {
        printf("refused %u\n", no);
        return;
    }
    out_len = no;
    lend(0);
    if (call_glyvrask_listing() != no || out[no] != MARK) fail("listing in as many bytes", no);
    printf("%.*s", (int)no, (const char *)out);
}

int main(int args, char **arg) {
    static byte input[INPUT];
    static const struct {
        const char *name;
        void (*does)(void);
    } ways[] = {{"list", list}, {"dump", dump}, {"trace", trace}, {"run", run}, {"head", heads}, {"listing", listing}};
    long used = 0, more = 1;
    while (more > 0 && used < INPUT) more = read(0, input + used, INPUT - used), used += more > 0 ? more : 0;
    if (args != 2 || more != 0 || used == 0) fail("no way or no input", args);
    tape = input + 1, tape_len = used - 1;
    model = input[0] == '4' ? 0 : input[0] == '1' ? 1 : input[0] == '3' ? 2 : 3;
    for (unsigned k = 0; k < sizeof ways / sizeof *ways; k++)
        if (strcmp(arg[1], ways[k].name) == 0) return ways[k].does(), 0;
    fail("no such way", args);
    return 1;
}
