/* A host that makes its tables itself: plays the runs of a file through both players, and prints the lines that the program `gate_rehear` prints of them.
 *   rows FILE
 * crates/gate_rehear/src/main.rt says what stands in such a file. */
#include "glyvrask.h"

/* The kit's compiler has no header files. */
extern int open(const char *, int, ...);
extern long read(int, void *, glyvrask_size);
extern int printf(const char *, ...);
extern void exit(int);

typedef unsigned char byte;
typedef glyvrask_word word;

enum { MOST = 4 << 20, BLOCKS = 512, TONES = 2048, HEAD = 15 };

static byte file[MOST];
static glyvrask_size used;
static word blocks[BLOCKS * GLYVRASK_BLOCK_WORDS], tones[TONES * GLYVRASK_TONE_WORDS];

static void fail(const char *why) {
    printf("rows: %s\n", why);
    exit(2);
}

static void read_file(const char *path) {
    int at = open(path, 0);
    long n = 1;
    if (at < 0) fail("cannot open the file");
    while (n > 0 && used < MOST) {
        n = read(at, file + used, MOST - used);
        if (n > 0) used += n;
    }
    if (n != 0) fail("cannot read the file, or it is too long");
}

/* the number of `width` bytes at a place, the lowest first */
static word number(glyvrask_size at, unsigned width) {
    word n = 0;
    if (used < at + width) fail("the file is short");
    while (width-- > 0) n = n << 8 | file[at + width];
    return n;
}

static glyvrask_size take_words(word *to, glyvrask_size n, glyvrask_size most, glyvrask_size at) {
    if (most < n) fail("too many rows");
    for (glyvrask_size i = 0; i < n; i++) to[i] = number(at + 4 * i, 4);
    return at + 4 * n;
}

/* a run's rows, tape and head */
struct run {
    const byte *tape;
    glyvrask_size tape_len, blocks_len, tones_len;
    word count, position[GLYVRASK_POS_WORDS];
    int measured;
};

static void print_phase(const word *p) {
    static const char *const names[] = {"start", "tone", "data", "pause", "edge"};
    printf("%s", names[p[GLYVRASK_POS_PHASE]]);
    if (p[GLYVRASK_POS_PHASE] == 1 || p[GLYVRASK_POS_PHASE] == 2)
        printf(" %lu %lu %lu", p[GLYVRASK_POS_ITEM], p[GLYVRASK_POS_PART], p[GLYVRASK_POS_HALF]);
}

static void print_selected(struct run *r) {
    word answer;
    unsigned no = glyvrask_position_block(r->tape, r->tape_len, blocks, r->blocks_len, tones, r->tones_len, r->count, r->position, GLYVRASK_POS_WORDS, &answer, 1);
    if (no) printf(" selected refused %u\n", no);
    else printf(" selected %lu\n", answer);
}

static unsigned ask(struct run *r, unsigned n, word *answer) {
    if (r->measured)
        return glyvrask_play_measured(r->tape, r->tape_len, blocks, r->blocks_len, tones, r->tones_len, r->count, r->position, GLYVRASK_POS_WORDS, n, answer, GLYVRASK_PLAYED_WORDS);
    return glyvrask_play(r->tape, r->tape_len, blocks, r->blocks_len, tones, r->tones_len, r->count, r->position, GLYVRASK_POS_WORDS, n, answer, GLYVRASK_PLAYED_WORDS);
}

/* one call and its line; whether the run goes on */
static int call(struct run *r, unsigned n) {
    static const char *const how[] = {"stands", "stopped", "ended"};
    word a[GLYVRASK_PLAYED_WORDS], *at = a + GLYVRASK_AT;
    unsigned no = ask(r, n, a);
    if (no) {
        printf("refused %u\n", no);
        return 1;
    }
    for (unsigned k = 0; k < GLYVRASK_POS_WORDS; k++) r->position[k] = at[k];
    if (!r->measured && a[GLYVRASK_HOW] == 2) {
        printf("ended\n");
        return 0;
    }
    if (r->measured) printf("%s passed %lu at ", how[a[GLYVRASK_HOW]], a[GLYVRASK_PASSED]);
    printf("%lu ", at[GLYVRASK_POS_BLOCK]);
    print_phase(at);
    if (at[GLYVRASK_POS_ENDLESS]) printf(" left endless");
    else printf(" left %lu", at[GLYVRASK_POS_LEFT]);
    printf(" level %lu", a[GLYVRASK_LEVEL]);
    print_selected(r);
    return 1;
}

/* the run at a place; the place behind it */
static glyvrask_size play(glyvrask_size at) {
    static struct run r;
    word calls = number(at + 9, 2);
    glyvrask_size counts = at + HEAD, rows = counts + 4 * calls;
    r.measured = number(at, 1) == 'm';
    r.count = number(at + 1, 2);
    r.blocks_len = r.count * GLYVRASK_BLOCK_WORDS;
    r.tones_len = number(at + 3, 2) * GLYVRASK_TONE_WORDS;
    rows = take_words(blocks, r.blocks_len, sizeof blocks / sizeof *blocks, rows);
    rows = take_words(tones, r.tones_len, sizeof tones / sizeof *tones, rows);
    r.tape = file + rows;
    r.tape_len = number(at + 11, 4);
    if (used - rows < r.tape_len) fail("the file is short");
    if (glyvrask_new_at_block(number(at + 5, 4), r.position, GLYVRASK_POS_WORDS)) fail("no start");
    for (word i = 0; i < calls && call(&r, number(counts + 4 * i, 4)); i++) {}
    return rows + r.tape_len;
}

int main(int args, char **arg) {
    if (args != 2) fail("usage: rows FILE");
    read_file(arg[1]);
    glyvrask_size at = 4;
    for (word left = number(0, 4); left > 0; left--) at = play(at);
    return 0;
}
