/* A host with tables of its own at the limits of rules 16 and 22: prints one line a check, and ends with 1 at the first that is wrong. */
#include "glyvrask.h"

/* The kit's compiler has no header files. */
extern int printf(const char *, ...);
extern void exit(int);

typedef unsigned char byte;
typedef glyvrask_word word;

enum { BLOCKS = 4098, TONES = 65538, MOST = 1048576 };

/* the words of n rows */
#define BLOCK_ROWS(n) ((n) * GLYVRASK_BLOCK_WORDS)
#define TONE_ROWS(n) ((n) * GLYVRASK_TONE_WORDS)

static byte tape[MOST + 2];
static glyvrask_size used; /* bytes of the tape written so far */
static word blocks[BLOCK_ROWS(BLOCKS)], blocks_were[BLOCK_ROWS(BLOCKS)];
static word tones[TONE_ROWS(TONES)], tones_were[TONE_ROWS(TONES)];
static word answer[16], answer_was[16];
static byte out[64], out_was[64];
static word count; /* of the tape that was loaded last */

/* ---- what a check says */

static unsigned done;

static void check(int right, const char *what) {
    printf("%s %s\n", right ? "right" : "WRONG", what);
    if (!right) exit(1);
    done++;
}

static void is(word got, word wanted, const char *what) {
    if (got != wanted) printf("got %lu, wanted %lu: ", got, wanted);
    check(got == wanted, what);
}

/* ---- lent memory: marked before a call, and held to its marks after it */

static word mark(glyvrask_size i) { return 0x9E3779B97F4A7C15u * (i + 1) | 1; }

static void mark_tables(void) {
    for (glyvrask_size i = 0; i < sizeof blocks / sizeof *blocks; i++) blocks[i] = mark(i);
    for (glyvrask_size i = 0; i < sizeof tones / sizeof *tones; i++) tones[i] = mark(i);
}

static void keep_all(void) {
    for (glyvrask_size i = 0; i < sizeof answer / sizeof *answer; i++) answer[i] = mark(i);
    for (glyvrask_size i = 0; i < sizeof out; i++) out[i] = (byte)mark(i);
    for (glyvrask_size i = 0; i < sizeof blocks / sizeof *blocks; i++) blocks_were[i] = blocks[i];
    for (glyvrask_size i = 0; i < sizeof tones / sizeof *tones; i++) tones_were[i] = tones[i];
    for (glyvrask_size i = 0; i < sizeof answer / sizeof *answer; i++) answer_was[i] = answer[i];
    for (glyvrask_size i = 0; i < sizeof out; i++) out_was[i] = out[i];
}

/* from word i on nothing is altered */
static int answer_kept(glyvrask_size i) {
    for (; i < sizeof answer / sizeof *answer; i++)
        if (answer[i] != answer_was[i]) return 0;
    return 1;
}

static int out_kept(glyvrask_size i) {
    for (; i < sizeof out; i++)
        if (out[i] != out_was[i]) return 0;
    return 1;
}

static int tables_kept(glyvrask_size b, glyvrask_size t) {
    for (; b < sizeof blocks / sizeof *blocks; b++)
        if (blocks[b] != blocks_were[b]) return 0;
    for (; t < sizeof tones / sizeof *tones; t++)
        if (tones[t] != tones_were[t]) return 0;
    return 1;
}

static int zero(const word *row, glyvrask_size from, glyvrask_size to) {
    for (; from < to; from++)
        if (row[from] != 0) return 0;
    return 1;
}

/* ---- tapes */

static void put(unsigned n, unsigned bytes) {
    for (; bytes; bytes--, n >>= 8) tape[used++] = (byte)n;
}

static void tzx(void) {
    used = 0;
    for (const char *s = "ZXTape!\x1a\x01\x14"; *s; s++) put((byte)*s, 1);
}

/* a TAP of n empty blocks, two bytes and two tone rows each */
static void tap_of(unsigned n) {
    used = 0;
    for (; n; n--) put(0, 2);
}

/* a TAP of exactly n bytes, in blocks as long as can be */
static void tap_of_bytes(unsigned n) {
    used = 0;
    while (n > 1) {
        unsigned size = n - 2 < 65535 ? n - 2 : 65535;
        put(size, 2);
        for (unsigned i = 0; i < size; i++) put(i, 1);
        n -= size + 2;
    }
}

/* one generalised piece of n data symbols of two unequal pulses: one block of n tone rows */
static void generalised(unsigned n) {
    tzx();
    put(0x19, 1), put(0, 4), put(7, 2), put(0, 4), put(0, 1), put(1, 1), put(n, 4), put(2, 1), put(2, 1);
    put(0, 1), put(100, 2), put(200, 2), put(0, 1), put(300, 2), put(400, 2);
    for (unsigned i = 0; i < (n + 7) / 8; i++) put(0x55, 1);
}

/* the example of rule 113: two cycles, a pause, a stop on a 48K */
static void example(void) {
    tzx();
    put(0x12, 1), put(100, 2), put(4, 2), put(0x20, 1), put(1, 2), put(0x2A, 1), put(0, 4);
}

/* ---- loads */

/* A load into b and t words of marked tables: its number; on 0 its answer and the zero words, on 1 to 7 tables all zero. */
static void load(const char *what, unsigned model, glyvrask_size b, glyvrask_size t, unsigned wanted, word nb, word nt) {
    mark_tables();
    keep_all();
    unsigned k = glyvrask_load(tape, used, model, blocks, b, tones, t, answer, 3);
    is(k, wanted, what);
    check(tables_kept(b, t), "  words past the lent ones stay");
    if (k != 0) {
        check(zero(blocks, 0, b) && zero(tones, 0, t), "  both tables are all zero");
        check(answer_kept(0), "  nothing is answered");
        return;
    }
    count = answer[1];
    is(answer[1], nb, "  blocks");
    is(answer[2], nt, "  tone rows");
    check(answer_kept(3), "  words past the answer stay");
    check(zero(blocks, BLOCK_ROWS(nb), b) && zero(tones, TONE_ROWS(nt), t), "  words past the rows are zero");
}

#define LENT_BLOCKS (sizeof blocks / sizeof *blocks)
#define LENT_TONES (sizeof tones / sizeof *tones)

static void lengths(void) {
    tap_of_bytes(MOST);
    load("1,048,576 bytes load", 0, LENT_BLOCKS, LENT_TONES, 0, 16, 32);
    is(answer[0], 0, "  as a TAP");
    put(0, 1);
    load("1,048,577 bytes are refused 2", 0, LENT_BLOCKS, LENT_TONES, 2, 0, 0);
    load("  but for a bad model, which is 1", 3, LENT_BLOCKS, LENT_TONES, 1, 0, 0);
}

static void block_rows(void) {
    tap_of(4096);
    load("4,096 blocks load into 4,096 rows", 1, BLOCK_ROWS(4096), LENT_TONES, 0, 4096, 8192);
    load("and into a longer table", 1, LENT_BLOCKS - 5, LENT_TONES - 1, 0, 4096, 8192);
    load("with the last row broken they are refused 6", 1, BLOCK_ROWS(4096) - 1, LENT_TONES, 6, 0, 0);
    tap_of(4097);
    load("4,097 blocks are refused 6 in a table of 4,098 rows", 1, LENT_BLOCKS, LENT_TONES, 6, 0, 0);
    tap_of(2);
    load("two blocks load into two rows and a broken one", 2, BLOCK_ROWS(3) - 1, TONE_ROWS(5) - 1, 0, 2, 4);
    tap_of(3);
    load("three blocks are refused 6 there", 2, BLOCK_ROWS(3) - 1, LENT_TONES, 6, 0, 0);
    load("and into no words at all", 2, 0, 0, 5, 0, 0);
}

static void tone_rows(void) {
    generalised(65536);
    load("65,536 tone rows load into 65,536 rows", 0, BLOCK_ROWS(1), TONE_ROWS(65536), 0, 1, 65536);
    is(answer[0], 1, "  as a TZX");
    is(blocks[GLYVRASK_TONES], 65536, "  all of one block");
    is(tones[TONE_ROWS(65535) + GLYVRASK_LEN2], 400, "  the last one too");
    load("and into a longer table", 0, LENT_BLOCKS, LENT_TONES, 0, 1, 65536);
    load("with the last row broken they are refused 5", 0, BLOCK_ROWS(1), TONE_ROWS(65536) - 1, 5, 0, 0);
    generalised(65537);
    load("65,537 tone rows are refused 5 in a table of 65,538 rows", 0, LENT_BLOCKS, LENT_TONES, 5, 0, 0);
    tap_of(1);
    load("a block is refused 5 where a tone row is broken", 0, LENT_BLOCKS, TONE_ROWS(2) - 1, 5, 0, 0);
}

/* What a load tells with 3, and that it does so in a row of eight words alone. */
static void unread(const char *what, const word *wanted) {
    mark_tables();
    for (glyvrask_size room = 3; room <= GLYVRASK_UNREAD_WORDS + 1; room++) {
        keep_all();
        is(glyvrask_load(tape, used, 0, blocks, LENT_BLOCKS, tones, LENT_TONES, answer, room), GLYVRASK_TAPE_BAD, what);
        check(zero(blocks, 0, LENT_BLOCKS) && zero(tones, 0, LENT_TONES), "  both tables are all zero");
        if (room < GLYVRASK_UNREAD_WORDS) {
            check(answer_kept(0), "  a shorter row stays");
            continue;
        }
        for (glyvrask_size i = 0; i < GLYVRASK_UNREAD_WORDS; i++) is(answer[i], wanted[i], "  a word of it");
        check(answer_kept(GLYVRASK_UNREAD_WORDS), "  words past it stay");
    }
}

#define UNREAD(...) ((const word[GLYVRASK_UNREAD_WORDS]){__VA_ARGS__})

static void unread_loads(void) {
    used = 0, put(2, 2), put(0xFF, 1);
    unread("a signature is short", UNREAD(0, 0, 0, 0, 10, 0, 2, 2));
    used = 0;
    for (unsigned n = 0; n < 10; n++) put(0xFF, 1);
    unread("a signature is another", UNREAD(1, 0, 0, 0, 0, 0, 2, 65535));
    tzx(), put(0x10, 1), put(0, 2), put(5, 2), put(0xAA, 1);
    unread("the data of a piece are short", UNREAD(2, 0x10, 10, 15, 5, 0, 2, 22618));
    tzx(), put(0x32, 1), put(1, 2), put(1, 1), put(0x20, 1), put(1, 2);
    unread("a field is short of a body", UNREAD(2, 0x32, 10, 14, 1, 0, 2, 22618));
    tzx(), put(0x20, 1), put(1, 2), put(0x2A, 1), put(1, 4);
    unread("a 2A has a length", UNREAD(3, 0x2A, 13, 0, 0, 1, 2, 22618));
}

static void refused_loads(void) {
    example();
    load("model 3 is refused 1", 3, LENT_BLOCKS, LENT_TONES, 1, 0, 0);
    used = 0, put(2, 2), put(0xFF, 1);
    load("short data are refused 3", 0, LENT_BLOCKS, LENT_TONES, 3, 0, 0);
    unread_loads();
    generalised(0);
    load("a generalised piece with no data symbol is refused 4", 0, LENT_BLOCKS, LENT_TONES, 4, 0, 0);
    tzx(), put(0x14, 1), put(10, 2), put(20, 2), put(9, 1), put(0, 2), put(1, 3), put(0x80, 1);
    load("last bits 9 are refused 7", 0, LENT_BLOCKS, LENT_TONES, 7, 0, 0);
    tape[10 + 5] = 8;
    load("last bits 8 load", 0, LENT_BLOCKS, LENT_TONES, 0, 1, 2);
    for (unsigned n = 0; n < 3; n++) {
        mark_tables();
        keep_all();
        is(glyvrask_load(tape, used, 3, blocks, LENT_BLOCKS, tones, LENT_TONES, answer, n), 10, "a short answer row is refused 10 before the model is looked at");
        check(tables_kept(0, 0) && answer_kept(0), "  and alters nothing");
    }
}

/* ---- the queries and the players: each call is a line of the table below, over the tape that was loaded last */

enum call { LEN, NAME, SIZE, MARK, TIME, LOADING, AT_BLOCK, POSITION, PLAY, MEASURED, HEAD, RUN };

static const word values[] = {1, 1, 1, 1, 2, 1, 7, 1, 10, 10, 10, 10};

static word position[GLYVRASK_POS_WORDS];
static glyvrask_size position_len = GLYVRASK_POS_WORDS, out_len = sizeof out;
static unsigned t_states, kept_head = 1;

/* a call over a head, which is lent: whether it stays is noted, and the words of `position` are then as they were */
static unsigned head_call(word n, glyvrask_size room) {
    word head[GLYVRASK_POS_WORDS];
    for (unsigned k = 0; k < GLYVRASK_POS_WORDS; k++) head[k] = position[k];
    unsigned no = glyvrask_play_head(tape, used, blocks, LENT_BLOCKS, tones, LENT_TONES, n, head, position_len, t_states, answer, room);
    kept_head = 1;
    for (unsigned k = 0; k < GLYVRASK_POS_WORDS; k++) kept_head = kept_head && head[k] == (no ? position[k] : answer[GLYVRASK_AT + k]);
    return no;
}

static unsigned call(enum call c, word n, word i, glyvrask_size room) {
    keep_all();
    switch (c) {
    case LEN: return glyvrask_len(blocks, LENT_BLOCKS, n, answer, room);
    case NAME: return glyvrask_block_name(tape, used, blocks, LENT_BLOCKS, tones, LENT_TONES, n, i, out, out_len, answer, room);
    case SIZE: return glyvrask_block_size(tape, used, blocks, LENT_BLOCKS, tones, LENT_TONES, n, i, answer, room);
    case MARK: return glyvrask_block_selectable(tape, used, blocks, LENT_BLOCKS, tones, LENT_TONES, n, i, answer, room);
    case TIME: return glyvrask_block_time(tape, used, blocks, LENT_BLOCKS, tones, LENT_TONES, n, i, answer, room);
    case LOADING: return glyvrask_loading_time(tape, used, blocks, LENT_BLOCKS, tones, LENT_TONES, n, answer, room);
    case AT_BLOCK: return glyvrask_new_at_block(i, answer, room);
    case POSITION: return glyvrask_position_block(tape, used, blocks, LENT_BLOCKS, tones, LENT_TONES, n, position, position_len, answer, room);
    case PLAY: return glyvrask_play(tape, used, blocks, LENT_BLOCKS, tones, LENT_TONES, n, position, position_len, t_states, answer, room);
    case MEASURED: return glyvrask_play_measured(tape, used, blocks, LENT_BLOCKS, tones, LENT_TONES, n, position, position_len, t_states, answer, room);
    case HEAD: return head_call(n, room);
    case RUN: return glyvrask_play_run(tape, used, blocks, LENT_BLOCKS, tones, LENT_TONES, n, position, position_len, 1, &t_states, 1, answer, room);
    }
    return 99;
}

static void refused(enum call c, word n, word i, glyvrask_size room, unsigned k, const char *what) {
    is(call(c, n, i, room), k, what);
    check(answer_kept(0) && out_kept(0) && tables_kept(0, 0) && kept_head, "  and alters nothing");
}

static void answers(enum call c, word i, const word *wanted, const char *what) {
    is(call(c, count, i, values[c]), 0, what);
    for (word k = 0; k < values[c]; k++) is(answer[k], wanted[k], "  its words");
    check(answer_kept(values[c]) && tables_kept(0, 0) && kept_head, "  and words past them stay");
}

static void at(word block, word phase, word item, word part, word half, word endless, word left) {
    const word w[] = {block, phase, item, part, half, endless, left};
    for (unsigned k = 0; k < 7; k++) position[k] = w[k];
}

#define WORDS(...) ((const word[]){__VA_ARGS__})

static void queries(void) {
    example();
    load("the example loads", 0, LENT_BLOCKS, LENT_TONES, 0, 3, 1);
    answers(LEN, 0, WORDS(3), "its count");
    answers(SIZE, 0, WORDS(0), "block 0's size");
    answers(MARK, 1, WORDS(0), "block 1 is not selectable");
    answers(MARK, 2, WORDS(1), "block 2 is");
    answers(TIME, 0, WORDS(0, 400), "block 0 lasts 400");
    answers(TIME, 1, WORDS(0, 3500), "block 1 lasts 3,500");
    answers(TIME, 2, WORDS(1, 0), "block 2 never ends");
    answers(LOADING, 0, WORDS(400), "the loading time ends with the last pulse");
    out_len = 4;
    answers(NAME, 2, WORDS(4), "block 2's name fits four bytes");
    check(out[0] == 's' && out[1] == 't' && out[2] == 'o' && out[3] == 'p' && out_kept(4), "  and is stop");
    answers(AT_BLOCK, 9, WORDS(9, 0, 0, 0, 0, 0, 0), "a block's start");
}

static void players(void) {
    tzx(), put(0x12, 1), put(100, 2), put(4, 2);
    load("a sole piece 12 loads", 0, LENT_BLOCKS, LENT_TONES, 0, 1, 1);
    at(0, 0, 0, 0, 0, 0, 0);
    t_states = 99;
    answers(PLAY, 0, WORDS(0, 1, 0, 0, 1, 0, 0, 0, 0, 1), "99 leaves the source's play in the first half with 1 left");
    answers(MEASURED, 0, WORDS(0, 1, 0, 0, 1, 0, 0, 0, 0, 1), "and the measured player");
    answers(HEAD, 0, WORDS(0, 1, 0, 0, 1, 0, 0, 0, 0, 1), "and it over a lent head");
    answers(RUN, 0, WORDS(0, 1, 0, 0, 1, 0, 0, 0, 0, 1), "and a run of this call");
    t_states = 100;
    answers(MEASURED, 0, WORDS(0, 2, 1, 0, 1, 0, 0, 1, 0, 100), "100 leaves the measured player at the high half, full");
    answers(PLAY, 0, WORDS(2, 6, 0, 1, 0, 0, 0, 0, 0, 0), "and the source's play ended");
    at(1, 0, 0, 0, 0, 0, 0);
    answers(POSITION, 0, WORDS(4294967295u), "past the end is 4,294,967,295");
    at(0, 1, 0, 1, 1, 0, 100);
    answers(POSITION, 0, WORDS(0), "no block back is selectable: 0");
    example();
    load("the example loads", 0, LENT_BLOCKS, LENT_TONES, 0, 3, 1);
    at(2, 3, 0, 0, 0, 1, 0);
    answers(MEASURED, 0, WORDS(1, 0, 0, 2, 3, 0, 0, 0, 1, 0), "a head at an endless pause stays there");
    answers(POSITION, 0, WORDS(2), "and is shown under its block");
}

/* times are the rows' own, also where a row was altered; playing doesn't look at them */
static void stored_times(void) {
    const word most = ((word)1 << 50) - 1;
    tzx(), put(0x12, 1), put(100, 2), put(4, 2);
    load("a sole piece 12 loads", 0, LENT_BLOCKS, LENT_TONES, 0, 1, 1);
    is(blocks[GLYVRASK_SOUND], 400, "its row says 400");
    blocks[GLYVRASK_SOUND] = 7;
    answers(TIME, 0, WORDS(0, 7), "a row that says 7 lasts 7");
    answers(LOADING, 0, WORDS(7), "and so does the load");
    at(0, 0, 0, 0, 0, 0, 0);
    t_states = 400;
    answers(MEASURED, 0, WORDS(0, 5, 0, 0, 3, 0, 0, 0, 0, 0), "400 still stands at the pause");
    blocks[GLYVRASK_SOUND] = most;
    answers(TIME, 0, WORDS(0, most), "2 to the 50th less 1 is answered");
    blocks[GLYVRASK_SOUND] = most + 1;
    refused(TIME, count, 0, 2, 11, "2 to the 50th is refused 11");
    refused(LOADING, count, 0, 1, 11, "  as the loading time");
    refused(MEASURED, count, 0, 10, 11, "  and by a player");
}

/* over the example's tables */
static void refusals(void) {
    static const enum call of_block[] = {NAME, SIZE, MARK, TIME}, of_place[] = {POSITION, PLAY, MEASURED, HEAD, RUN};
    static const unsigned places = sizeof of_place / sizeof *of_place;
    at(0, 0, 0, 0, 0, 0, 0);
    out_len = sizeof out;
    for (unsigned c = 0; c < 4; c++) {
        refused(of_block[c], count, count, values[of_block[c]], 8, "a block at the count is refused 8");
        refused(of_block[c], count, count, 0, 8, "  also in no words");
        refused(of_block[c], 4097, 4097, values[of_block[c]], 11, "  but for a count of 4,097, which is 11");
        refused(of_block[c], count, 0, values[of_block[c]] - 1, 10, "one word too few is refused 10");
    }
    for (unsigned c = 0; c < places; c++) {
        word last = values[of_place[c]];
        refused(of_place[c], count, 0, last - 1, 10, "one word too few is refused 10");
        refused(of_place[c], 4097, 0, last, 11, "a count of 4,097 is refused 11");
        at(0, 5, 0, 0, 0, 0, 0), refused(of_place[c], count, 0, last, 9, "phase 5 is refused 9");
        refused(of_place[c], 4097, 0, last, 11, "  but for a count of 4,097, which is 11");
        at(0, 1, 0, 0, 2, 0, 1), refused(of_place[c], count, 0, last, 9, "a last half of 2 is refused 9");
        at(2, 3, 0, 0, 0, 2, 0), refused(of_place[c], count, 0, last, 9, "an endless flag of 2 is refused 9");
        at(2, 3, 0, 0, 0, 1, 1), refused(of_place[c], count, 0, last, 9, "endless with T-states left is refused 9");
        at(0, 0, 1, 0, 0, 0, 0), refused(of_place[c], count, 0, last, 9, "a word that a start doesn't use is refused 9");
        at(0, 3, 0, 1, 0, 0, 0), refused(of_place[c], count, 0, last, 9, "a word that a pause doesn't use is refused 9");
        at(1, 4, 0, 1, 0, 0, 3500), refused(of_place[c], count, 0, last, 9, "a word that an edge doesn't use is refused 9");
        at(1, 4, 0, 0, 0, 0, 3500), refused(of_place[c], count, 0, last, 9, "an edge in a source row is refused 9");
        at(0, 1, 0, 2, 0, 0, 1), refused(of_place[c], count, 0, last, 9, "a cycle that isn't there is refused 9");
        at(0, 1, 0, 0, 0, 0, 101), refused(of_place[c], count, 0, last, 9, "more left than the entry lasts is refused 9");
        at(3, 3, 0, 0, 0, 0, 0), refused(of_place[c], count, 0, last, 9, "a pause at the count is refused 9");
        at(0, 0, 0, 0, 0, 0, 0), position_len = 6;
        refused(of_place[c], count, 0, last, 9, "six words are refused 9");
        position_len = 7;
    }
    refused(LEN, 4097, 0, 1, 11, "a count of 4,097 is refused 11");
    refused(LEN, count, 0, 0, 10, "one word too few is refused 10");
    refused(LOADING, 4097, 0, 1, 11, "a count of 4,097 is refused 11");
    refused(LOADING, count, 0, 0, 10, "one word too few is refused 10");
    refused(AT_BLOCK, 0, 0, 6, 10, "one word too few is refused 10");
    out_len = 6;
    refused(NAME, count, 0, 1, 10, "a name of seven bytes is refused 10 in six");
    out_len = sizeof out;
    blocks[BLOCK_ROWS(1) + GLYVRASK_SELECTABLE] = 2; /* block 1's row is now bad */
    for (unsigned c = 0; c < 4; c++) refused(of_block[c], count, 1, values[of_block[c]], 11, "a bad row is refused 11");
    refused(LOADING, count, 0, 1, 11, "a bad row is refused 11");
    at(1, 0, 0, 0, 0, 0, 0);
    for (unsigned c = 0; c < places; c++) refused(of_place[c], count, 0, values[of_place[c]], 11, "a position in a bad row is refused 11");
    for (unsigned c = 0; c < places; c++) {
        word last = values[of_place[c]];
        at(1, 5, 0, 0, 0, 0, 0), refused(of_place[c], count, 0, last, 11, "phase 5 in a bad row is refused 11");
        for (position_len = 6; position_len > 0; position_len--) refused(of_place[c], count, 0, last, 11, "  in fewer words too");
        refused(of_place[c], count, 0, last, 9, "  and in none 9");
        refused(of_place[c], 4097, 0, last, 11, "  but for a count of 4,097, which is 11");
        position_len = 1, position[0] = count;
        refused(of_place[c], count, 0, last, 9, "the count's number alone is refused 9");
        position_len = 7;
        at(count, 5, 0, 0, 0, 0, 0), refused(of_place[c], count, 0, last, 9, "phase 5 at the count is refused 9");
        at(0, 5, 0, 0, 0, 0, 0), refused(of_place[c], count, 0, last, 9, "and in a row that is well formed");
    }
    at(0, 0, 0, 0, 0, 0, 0);
    t_states = 401;
    for (unsigned c = 1; c < 4; c++) refused(of_place[c], count, 0, 10, 11, "a walk that reaches a bad row is refused 11");
    answers(RUN, 0, WORDS(11, 0, 0, 0, 0, 0, 0, 0, 0, 0), "in a run its row says 11, and the head is where it was");
    t_states = 400;
    is(call(MEASURED, count, 0, 10), 0, "  but not one that only comes to its start");
    static const unsigned on[] = {400, 0, 1};
    static word rows[31];
    rows[30] = 77;
    is(glyvrask_play_run(tape, used, blocks, LENT_BLOCKS, tones, LENT_TONES, count, position, 7, 1, on, 3, rows, 30), 0, "a run goes on from there");
    is(rows[0], 0, "  it stands");
    is(rows[4], 3, "  at block 0's pause of no length");
    is(rows[10], 0, "  where a call of 0 stays");
    is(rows[20], 11, "  and one of 1 is refused 11 by the next row");
    is(rows[24], 3, "  and leaves the head there");
    is(rows[30], 77, "  and words past the rows");
    is(glyvrask_play_run(tape, used, blocks, LENT_BLOCKS, tones, LENT_TONES, count, position, 7, 1, on, 3, rows, 29), 10, "three rows are refused 10 in 29 words");
    is(glyvrask_play_run(tape, used, blocks, LENT_BLOCKS, tones, LENT_TONES, count, position, 7, 1, on, 0, rows, 0), 0, "and no call needs none");
}

int main(void) {
    lengths();
    block_rows();
    tone_rows();
    refused_loads();
    queries();
    stored_times();
    players();
    refusals();
    printf("%u checks right\n", done);
    return 0;
}
