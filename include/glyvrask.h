/* Glyvrask for C hosts: ZX Spectrum tape images read, listed and played over memory that the host lends.
 *
 * Two static libraries for x86-64 Linux: `host/build listing` gives glyvrask_listing, `host/build export` all the others.
 * None of these functions allocates, keeps anything between calls, or panics. Each has a proved contract with no condition but
 * these, which hold of any lent memory: a pointer is not null, also where its length is 0; words are aligned to 8 bytes; what is
 * written to overlaps nothing else that is lent in the same call. A length counts elements (bytes, or words of 64 bits).
 */
#ifndef GLYVRASK_H
#define GLYVRASK_H

#if defined(__SIZE_TYPE__) && defined(__UINT64_TYPE__)
typedef __SIZE_TYPE__ glyvrask_size;   /* size_t */
typedef __UINT64_TYPE__ glyvrask_word; /* uint64_t */
#else
#include <stddef.h>
#include <stdint.h>
typedef size_t glyvrask_size;
typedef uint64_t glyvrask_word;
#endif

#ifdef __cplusplus
extern "C" {
#endif

/* THE NUMBERS FOR NO. 1 to 7 leave both lent tables all zero; 8 to 11 alter nothing. A refusal is its number alone: no word of
 * `answer` and no byte of `out` is written. Only a load's 3 has words (below); its number is the same whatever row is lent. */
enum {
    GLYVRASK_OK = 0,
    GLYVRASK_MODEL = 1,       /* model is not 0 (48K), 1 (128K), 2 (Plus3) */
    GLYVRASK_TAPE_LONG = 2,   /* tape over 1,048,576 bytes (in the listing, over 65,535) */
    GLYVRASK_TAPE_BAD = 3,    /* TZX and TAP reading both err */
    GLYVRASK_GENERALISED = 4, /* a generalised piece that the source reading can't take */
    GLYVRASK_TONES_FULL = 5,  /* a block needs more tone rows than remain */
    GLYVRASK_BLOCKS_FULL = 6, /* more block rows than remain */
    GLYVRASK_LAST_BITS = 7,   /* TZX was read whole, but a block with data has last bits above 8 */
    GLYVRASK_NO_BLOCK = 8,    /* block number not below the count */
    GLYVRASK_NO_POSITION = 9, /* position not valid on this tape, or words that name no position */
    GLYVRASK_NO_ROOM = 10,    /* `out` shorter than the text, or `answer` shorter than the values */
    GLYVRASK_BAD_ROW = 11     /* a needed row is not well formed, or the count exceeds capacity */
};

/* THE TABLES. Capacity is the whole rows lent, at most 4,096 blocks and 65,536 tones: a broken last row and rows past these
 * limits are never used. After a load every unused word of both tables is zero. A row's words: */
#define GLYVRASK_BLOCK_WORDS 17
#define GLYVRASK_TONE_WORDS 4

/* the words of a block row */
enum {
    GLYVRASK_TONE = 0,       /* its first tone row */
    GLYVRASK_TONES = 1,      /* how many tone rows it has */
    GLYVRASK_START = 2,      /* place of its data in the tape */
    GLYVRASK_SIZE = 3,       /* bytes of data */
    GLYVRASK_ZERO = 4,       /* T-states of half a 0 bit */
    GLYVRASK_ONE = 5,        /* T-states of half a 1 bit */
    GLYVRASK_LAST = 6,       /* bits used of the last byte */
    GLYVRASK_PAUSE = 7,      /* T-states after the data */
    GLYVRASK_ENDLESS = 8,    /* 1: the pause never ends (a stop) */
    GLYVRASK_SELECTABLE = 9, /* 1: offered in a menu */
    GLYVRASK_NAMED = 10,     /* 0 no name given, 1 `stop`, 2 a text, 3 a group's first block, 4 a group's later block */
    GLYVRASK_TEXT = 11,      /* place of the given name in the tape */
    GLYVRASK_CHARS = 12,     /* bytes of the given name */
    GLYVRASK_SORT = 13,      /* 0 a source row, as every load makes it; 1 a document row, played as TZX 1.20 says */
    GLYVRASK_ROW_LEVEL = 14, /* document rows: the level at which the first pulse is played, 0 low, 1 high; else 0 */
    GLYVRASK_ROW_PLAYED = 15,/* document rows: the level last played before it; else 0 */
    GLYVRASK_SOUND = 16      /* T-states without the pause, as the load counted them; below 2 to the 50th. Times are told by it */
};

/* the words of a tone row */
enum {
    GLYVRASK_NUM = 0,  /* cycles; in a source row 0 plays as one */
    GLYVRASK_LEN1 = 1, /* T-states of a cycle's first half */
    GLYVRASK_LEN2 = 2, /* T-states of its second half */
    GLYVRASK_WAVE = 3  /* document rows: 3 * begin + pulses of a cycle (0, 1, 2), at most 11; else 0. Begin 0: at the current
                        * level, 1: at the level last played, 2: low, 3: high */
};

/* A POSITION is seven words. Words that a phase does not use are 0, and so is `left` where `endless` is 1; other words name no
 * position, as does a row shorter than seven. They are refused as a position of block `position[0]` that is not valid: 11 for the
 * count, 9 where that is not below the count, 11 for its row, 9 (in no words: 11 for the count, 9). Words past the seventh are not
 * read. */
enum {
    GLYVRASK_POS_BLOCK = 0,   /* its block number */
    GLYVRASK_POS_PHASE = 1,   /* 0 the block's start, 1 tones, 2 data, 3 pause, 4 a document row's edge: its pause's first millisecond */
    GLYVRASK_POS_ITEM = 2,    /* tones: the tone row, counted from the block's first; data: the byte */
    GLYVRASK_POS_PART = 3,    /* tones: the cycle; data: the bit, from the top */
    GLYVRASK_POS_HALF = 4,    /* tones, data: 1 in the last half */
    GLYVRASK_POS_ENDLESS = 5, /* 1: what is left never ends */
    GLYVRASK_POS_LEFT = 6,    /* T-states left of this entry */
    GLYVRASK_POS_WORDS = 7
};

/* A PLAYER'S ANSWER is ten words, the last seven of them the position where the call leaves the head. */
enum {
    GLYVRASK_HOW = 0,    /* 0 it stands, 1 it has stopped at an endless pause, 2 it has ended */
    GLYVRASK_PASSED = 1, /* entries passed */
    GLYVRASK_LEVEL = 2,  /* the level there: 0 low, 1 high */
    GLYVRASK_AT = 3,     /* the position's first word */
    GLYVRASK_PLAYED_WORDS = 10
};

/* WHERE THE BYTES RAN OUT, eight words that a load answers with 3: what the attempt to read a TZX met, then where the attempt to read
 * a TAP ran out. The short field is the first in reading order that is not all there. Words that a cause doesn't name are 0. */
enum {
    GLYVRASK_CAUSE = 0,       /* 0 too few bytes for a TZX's head; 1 no TZX's signature; 2 a field of a piece is short; 3 a 2A's length isn't 0 */
    GLYVRASK_CUT_KIND = 1,    /* causes 2, 3: the piece's kind */
    GLYVRASK_CUT_PIECE = 2,   /* causes 2, 3: the place of its kind byte in the tape */
    GLYVRASK_CUT_PLACE = 3,   /* causes 0, 2: the place of the short field */
    GLYVRASK_CUT_WIDTH = 4,   /* causes 0, 2: how many bytes it has */
    GLYVRASK_CUT_LENGTH = 5,  /* cause 3: the 2A's length */
    GLYVRASK_TAP_PLACE = 6,   /* the place of the TAP block's data that is short */
    GLYVRASK_TAP_WIDTH = 7,   /* the length that the block names */
    GLYVRASK_UNREAD_WORDS = 8
};

/* The block number that stands for past the end. */
#define GLYVRASK_PAST_END 4294967295u

/* The listing as text into `out`, last the loading time as glyvrask_loading_time has it: its length, or a refusal's number. No
 * text is shorter than 37 bytes and no number is above 11, so below 32 it is a refusal. `tape` has at most 65,535 bytes; model 0
 * is the 48K, 1 the 128K, 2 the Plus3. Bytes of `out` past the text stay. Its own tables, 512 block and 2,048 tone rows, take
 * 8 * (512 * GLYVRASK_BLOCK_WORDS + 2048 * GLYVRASK_TONE_WORDS) bytes of stack. Refusals: 1, 2, 3 to 7, 10. */
unsigned glyvrask_listing(const unsigned char *tape, glyvrask_size tape_len, unsigned model,
                          unsigned char *out, glyvrask_size out_len);

/* Every function below returns 0 or a refusal's number. On 0 its values stand in the first words of `answer`, and words past
 * them stay. Where `answer` is shorter than the values it is 10; that comes last, as rule 36 (docs/RULES.md) has it of a name,
 * but first in a load. */

/* A load. answer: 0 format (0 TAP, 1 TZX), 1 blocks, 2 tone rows. Refusals: 10 (`answer` below 3 words: nothing is read, and
 * both tables stay), 1, 2, then as the reading goes 3 to 7. With 3, GLYVRASK_UNREAD_WORDS words tell why, where `answer` has room for
 * all of them; else it stays. */
unsigned glyvrask_load(const unsigned char *tape, glyvrask_size tape_len, unsigned model,
                       glyvrask_word *blocks, glyvrask_size blocks_len,
                       glyvrask_word *tones, glyvrask_size tones_len,
                       glyvrask_word *answer, glyvrask_size answer_len);

/* The functions below take the tape as it was loaded: the same bytes, both tables, and `count`, the load's answer 1. They work
 * on any words: a row that is needed and not well formed is 11. */

/* How many blocks the tape has. answer: 0 the count. Refusals: 11, 10. */
unsigned glyvrask_len(const glyvrask_word *blocks, glyvrask_size blocks_len, glyvrask_word count,
                      glyvrask_word *answer, glyvrask_size answer_len);

/* Block i's name as UTF-8 into `out`. answer: 0 the name's length in bytes. Bytes of `out` past the name stay. Refusals: 11 for
 * the count, 8, 11 for the row, 10. */
unsigned glyvrask_block_name(const unsigned char *tape, glyvrask_size tape_len,
                             const glyvrask_word *blocks, glyvrask_size blocks_len,
                             const glyvrask_word *tones, glyvrask_size tones_len,
                             glyvrask_word count, glyvrask_word i,
                             unsigned char *out, glyvrask_size out_len,
                             glyvrask_word *answer, glyvrask_size answer_len);

/* Its data size. answer: 0 bytes. Refusals: 11, 8, 11, 10. */
unsigned glyvrask_block_size(const unsigned char *tape, glyvrask_size tape_len,
                             const glyvrask_word *blocks, glyvrask_size blocks_len,
                             const glyvrask_word *tones, glyvrask_size tones_len,
                             glyvrask_word count, glyvrask_word i,
                             glyvrask_word *answer, glyvrask_size answer_len);

/* Whether it is offered in a menu. answer: 0 the mark, 0 or 1. Refusals: 11, 8, 11, 10. */
unsigned glyvrask_block_selectable(const unsigned char *tape, glyvrask_size tape_len,
                                   const glyvrask_word *blocks, glyvrask_size blocks_len,
                                   const glyvrask_word *tones, glyvrask_size tones_len,
                                   glyvrask_word count, glyvrask_word i,
                                   glyvrask_word *answer, glyvrask_size answer_len);

/* What it lasts, with its pause, by its row's words. answer: 0 endless (1: it never ends), 1 T-states (0 where it never ends).
 * Refusals: 11, 8, 11, 10. */
unsigned glyvrask_block_time(const unsigned char *tape, glyvrask_size tape_len,
                             const glyvrask_word *blocks, glyvrask_size blocks_len,
                             const glyvrask_word *tones, glyvrask_size tones_len,
                             glyvrask_word count, glyvrask_word i,
                             glyvrask_word *answer, glyvrask_size answer_len);

/* The loading time by the rows' words: up to the end of the last sound with length before the first stop or the end, 0 if there is
 * none; a pause before that sound counts, one behind it doesn't. answer: 0 T-states. Refusals: 11, for any row up to the first
 * stop or the end, 10. */
unsigned glyvrask_loading_time(const unsigned char *tape, glyvrask_size tape_len,
                               const glyvrask_word *blocks, glyvrask_size blocks_len,
                               const glyvrask_word *tones, glyvrask_size tones_len,
                               glyvrask_word count,
                               glyvrask_word *answer, glyvrask_size answer_len);

/* A block's start. answer: a position's seven words. Refusal: 10. */
unsigned glyvrask_new_at_block(glyvrask_word block, glyvrask_word *answer, glyvrask_size answer_len);

/* The block that a position is shown under: back to a selectable one or 0, or GLYVRASK_PAST_END. answer: 0 the block number.
 * Refusals: 11 for the count, 9, 11 for a row, 9, 10. */
unsigned glyvrask_position_block(const unsigned char *tape, glyvrask_size tape_len,
                                 const glyvrask_word *blocks, glyvrask_size blocks_len,
                                 const glyvrask_word *tones, glyvrask_size tones_len,
                                 glyvrask_word count,
                                 const glyvrask_word *position, glyvrask_size position_len,
                                 glyvrask_word *answer, glyvrask_size answer_len);

/* The source's play of n T-states from a position. answer: a player's ten words. Refusals: 11 for the count, 9, 11 for its row,
 * 9, 11 for a row that the walk reaches, 10. `position` and `answer` must not overlap. */
unsigned glyvrask_play(const unsigned char *tape, glyvrask_size tape_len,
                       const glyvrask_word *blocks, glyvrask_size blocks_len,
                       const glyvrask_word *tones, glyvrask_size tones_len,
                       glyvrask_word count,
                       const glyvrask_word *position, glyvrask_size position_len, unsigned n,
                       glyvrask_word *answer, glyvrask_size answer_len);

/* The measured player's call of n T-states from a position; otherwise as glyvrask_play. */
unsigned glyvrask_play_measured(const unsigned char *tape, glyvrask_size tape_len,
                                const glyvrask_word *blocks, glyvrask_size blocks_len,
                                const glyvrask_word *tones, glyvrask_size tones_len,
                                glyvrask_word count,
                                const glyvrask_word *position, glyvrask_size position_len, unsigned n,
                                glyvrask_word *answer, glyvrask_size answer_len);

/* A run of calls: of the source's play where `measured` is 0, else of the measured player. Call k, of counts[k] T-states, begins
 * where call k - 1 left the head; its ten words are row k of `answers`, words 10 * k on. A call that is refused (11, at a row that
 * its walk reaches) has the number in GLYVRASK_HOW, 0 passed, level 0, and the head where it was; the run goes on from there.
 * Each row is as the single calls answer it, but the position is judged once, and each block row as it is reached. Refusals of
 * the run, which alter nothing: 11 for the count, 9, 11 for the row, 9 where it begins, 10 where `answers` has fewer than
 * 10 * counts_len words. Words past the last row stay. */
unsigned glyvrask_play_run(const unsigned char *tape, glyvrask_size tape_len,
                           const glyvrask_word *blocks, glyvrask_size blocks_len,
                           const glyvrask_word *tones, glyvrask_size tones_len,
                           glyvrask_word count,
                           const glyvrask_word *position, glyvrask_size position_len, unsigned measured,
                           const unsigned *counts, glyvrask_size counts_len,
                           glyvrask_word *answers, glyvrask_size answers_len);

/* The measured player's call of n T-states over a head that you lend: `head` has a position's seven words, which become those
 * where the call leaves it, so that the next call goes on. A refusal, 10 too, leaves them as they were. Otherwise as
 * glyvrask_play_measured; `head` and `answer` must not overlap. */
unsigned glyvrask_play_head(const unsigned char *tape, glyvrask_size tape_len,
                            const glyvrask_word *blocks, glyvrask_size blocks_len,
                            const glyvrask_word *tones, glyvrask_size tones_len,
                            glyvrask_word count,
                            glyvrask_word *head, glyvrask_size head_len, unsigned n,
                            glyvrask_word *answer, glyvrask_size answer_len);

#ifdef __cplusplus
}
#endif

#endif
