/* The listing from C: each refusal that it has, with nothing written, and a text that just fits. Ends with 1 at the first check that is wrong. */
#include "glyvrask.h"

/* The kit's compiler has no header files. */
extern int printf(const char *, ...);
extern void exit(int);

static unsigned char tape[70000], out[300000];
static glyvrask_size used;
static unsigned done;

static void put(unsigned long number, unsigned width) {
    for (; width > 0; width--, number >>= 8) tape[used++] = number & 255;
}

static void tzx(void) {
    static const unsigned char head[] = {'Z', 'X', 'T', 'a', 'p', 'e', '!', 0x1A, 1, 20};
    used = 0;
    for (unsigned i = 0; i < sizeof head; i++) put(head[i], 1);
}

/* a generalised piece whose pilot gives n tone rows, and whose data is one byte, or none */
static void generalised(unsigned long n, unsigned long data) {
    tzx();
    put(0x19, 1), put(0, 4), put(0, 2), put(n, 4), put(2, 1), put(1, 1), put(data, 4), put(2, 1), put(2, 1);
    if (n > 0) put(0, 1), put(5, 2), put(6, 2);
    for (unsigned long i = 0; i < n; i++) put(0, 1), put(3, 2);
    if (data > 0) put(0, 1), put(8, 2), put(8, 2), put(0, 1), put(9, 2), put(9, 2), put(0xA5, 1);
}

/* one listing: its number, and every byte that is not text as it was */
static void is(unsigned model, glyvrask_size room, unsigned wanted, const char *what) {
    for (unsigned i = 0; i < sizeof out; i++) out[i] = i % 251;
    unsigned got = glyvrask_listing(tape, used, model, out, room);
    glyvrask_size kept = wanted < 32 ? 0 : wanted;
    while (kept < sizeof out && out[kept] == kept % 251) kept++;
    if (got != wanted || kept != sizeof out) {
        printf("WRONG %s: got %u, wanted %u; bytes stay up to %lu\n", what, got, wanted, (unsigned long)kept);
        exit(1);
    }
    done++;
}

int main(void) {
    tzx();
    is(3, sizeof out, 1, "model 3");
    used = 65536;
    is(0, sizeof out, 2, "65,536 bytes");
    is(3, sizeof out, 1, "and a bad model goes first");
    used = 0, put(2, 2), put(0xFF, 1);
    is(0, sizeof out, 3, "short data");
    generalised(0, 0);
    is(1, sizeof out, 4, "a generalised piece with no data symbol");
    generalised(2049, 8);
    is(2, sizeof out, 5, "2,049 tone rows");
    tzx(), put(0x24, 1), put(512, 2), put(0x20, 1), put(1, 2), put(0x25, 1);
    is(0, sizeof out, 6, "513 blocks");
    tzx(), put(0x14, 1), put(10, 2), put(20, 2), put(9, 1), put(0, 2), put(1, 3), put(0x80, 1);
    is(0, sizeof out, 7, "last bits 9");
    used = 0;
    is(0, 36, 10, "a byte too few");
    is(0, 0, 10, "no byte at all");
    is(0, 37, 37, "an empty tape in 37 bytes");
    is(1, 37, 10, "whose name is longer on the 128K");
    is(1, 38, 38, "and fits one byte more");
    printf("%u listings right\n", done);
    return 0;
}
