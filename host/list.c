/* A catalogue host: lists a tape file for a model, as the program `list` does, through glyvrask_listing.
 *   list 48K|128K|Plus3 FILE
 * Prints the listing, or `refused n`. */
#include "glyvrask.h"

/* The kit's compiler has no header files. */
extern int open(const char *, int, ...);
extern long read(int, void *, glyvrask_size);
extern long write(int, const void *, glyvrask_size);
extern int printf(const char *, ...);
extern int strcmp(const char *, const char *);

/* one byte more than is listed, so that a longer file is refused 2 */
static unsigned char tape[65536];

/* 512 rows of at most 546 bytes, and the first and last lines */
static unsigned char out[300000];

static int model_of(const char *s) {
    static const char *const names[] = {"48K", "128K", "Plus3"};
    for (int i = 0; i < 3; i++)
        if (strcmp(s, names[i]) == 0) return i;
    return -1;
}

/* the file's first bytes: how many, or -1 */
static long read_file(const char *path) {
    int file = open(path, 0);
    long used = 0, n = 1;
    if (file < 0) return -1;
    while (n > 0 && used < (long)sizeof tape) {
        n = read(file, tape + used, sizeof tape - used);
        if (n > 0) used += n;
    }
    return n < 0 ? -1 : used;
}

static int write_all(const unsigned char *text, glyvrask_size size) {
    while (size > 0) {
        long n = write(1, text, size);
        if (n <= 0) return 1;
        text += n, size -= n;
    }
    return 0;
}

int main(int args, char **arg) {
    int model = args == 3 ? model_of(arg[1]) : -1;
    if (model < 0) {
        printf("usage: list 48K|128K|Plus3 FILE\n");
        return 2;
    }
    long used = read_file(arg[2]);
    if (used < 0) {
        printf("list: cannot read %s\n", arg[2]);
        return 2;
    }
    unsigned n = glyvrask_listing(tape, used, model, out, sizeof out);
    if (n < 32) {
        printf("refused %u\n", n);
        return 0;
    }
    return write_all(out, n);
}
