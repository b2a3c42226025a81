/* Runs a program that lies in memory: cc example.c libroolvist.so && LD_LIBRARY_PATH=. ./a.out */
#include "roolvist.h"
#include <stdio.h>
#include <string.h>

int main(void) {
    static const char *pieces[] = {
        "roolvist", "run", "double.bril", "--", "21",
        "double.bril", "@main(n: int) { n: int = add n n; print n; }",
    };
    enum { COUNT = sizeof pieces / sizeof *pieces, WORDS = 5 };
    static char bytes[4096], out[4096], err[4096];
    size_t lengths[COUNT], used = 0;
    for (size_t i = 0; i < COUNT; i++) {
        lengths[i] = strlen(pieces[i]);
        memcpy(bytes + used, pieces[i], lengths[i]);
        used += lengths[i];
    }
    struct roolvist_written written;
    int status = roolvist_call((uint8_t *)bytes, used, lengths, COUNT, WORDS, (uint8_t *)out, sizeof out, (uint8_t *)err,
                               sizeof err, &written);
    fwrite(out, 1, written.out, stdout);
    fwrite(err, 1, written.err, stderr);
    return status;
}
