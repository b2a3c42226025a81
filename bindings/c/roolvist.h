/* Roolvist as one call, over files and outputs in memory. It keeps nothing from one call to the next, and several threads may call. */
#ifndef ROOLVIST_H
#define ROOLVIST_H

#include <stddef.h>
#include <stdint.h>

#ifdef __cplusplus
extern "C" {
#endif

/* How many bytes of each output its buffer holds. */
struct roolvist_written {
    size_t out, err;
};

/* Does what a command line asks for, and answers its exit status (docs/COMMANDS.md).

   `bytes` is cut, one after another, into pieces of these lengths. The first `words` pieces are the words, the program's name first.
   Each two that follow are a file: its path and its bytes; of two files with one path the last counts. Words and paths are UTF-8. Where
   the pieces don't fit the status is 64, and nothing is written.

   What the command writes is put into `out` and `err`, as far as they have room. An `out` that is full gives 74: call again with more.

   No pointer is null, also where its length is 0; the regions don't overlap; out, err and written are the caller's alone during the call.
   Memory comes from malloc. A call takes up to some megabytes of stack. */
uint8_t roolvist_call(const uint8_t *bytes, size_t bytes_len, const size_t *lengths, size_t lengths_len, size_t words,
                      uint8_t *out, size_t out_len, uint8_t *err, size_t err_len, struct roolvist_written *written);

#ifdef __cplusplus
}
#endif

#endif
