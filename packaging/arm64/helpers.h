/* The C functions that the program takes from the Rattle kit, which has them for x86-64 alone. Each comment states the
   contract of the kit's declaration (os/src/c.rt and libc/src/heap.rt), which the proofs assume. */
#ifndef HELPERS_H
#define HELPERS_H

#include <stdbool.h>
#include <stddef.h>
#include <stdint.h>
#include <sys/types.h>

/* What an allocation answers: whether there is memory (1 or 0), and the pointer to it. Without memory `place` points to
   a byte that nobody owns, and is not null. A caller may read `has_memory` as one byte or as the whole word. */
struct tried {
  uint64_t has_memory;
  void *place;
};

/* What epoll tells of a descriptor: what it is ready for, and the number that rattle_epoll_ctl was given for it. */
struct readiness {
  uint32_t events;
  uint64_t data;
};

/* Tries to get new memory of `size` bytes at a multiple of `alignment`, which divides 16. Size 0 gets a block too. */
struct tried rattle_alloc(size_t size, size_t alignment);

/* Tries to make the block one of `size` bytes, whose first `kept` bytes are as they were. It may move. If that fails, the
   block is as it was. */
struct tried rattle_realloc(void *block, size_t kept, size_t size, size_t alignment);

/* Frees what either of the two answered. */
void rattle_dealloc(void *block);

/* Puts argument `index` at the start of the buffer, and returns its length; -1 if there is no such argument; -2 if it does
   not fit, and then the buffer is full. */
ssize_t rattle_arg(size_t index, uint8_t *buffer, size_t length);

/* Returns the thread's errno. */
int rattle_errno(void);

/* Sets the thread's errno. */
void rattle_set_errno(int error);

/* Sets or clears O_NONBLOCK of what the descriptor is open on. Returns 0, or -1 with errno set. */
int rattle_set_nonblocking(int descriptor, bool on);

/* Linux's epoll_ctl, with the two fields of its entry as arguments. Returns 0, or -1 with errno set. */
int rattle_epoll_ctl(int set, int operation, int descriptor, uint32_t events, uint64_t data);

/* Linux's epoll_wait: puts at most `length` entries at the start of `entries`, and returns how many, or -1 with errno set. */
ssize_t rattle_epoll_wait(int set, struct readiness *entries, size_t length, int timeout);

#endif
