#include "helpers.h"

#include <errno.h>
#include <stdlib.h>
#include <sys/epoll.h>
#include <sys/ioctl.h>

/* epoll_wait takes the number of entries as an int, and refuses one of more than 2^31 bytes. */
#define MOST_ENTRIES 0x1000000

_Static_assert(sizeof(struct epoll_event) == sizeof(struct readiness), "an entry has 16 bytes");
_Static_assert(offsetof(struct epoll_event, events) == offsetof(struct readiness, events), "its events come first");
_Static_assert(offsetof(struct epoll_event, data) == offsetof(struct readiness, data), "its number is at byte 8");
_Static_assert(_Alignof(max_align_t) >= 16, "malloc aligns to 16");

static char nobody;
static int word_count;
static char **words;

/* The C library calls this with the arguments of main, and does so first. */
__attribute__((constructor)) static void keep_words(int count, char **values) {
  word_count = count;
  words = values;
}

static struct tried tried(void *place) {
  return (struct tried){place != NULL, place ? place : &nobody};
}

/* malloc and realloc may take size 0 for a call that frees, or answer it with null. */
static size_t some(size_t size, size_t alignment) {
  return size ? size : alignment;
}

struct tried rattle_alloc(size_t size, size_t alignment) {
  return tried(malloc(some(size, alignment)));
}

struct tried rattle_realloc(void *block, size_t kept, size_t size, size_t alignment) {
  (void)kept; /* realloc keeps as much as both blocks hold */
  return tried(realloc(block, some(size, alignment)));
}

void rattle_dealloc(void *block) {
  free(block);
}

ssize_t rattle_arg(size_t index, uint8_t *buffer, size_t length) {
  if (index >= (size_t)word_count)
    return -1;
  size_t at = 0;
  for (; words[index][at]; at++) {
    if (at == length)
      return -2;
    buffer[at] = (uint8_t)words[index][at];
  }
  return (ssize_t)at;
}

int rattle_errno(void) {
  return errno;
}

void rattle_set_errno(int error) {
  errno = error;
}

int rattle_set_nonblocking(int descriptor, bool on) {
  int flag = on;
  return ioctl(descriptor, FIONBIO, &flag);
}

int rattle_epoll_ctl(int set, int operation, int descriptor, uint32_t events, uint64_t data) {
  struct epoll_event entry = {.events = events, .data.u64 = data};
  return epoll_ctl(set, operation, descriptor, &entry);
}

ssize_t rattle_epoll_wait(int set, struct readiness *entries, size_t length, int timeout) {
  int most = length < MOST_ENTRIES ? (int)length : MOST_ENTRIES;
  return epoll_wait(set, (struct epoll_event *)entries, most, timeout);
}
