/* Tries each function of helpers.h, by this program's own arguments: `helpers_test word ""`. Prints what does not hold. */
#include "helpers.h"

#include <errno.h>
#include <fcntl.h>
#include <malloc.h>
#include <stdio.h>
#include <string.h>
#include <sys/epoll.h>
#include <sys/eventfd.h>
#include <sys/mman.h>
#include <unistd.h>

#define TOO_MUCH ((size_t)1 << 62)
#define HOLDS(fact) holds((fact), #fact, __LINE__)

static int faults;

static void holds(bool fact, const char *text, int line) {
  if (!fact) {
    printf("line %d: not so: %s\n", line, text);
    faults++;
  }
}

static void try_alloc(void) {
  for (size_t size = 0; size < 100; size++) {
    struct tried first = rattle_alloc(size, 16), second = rattle_alloc(size, 16);
    HOLDS(first.has_memory == 1 && second.has_memory == 1);
    HOLDS(first.place && second.place && first.place != second.place);
    HOLDS((uintptr_t)first.place % 16 == 0 && (uintptr_t)second.place % 16 == 0);
    HOLDS(malloc_usable_size(first.place) >= size);
    memset(first.place, 1, size);
    memset(second.place, 2, size);
    rattle_dealloc(first.place);
    rattle_dealloc(second.place);
  }
  struct tried refused = rattle_alloc(TOO_MUCH, 8);
  HOLDS(refused.has_memory == 0 && refused.place != NULL);
}

static void try_realloc(void) {
  struct tried block = rattle_alloc(4, 1);
  memcpy(block.place, "abcd", 4);
  struct tried larger = rattle_realloc(block.place, 4, 1 << 20, 1);
  HOLDS(larger.has_memory == 1 && memcmp(larger.place, "abcd", 4) == 0);
  HOLDS(malloc_usable_size(larger.place) >= 1 << 20);
  struct tried refused = rattle_realloc(larger.place, 4, TOO_MUCH, 1);
  HOLDS(refused.has_memory == 0 && refused.place != NULL);
  HOLDS(memcmp(larger.place, "abcd", 4) == 0 && malloc_usable_size(larger.place) >= 1 << 20);
  struct tried smaller = rattle_realloc(larger.place, 2, 2, 1);
  HOLDS(smaller.has_memory == 1 && memcmp(smaller.place, "ab", 2) == 0);
  struct tried empty = rattle_realloc(smaller.place, 0, 0, 16);
  HOLDS(empty.has_memory == 1 && empty.place != NULL);
  rattle_dealloc(empty.place);
}

static void try_dealloc(void) {
  struct tried kept = rattle_alloc(100, 8);
  size_t used = mallinfo2().uordblks;
  struct tried freed = rattle_alloc(100000, 8);
  HOLDS(mallinfo2().uordblks > used);
  rattle_dealloc(freed.place);
  HOLDS(mallinfo2().uordblks == used);
  rattle_dealloc(kept.place);
}

static void try_arg(void) {
  uint8_t buffer[8] = "........";
  HOLDS(rattle_arg(1, buffer, sizeof buffer) == 4 && memcmp(buffer, "word....", 8) == 0);
  HOLDS(rattle_arg(2, buffer, sizeof buffer) == 0 && memcmp(buffer, "word....", 8) == 0);
  HOLDS(rattle_arg(3, buffer, sizeof buffer) == -1 && rattle_arg(SIZE_MAX, buffer, sizeof buffer) == -1);
  memset(buffer, '.', sizeof buffer);
  HOLDS(rattle_arg(1, buffer, 3) == -2 && memcmp(buffer, "wor.", 4) == 0);
  HOLDS(rattle_arg(1, buffer, 4) == 4 && rattle_arg(1, buffer, 0) == -2 && rattle_arg(2, buffer, 0) == 0);
}

static void try_errno(void) {
  rattle_set_errno(EINTR);
  HOLDS(errno == EINTR && rattle_errno() == EINTR);
  errno = ENOSYS;
  HOLDS(rattle_errno() == ENOSYS);
}

static void try_set_nonblocking(void) {
  int ends[2];
  HOLDS(pipe(ends) == 0);
  HOLDS(rattle_set_nonblocking(ends[0], true) == 0 && (fcntl(ends[0], F_GETFL) & O_NONBLOCK));
  char byte;
  HOLDS(read(ends[0], &byte, 1) == -1 && rattle_errno() == EAGAIN);
  HOLDS(rattle_set_nonblocking(ends[0], false) == 0 && !(fcntl(ends[0], F_GETFL) & O_NONBLOCK));
  HOLDS(rattle_set_nonblocking(-1, true) == -1 && rattle_errno() == EBADF);
  close(ends[0]);
  close(ends[1]);
}

static void try_epoll(void) {
  const uint64_t numbers[] = {0xfedcba9876543210, 1};
  int set = epoll_create1(0);
  struct readiness entries[3] = {{7, 7}, {7, 7}, {7, 7}};
  HOLDS(rattle_epoll_wait(set, entries, 3, 0) == 0 && entries[0].events == 7);
  for (int i = 0; i < 2; i++)
    HOLDS(rattle_epoll_ctl(set, EPOLL_CTL_ADD, eventfd(1, 0), EPOLLIN | EPOLLET, numbers[i]) == 0);
  HOLDS(rattle_epoll_wait(set, entries, 1, 0) == 1 && entries[1].data == 7);
  HOLDS(entries[0].events == EPOLLIN && entries[0].data == numbers[0]);
  HOLDS(rattle_epoll_wait(set, entries, 3, 0) == 1 && entries[0].data == numbers[1] && entries[1].data == 7);
  for (int i = 0; i < 2; i++)
    HOLDS(rattle_epoll_ctl(set, EPOLL_CTL_ADD, eventfd(1, 0), EPOLLIN, numbers[i]) == 0);
  HOLDS(rattle_epoll_wait(set, entries, 3, 0) == 2);
  HOLDS(entries[0].data == numbers[0] && entries[1].data == numbers[1] && entries[2].data == 7);
  HOLDS(rattle_epoll_ctl(set, EPOLL_CTL_ADD, -1, EPOLLIN, 1) == -1 && rattle_errno() == EBADF);
  HOLDS(rattle_epoll_wait(-1, entries, 3, 0) == -1 && rattle_errno() == EBADF);
  HOLDS(rattle_epoll_wait(set, entries, 0, 0) == -1 && rattle_errno() == EINVAL);
  close(set);
}

/* More entries than an int counts. */
static void try_epoll_of_many(void) {
  const size_t length = ((size_t)1 << 31) + 1;
  int set = epoll_create1(0);
  struct readiness *entries = mmap(NULL, length * sizeof *entries, PROT_READ | PROT_WRITE,
                                   MAP_PRIVATE | MAP_ANONYMOUS | MAP_NORESERVE, -1, 0);
  HOLDS(entries != MAP_FAILED);
  HOLDS(rattle_epoll_ctl(set, EPOLL_CTL_ADD, eventfd(1, 0), EPOLLIN, 5) == 0);
  HOLDS(rattle_epoll_wait(set, entries, length, 0) == 1 && entries[0].data == 5);
  close(set);
}

int main(void) {
  try_alloc();
  try_realloc();
  try_dealloc();
  try_arg();
  try_errno();
  try_set_nonblocking();
  try_epoll();
  try_epoll_of_many();
  return faults != 0;
}
