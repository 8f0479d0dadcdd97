/* Stands before malloc: the request for memory with the number REFUSE, from 1, answers that there is none, and says so on
   descriptor 9. To ask for less than there is, as a list does that gives back what it has too much, is no such request. */
#define _GNU_SOURCE
#include <dlfcn.h>
#include <errno.h>
#include <stdint.h>
#include <stdlib.h>
#include <unistd.h>
static long refused, seen;
static struct { void *at; size_t size; } blocks[1 << 16];
__attribute__((constructor)) static void begin(void) { refused = atol(getenv("REFUSE")); }
static int refuses(void) {
  if (++seen != refused) return 0;
  if (write(9, "refused\n", 8) != 8) _exit(99);
  errno = ENOMEM;
  return 1;
}
static size_t slot(void *at) {
  size_t i = ((uintptr_t)at >> 4) % (1 << 16);
  while (blocks[i].at && blocks[i].at != at) i = (i + 1) % (1 << 16);
  return i;
}
static void *made(void *at, size_t size) {
  if (at) { size_t i = slot(at); blocks[i].at = at; blocks[i].size = size; }
  return at;
}
void *malloc(size_t size) {
  static void *(*real)(size_t);
  if (!real) real = dlsym(RTLD_NEXT, "malloc");
  return refuses() ? NULL : made(real(size), size);
}
void *realloc(void *old, size_t size) {
  static void *(*real)(void *, size_t);
  if (!real) real = dlsym(RTLD_NEXT, "realloc");
  int grows = !old || size > blocks[slot(old)].size;
  return grows && refuses() ? NULL : made(real(old, size), size);
}
void *calloc(size_t count, size_t size) {
  static void *(*real)(size_t, size_t);
  if (!real) real = dlsym(RTLD_NEXT, "calloc");
  return refuses() ? NULL : made(real(count, size), count * size);
}
void *aligned_alloc(size_t align, size_t size) {
  static void *(*real)(size_t, size_t);
  if (!real) real = dlsym(RTLD_NEXT, "aligned_alloc");
  return refuses() ? NULL : made(real(align, size), size);
}
int posix_memalign(void **to, size_t align, size_t size) {
  static int (*real)(void **, size_t, size_t);
  if (!real) real = dlsym(RTLD_NEXT, "posix_memalign");
  int failed = refuses() ? ENOMEM : real(to, align, size);
  if (!failed) made(*to, size);
  return failed;
}
