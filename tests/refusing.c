/* Refuses one allocation of a program that it is loaded before: that with the number in REFUSE_AT, from 1. The program is
   told so by one byte on the descriptor in REFUSE_TOLD. glibc alone. */
#include <errno.h>
#include <stdatomic.h>
#include <stdlib.h>
#include <unistd.h>

extern void *__libc_malloc(size_t size);
extern void *__libc_calloc(size_t count, size_t size);
extern void *__libc_realloc(void *old, size_t size);
extern void *__libc_memalign(size_t alignment, size_t size);

static atomic_long left;
static int told = -1;

__attribute__((constructor)) static void begin(void) {
  const char *at = getenv("REFUSE_AT"), *descriptor = getenv("REFUSE_TOLD");
  told = descriptor ? atoi(descriptor) : -1;
  atomic_store(&left, at ? atol(at) : 0);
}

static int is_refused(void) {
  if (atomic_load(&left) <= 0 || atomic_fetch_sub(&left, 1) != 1) return 0;
  if (told >= 0 && write(told, "r", 1) != 1) _exit(99);
  errno = ENOMEM;
  return 1;
}

void *malloc(size_t size) { return is_refused() ? NULL : __libc_malloc(size); }

void *calloc(size_t count, size_t size) { return is_refused() ? NULL : __libc_calloc(count, size); }

void *realloc(void *old, size_t size) { return is_refused() ? NULL : __libc_realloc(old, size); }

void *memalign(size_t alignment, size_t size) { return is_refused() ? NULL : __libc_memalign(alignment, size); }

void *aligned_alloc(size_t alignment, size_t size) { return memalign(alignment, size); }

int posix_memalign(void **at, size_t alignment, size_t size) {
  void *found = is_refused() ? NULL : __libc_memalign(alignment, size);
  if (!found) return ENOMEM;
  *at = found;
  return 0;
}
