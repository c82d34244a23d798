/* Refuses one allocation of the process that it is preloaded into: that of the number REFUSED_ALLOCATION, counted from the
   start of the program over all threads. Writes a byte to the descriptor REFUSED_TOLD when it does. */
#include <errno.h>
#include <stdatomic.h>
#include <stdlib.h>
#include <unistd.h>

void *__libc_malloc(size_t size);
void *__libc_calloc(size_t count, size_t size);
void *__libc_realloc(void *block, size_t size);
void *__libc_memalign(size_t alignment, size_t size);

static atomic_long left;
static int told = -1;

__attribute__((constructor)) static void begin(void) {
  const char *descriptor = getenv("REFUSED_TOLD");
  const char *number = getenv("REFUSED_ALLOCATION");
  told = descriptor ? atoi(descriptor) : -1;
  left = number ? atol(number) : 0;
}

static int is_refused(void) {
  if (atomic_load(&left) <= 0 || atomic_fetch_sub(&left, 1) != 1) return 0;
  if (told >= 0 && write(told, "x", 1) != 1) _exit(99);
  errno = ENOMEM;
  return 1;
}

void *malloc(size_t size) { return is_refused() ? NULL : __libc_malloc(size); }

void *calloc(size_t count, size_t size) { return is_refused() ? NULL : __libc_calloc(count, size); }

void *realloc(void *block, size_t size) {
  return size > 0 && is_refused() ? NULL : __libc_realloc(block, size);
}

void *memalign(size_t alignment, size_t size) {
  return is_refused() ? NULL : __libc_memalign(alignment, size);
}

void *aligned_alloc(size_t alignment, size_t size) { return memalign(alignment, size); }

int posix_memalign(void **block, size_t alignment, size_t size) {
  void *found = memalign(alignment, size);
  if (found == NULL) return ENOMEM;
  *block = found;
  return 0;
}
