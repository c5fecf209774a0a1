/* A library to be loaded before libc's: the taking of memory whose number is in REFUSE_AT gets none. */
#include <errno.h>
#include <stddef.h>
#include <stdlib.h>

extern void *__libc_malloc(size_t);
extern void *__libc_calloc(size_t, size_t);
extern void *__libc_realloc(void *, size_t);
extern void *__libc_memalign(size_t, size_t);

static long at = -1;

/* Programs that this one runs don't find the number in their environment. */
__attribute__((constructor)) static void read_number(void) {
  const char *said;
  if (at >= 0) return;
  said = getenv("REFUSE_AT");
  at = said ? atol(said) : 0;
  unsetenv("REFUSE_AT");
}

static int refused(void) {
  static long taken;
  read_number();
  if (++taken != at) return 0;
  errno = ENOMEM;
  return 1;
}

void *malloc(size_t size) { return refused() ? NULL : __libc_malloc(size); }
void *calloc(size_t count, size_t size) { return refused() ? NULL : __libc_calloc(count, size); }
void *realloc(void *old, size_t size) { return refused() ? NULL : __libc_realloc(old, size); }
void *memalign(size_t align, size_t size) { return refused() ? NULL : __libc_memalign(align, size); }
void *aligned_alloc(size_t align, size_t size) { return memalign(align, size); }

int posix_memalign(void **out, size_t align, size_t size) {
  *out = memalign(align, size);
  return *out ? 0 : ENOMEM;
}
