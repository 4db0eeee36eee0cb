/* Preloaded into a program, refuses one of its growths: the one of the number that REFUSE tells,
   from 1, counted from the program's start over malloc, calloc and realloc in all of its threads.
   Where it does, it writes a line to file descriptor 9. */
#include <errno.h>
#include <stdatomic.h>
#include <stdbool.h>
#include <stdlib.h>
#include <unistd.h>

extern void *__libc_malloc(size_t size);
extern void *__libc_calloc(size_t count, size_t size);
extern void *__libc_realloc(void *block, size_t size);

static atomic_ulong asked;
static unsigned long refused;

__attribute__((constructor)) static void start(void) {
  const char *number = getenv("REFUSE");
  refused = number ? strtoul(number, NULL, 10) : 0;
  atomic_store(&asked, 0);
}

static bool is_refused(void) {
  if (atomic_fetch_add(&asked, 1) + 1 != refused) {
    return false;
  }
  if (write(9, "refused\n", 8) != 8) {
    abort();
  }
  errno = ENOMEM;
  return true;
}

void *malloc(size_t size) { return is_refused() ? NULL : __libc_malloc(size); }

void *calloc(size_t count, size_t size) { return is_refused() ? NULL : __libc_calloc(count, size); }

void *realloc(void *block, size_t size) {
    return is_refused() ? NULL : __libc_realloc(block, size);
}
