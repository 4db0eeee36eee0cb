/* The memory of the library, over the C library: the three functions that the proved code calls.
 * They are trusted, like the C library, and not proved. What the code relies on is at each of them.
 */
#define _DEFAULT_SOURCE
#include <malloc.h>
#include <stddef.h>
#include <stdint.h>
#include <stdlib.h>
#include <string.h>
#include <sys/mman.h>

_Static_assert(_Alignof(max_align_t) >= 16, "malloc aligns each block as the proved code needs it");

/* What a request returns: whether there is memory, and where it is. Both words are whole registers
 * for the caller. */
typedef struct {
    uint64_t is_given;
    void *at;
} nm_memory;

/* Where a refusal points to, so that no pointer of the proved code is null. Nothing is read or
 * written there. */
static char nowhere;

#define HIDDEN __attribute__((visibility("hidden")))

HIDDEN nm_memory nm_host_alloc(size_t size, size_t alignment);
HIDDEN nm_memory nm_host_realloc(void *block, size_t kept, size_t size, size_t alignment);
HIDDEN void nm_host_dealloc(void *block);

static nm_memory given(void *block) {
    nm_memory memory = {block != NULL, block != NULL ? block : &nowhere};
    return memory;
}

/* The C library returns null for a size of 0, or not: a block has at least one byte here. */
static size_t at_least_one(size_t size) { return size != 0 ? size : 1; }

/* Advises the kernel about the whole pages of a block that is larger than a page. */
static void advise(char *block, size_t size, int advice) {
    const size_t page = 4096;
    size_t before = (page - (uintptr_t)block % page) % page;
    (void)madvise(block + before, (size - before) / page * page, advice);
}

/* Asks the kernel to back a block of 4 MB or more by huge pages, so that a walk in a large set misses
 * fewer entries of the page table. The environment variable NM_SET_HUGE_PAGES=0 switches this off.
 * The kernel may ignore it, and no byte of the block changes. */
static void ask_for_huge_pages(char *block, size_t size) {
    const size_t large = (size_t)4 << 20;
    if (block == NULL || size < large) return;
    const char *wanted = getenv("NM_SET_HUGE_PAGES");
    if (wanted != NULL && strcmp(wanted, "0") == 0) return;
    advise(block, size, MADV_HUGEPAGE);
}

/* Returns a new block of `size` bytes, less than 2^63. The alignment divides 16, which is that of
 * malloc on x86-64. */
nm_memory nm_host_alloc(size_t size, size_t alignment) {
    (void)alignment;
    void *block = malloc(at_least_one(size));
    ask_for_huge_pages(block, size);
    return given(block);
}

/* Gives a block another size. Its first `kept` bytes remain, and it may move. A block that was
 * refused another size is as it was. */
nm_memory nm_host_realloc(void *block, size_t kept, size_t size, size_t alignment) {
    (void)kept;
    (void)alignment;
    return given(realloc(block, at_least_one(size)));
}

/* Frees a block that one of the two functions above returned. The memory of a block of 256 KB or more
 * goes back to the system at once, even if the C library keeps its addresses: no byte of it is read
 * again. So a set that grows takes no more than what it has at that moment. */
void nm_host_dealloc(void *block) {
    const size_t large = (size_t)256 << 10;
    size_t size = malloc_usable_size(block);
    if (size >= large) advise(block, size, MADV_DONTNEED);
    free(block);
}
