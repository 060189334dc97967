/* The three functions that the archive needs of its program: the heap, over malloc. With -DLP_REFUSE the request number
 * lp_refused, counted from 0, is refused.
 *
 * Who brings another heap owes: `ok` is 1, and `at` has `size` bytes at an address that `least` divides, which is 1, 2, 4, 8 or 16; at size
 * 0 `at` is not NULL, and is given back too, so here it has `least` bytes. Or `ok` is 0, the request is refused, and `at` is not looked at.
 * rattle_realloc keeps the first `old_size` bytes, or `size` if that is less: `old_size` are in use, and the block may have more. Refused, it
 * leaves the block as it was. All three are called within the calls of the library, on their thread: calls side by side need a heap
 * that threads may share. bindings/c/arena.c is such a heap. */
#include <stddef.h>
#include <stdint.h>
#include <stdlib.h>

#ifdef __cplusplus
extern "C" {
#endif
struct given { uint64_t ok; void *at; };
static char nothing[16];
#ifdef LP_REFUSE
long lp_refused = -1, lp_requests = 0;
static int is_refused(void) { return lp_requests++ == lp_refused; }
#else
static int is_refused(void) { return 0; }
#endif

static struct given given(void *at) {
    struct given made = { at != NULL, at ? at : nothing };
    return made;
}

struct given rattle_alloc(size_t size, size_t least) {
    return is_refused() ? given(NULL) : given(malloc(size ? size : least));
}
struct given rattle_realloc(void *at, size_t old_size, size_t size, size_t least) {
    (void)old_size;
    return is_refused() ? given(NULL) : given(realloc(at, size ? size : least));
}
void rattle_dealloc(void *at) { free(at); }
#ifdef __cplusplus
}
#endif
