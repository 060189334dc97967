/* For refusals.py: counts the requests for memory, and refuses one. malloc, realloc and free of the library come here by the linker's --wrap.
   Of a block of rows the call of the library counts alone: what it fills is memory of rows.c. */
#include <stdbool.h>
#include <stdint.h>
#include <stdlib.h>

bool counting = true;       /* whether requests count */
unsigned long asked, refuse; /* how many there were; which one is refused, from 1; 0: none */
unsigned long most;         /* the bytes of the largest of them */
long held;                  /* blocks that were not given back */

void *__real_malloc(size_t size);
void *__real_realloc(void *block, size_t size);
void __real_free(void *block);
void *__wrap_malloc(size_t size);
void *__wrap_realloc(void *block, size_t size);
void __wrap_free(void *block);

void *__wrap_realloc(void *block, size_t size) {
    if (counting && size > most) most = size;
    if (counting && ++asked == refuse) return NULL;
    void *moved = __real_realloc(block, size);
    if (counting && moved && !block) held++;
    return moved;
}

void *__wrap_malloc(size_t size) { return __wrap_realloc(NULL, size); }

void __wrap_free(void *block) {
    if (counting && block) held--;
    __real_free(block);
}

static uint32_t answer_of_block;
#define ROWS_CALL(call) (counting = true, answer_of_block = (call), counting = false, answer_of_block)
#include "rows.c"
