/* A heap of a program's own, in the place of heap.c: a fixed stretch of memory, of which nothing is used again until all is given back. It
 * ends the program where the library asks for what heap.c says that it does not ask for. */
#include <stdint.h>
#include <stdlib.h>
#include <string.h>

struct given { uint64_t ok; void *at; };

static _Alignas(16) unsigned char memory[1 << 20];
static size_t used, blocks;

struct given rattle_alloc(size_t size, size_t least) {
    if (least == 0 || 16 % least != 0) abort();
    size_t at = (used + least - 1) / least * least;
    if (size > sizeof memory - at) return (struct given){ 0, memory };
    used = at + size, blocks++;
    return (struct given){ 1, memory + at };
}

struct given rattle_realloc(void *at, size_t old_size, size_t size, size_t least) {
    struct given made = rattle_alloc(size, least);
    if (made.ok) memcpy(made.at, at, old_size < size ? old_size : size), blocks--;
    return made;
}

void rattle_dealloc(void *at) {
    if ((unsigned char *)at < memory || (unsigned char *)at > memory + sizeof memory || blocks == 0) abort();
    if (--blocks == 0) used = 0;
}
