/* What the programs ask of the kit's C beside the C library, for ARM64: the kit has it for x86-64 alone. Each function does what the
 * kit's os/src/c.rt says of it, on which the proofs of the programs rest. No proof covers this file; checks/os.c compares it with the
 * kit's own, row by row. A link that asks for more than these functions fails, and names what it lacks. */
#define _POSIX_C_SOURCE 200809L
#include <errno.h>
#include <fcntl.h>
#include <stddef.h>
#include <stdint.h>
#include <string.h>

static size_t count;
static char **arguments;

/* glibc hands what starts before `main` the arguments that `main` has. */
__attribute__((constructor)) static void keep(int given, char **texts) {
    count = given < 0 ? 0 : (size_t)given;
    arguments = texts;
}

/* The errno of the calling thread. */
int32_t rattle_errno(void) { return errno; }

void rattle_set_errno(int32_t error) { errno = error; }

/* How many arguments the program has, with its own name. */
size_t rattle_arg_count(void) { return count; }

/* Copies an argument to `at`, which has room for so many bytes: its length; -1 if there is no such argument, with nothing written; or -2 if
 * the argument is longer, with its first bytes in all of the room. */
intptr_t rattle_arg(size_t which, uint8_t *at, size_t room) {
    if (which >= count || arguments[which] == NULL) return -1;
    size_t len = strlen(arguments[which]);
    memcpy(at, arguments[which], len < room ? len : room);
    return len <= room ? (intptr_t)len : -2;
}

/* Opens for reading the directory that a name reaches from an open one: its descriptor, which exec closes; or -1 if there is none, also if the
 * name ends in a link with no "/" after it. The flags have other numbers than on x86-64. */
int32_t rattle_open_dir_at(int32_t directory, const uint8_t *name) {
    return openat(directory, (const char *)name, O_RDONLY | O_DIRECTORY | O_NOFOLLOW | O_CLOEXEC);
}
