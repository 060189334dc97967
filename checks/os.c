#define _POSIX_C_SOURCE 200809L
/* Calls what the programs ask of the kit's C, and compares each answer with what the kit's os/src/c.rt says of it, a row each:
 *
 *     os "" one "two words" 0123456789
 *
 * It makes files in the folder that it runs in, and removes them. checks/arm64.sh builds this over the kit's own functions and over those of packaging/arm64/os.c. */
#include <errno.h>
#include <fcntl.h>
#include <limits.h>
#include <stdint.h>
#include <stdio.h>
#include <string.h>
#include <sys/stat.h>
#include <unistd.h>

int32_t rattle_errno(void);
void rattle_set_errno(int32_t error);
size_t rattle_arg_count(void);
intptr_t rattle_arg(size_t which, uint8_t *at, size_t room);
int32_t rattle_open_dir_at(int32_t directory, const uint8_t *name);

enum { MOST = 32, UNTOUCHED = 0xa5 };
static int failed, rows;

static void expect(int holds, const char *what, long which) {
    rows++;
    if (holds) return;
    printf("os: %s, at %ld\n", what, which);
    failed = 1;
}

/* An argument, copied to a room of each length: the answer, what the room holds, and what comes after it. */
static void copies(const char *wanted, size_t which) {
    for (size_t room = 0; room < MOST; room++) {
        uint8_t at[MOST];
        size_t len = strlen(wanted), least = len < room ? len : room, untouched = least;
        memset(at, UNTOUCHED, sizeof at);
        intptr_t answer = rattle_arg(which, at, room);
        while (untouched < MOST && at[untouched] == UNTOUCHED) untouched++;
        expect(answer == (len <= room ? (intptr_t)len : -2), "the answer for an argument is another", (long)room);
        expect(memcmp(at, wanted, least) == 0 && untouched == MOST, "another text is copied of an argument", (long)room);
    }
}

/* Where there is no argument, nothing is written. */
static void has_none(size_t which) {
    uint8_t at[1] = { UNTOUCHED };
    expect(rattle_arg(which, at, 1) == -1 && at[0] == UNTOUCHED, "an argument is there that is none", (long)which);
}

static void errors(void) {
    const int32_t some[] = { 0, 1, EINVAL, ENAMETOOLONG, INT_MAX, INT_MIN };
    for (size_t at = 0; at < sizeof some / sizeof *some; at++) {
        rattle_set_errno(some[at]);
        expect(errno == some[at], "errno is not what was set", some[at]);
        expect(rattle_errno() == some[at], "errno is not what is told", some[at]);
    }
    expect(close(-1) == -1 && rattle_errno() == EBADF, "errno is not that of the call that failed", EBADF);
}

/* A name opens, or fails with this error, from this folder. */
static void opens(const char *name, int error) {
    errno = 0;
    int fd = rattle_open_dir_at(AT_FDCWD, (const uint8_t *)name);
    expect(error ? fd == -1 && errno == error : fd > 2, name, error);
    if (fd == -1) return;
    expect((fcntl(fd, F_GETFD) & FD_CLOEXEC) != 0, "exec leaves a directory open", fd);
    expect((fcntl(fd, F_GETFL) & O_ACCMODE) == O_RDONLY, "a directory is open to write", fd);
    close(fd);
}

static void directories(void) {
    expect(mkdir("folder", 0700) == 0 && mkdir("folder/inner", 0700) == 0 && symlink("folder", "link") == 0, "the files are not made", errno);
    close(open("file", O_WRONLY | O_CREAT, 0600));
    opens("folder", 0), opens("folder/inner", 0), opens("link/inner", 0), opens("link/", 0), opens(".", 0), opens("/", 0);
    opens("file", ENOTDIR), opens("link", ENOTDIR), opens("none", ENOENT), opens("file/inner", ENOTDIR), opens("", ENOENT);
    int fd = rattle_open_dir_at(AT_FDCWD, (const uint8_t *)"folder"), inner = rattle_open_dir_at(fd, (const uint8_t *)"inner");
    expect(inner > fd && rattle_open_dir_at(inner, (const uint8_t *)"inner") == -1 && errno == ENOENT, "a name does not begin at its folder", fd);
    expect(rattle_open_dir_at(-1, (const uint8_t *)"folder") == -1 && errno == EBADF, "a name begins at no folder", fd);
    close(inner), close(fd), unlink("file"), unlink("link"), rmdir("folder/inner"), rmdir("folder");
}

int main(int count, char **arguments) {
    expect(rattle_arg_count() == (size_t)count, "the count of arguments is another", count);
    for (size_t which = 0; which < (size_t)count; which++) copies(arguments[which], which);
    has_none((size_t)count);
    has_none((size_t)count + 1);
    has_none((size_t)INT_MAX + 1);
    has_none(SIZE_MAX);
    errors();
    directories();
    if (!failed) printf("%d rows on arguments, errno and directories\n", rows);
    return failed;
}
