/* Times calls over files, or without a file the building of points, in processor time: the median of five runs after a
   first one, in MB/s. Each row has the call, the file, the speed and the answer, with tabs between.
   `--once CALL FILE..` makes one call over each file in the function `counted`, for run.sh and checks/instructions.sh. */
#include "driver.h"
#include <stdio.h>
#include <stdlib.h>
#include <string.h>
#include <time.h>

enum { RUNS = 5, POINTS = 200000 };

static double now(void) {
    struct timespec t;
    clock_gettime(CLOCK_PROCESS_CPUTIME_ID, &t);
    return (double)t.tv_sec + (double)t.tv_nsec / 1e9;
}

static int by_value(const void *a, const void *b) {
    double x = *(const double *)a, y = *(const double *)b;
    return (x > y) - (x < y);
}

static void show(const char *call, const char *file, double bytes, double seconds[RUNS], uint64_t answer) {
    qsort(seconds, RUNS, sizeof seconds[0], by_value);
    printf("%s\t%s\t%.1f\t%llu\n", call, file, bytes / 1e6 / seconds[RUNS / 2], (unsigned long long)answer);
    fflush(stdout);
}

/* The time of the test for UTF-8. */
static double utf8_seconds(const uint8_t *text, size_t len) {
    double start = now();
    is_utf8(text, len);
    return now() - start;
}

/* Each call tests first whether the text is UTF-8, and the time of that test is taken off: the least one beside these runs,
   so that what is left is never too little where the machine becomes faster or slower. The rate is that of the text, or of the
   bytes written if what is written was made before. */
static void run(const struct call *call, const char *file, const uint8_t *text, size_t len) {
    if (call->prepare) call->prepare(text, len);
    double seconds[RUNS], least = utf8_seconds(text, len);
    uint64_t answer = call->call(text, len);
    for (int i = 0; i < RUNS; i++) {
        double start = now();
        answer = call->call(text, len);
        seconds[i] = now() - start;
        double utf8 = utf8_seconds(text, len);
        if (utf8 < least) least = utf8;
    }
    for (int i = 0; i < RUNS; i++) seconds[i] -= least;
    show(call->name, file, call->prepare ? (double)answer : (double)len, seconds, answer);
}

/* The rate is that of the bytes written. */
static void run_build(uint64_t count) {
    double seconds[RUNS];
    uint64_t answer = build(count);
    for (int i = 0; i < RUNS; i++) {
        double start = now();
        answer = build(count);
        seconds[i] = now() - start;
    }
    show("build", "points", (double)answer, seconds, answer);
}

static uint8_t *read_file(const char *path, size_t *len) {
    FILE *f = fopen(path, "rb");
    if (!f || fseek(f, 0, SEEK_END)) { perror(path); exit(2); }
    long size = ftell(f);
    rewind(f);
    uint8_t *text = malloc(size > 0 ? (size_t)size : 1);
    if (!text || fread(text, 1, (size_t)size, f) != (size_t)size) { perror(path); exit(2); }
    fclose(f);
    *len = (size_t)size;
    return text;
}

/* Makes one call, in a function whose name a profiler can be told. */
__attribute__((noinline)) uint64_t counted(uint64_t (*call)(const uint8_t *, size_t), const uint8_t *text, size_t len) {
    return call(text, len);
}

static uint64_t utf8_alone(const uint8_t *text, size_t len) { return is_utf8(text, len); }

/* What is lent to a call grows in the first one, so that it is made twice and counted once. */
static int once(const char *name, char **paths) {
    const struct call utf8 = { "utf8", utf8_alone, NULL }, *call = strcmp(name, utf8.name) ? calls : &utf8;
    while (call->name && strcmp(call->name, name)) call++;
    if (!call->name) { fprintf(stderr, "%s: no such call\n", name); return 2; }
    for (; *paths; paths++) {
        size_t len;
        uint8_t *text = read_file(*paths, &len);
        if (call->prepare) call->prepare(text, len);
        call->call(text, len);
        counted(call->call, text, len);
        free(text);
    }
    return 0;
}

int main(int argc, char **argv) {
    if (argc > 3 && !strcmp(argv[1], "--once")) return once(argv[2], argv + 3);
    if (argc == 1 && build) run_build(POINTS);
    for (int i = 1; i < argc; i++) {
        size_t len;
        uint8_t *text = read_file(argv[i], &len);
        const char *slash = strrchr(argv[i], '/');
        const char *file = slash ? slash + 1 : argv[i];
        if (!is_utf8(text, len)) { fprintf(stderr, "%s: not UTF-8\n", argv[i]); return 2; }
        for (const struct call *call = calls; call->name; call++) run(call, file, text, len);
        free(text);
    }
    return 0;
}
