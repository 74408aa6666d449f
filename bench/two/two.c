/* Times two builds of the library in turns in one process and compares their bytes: see bench/two/run. */
#define _POSIX_C_SOURCE 199309L
#include <dlfcn.h>
#include <stdint.h>
#include <stdio.h>
#include <stdlib.h>
#include <string.h>
#include <time.h>

typedef uint64_t sheet_function(const uint8_t *, size_t, uint32_t *, size_t, uint8_t *, size_t, uint64_t *);
typedef uint64_t read_function(const uint8_t *, size_t, uint32_t *, size_t, uint64_t *);

static double now(void) {
    struct timespec t;
    clock_gettime(CLOCK_MONOTONIC, &t);
    return t.tv_sec * 1e6 + t.tv_nsec / 1e3;
}

static void *find(void *library, const char *name) {
    void *found = dlsym(library, name);
    if (!found) {
        fprintf(stderr, "%s\n", dlerror());
        exit(1);
    }
    return found;
}

int main(int count, char **words) {
    if (count < 5) {
        fprintf(stderr, "usage: two BEFORE.so AFTER.so ROUNDS REQUEST..\n");
        return 2;
    }
    void *libraries[2];
    for (int i = 0; i < 2; i++) {
        libraries[i] = dlopen(words[1 + i], RTLD_NOW | RTLD_LOCAL);
        if (!libraries[i]) {
            fprintf(stderr, "%s\n", dlerror());
            return 1;
        }
    }
    int rounds = atoi(words[3]);
    static uint32_t sines[901], entries[100000];
    static uint8_t sheets[2][65536];
    printf("%-28s %10s %10s %8s %10s %10s %8s\n", "request", "sheet, us", "now, us", "ratio", "read, us", "now, us",
           "ratio");
    for (int w = 4; w < count; w++) {
        uint8_t request[116];
        FILE *file = fopen(words[w], "rb");
        size_t length = file ? fread(request, 1, sizeof request, file) : 0;
        if (file)
            fclose(file);
        const char *name = length == 79 ? "ukhtvaresh_star" : "ukhtvaresh_sheet";
        double best[2] = {1e9, 1e9}, read[2] = {1e9, 1e9};
        uint64_t value[2] = {0, 0}, number[2] = {0, 0}, many;
        for (int r = 0; r < rounds; r++)
            for (int i = 0; i < 2; i++) {
                sheet_function *sheet = (sheet_function *)find(libraries[i], name);
                read_function *reader = (read_function *)find(libraries[i], "ukhtvaresh_read");
                double start = now();
                number[i] = sheet(request, length, sines, 901, sheets[i], sizeof sheets[i], &value[i]);
                double took = now() - start;
                best[i] = took < best[i] ? took : best[i];
                start = now();
                reader(sheets[i], number[i] ? 0 : value[i], entries, 100000, &many);
                took = now() - start;
                read[i] = took < read[i] ? took : read[i];
            }
        if (number[0] != number[1] || value[0] != value[1] || memcmp(sheets[0], sheets[1], sizeof sheets[0])) {
            printf("DIFFERENCE: %s\n", words[w]);
            return 1;
        }
        printf("%-28s %10.2f %10.2f %8.3f %10.3f %10.3f %8.3f\n", words[w], best[0], best[1], best[1] / best[0],
               read[0], read[1], read[1] / read[0]);
    }
    return 0;
}
