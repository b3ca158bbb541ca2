/* Makes a call of the library so many times, on files that are read first.
 *
 *     library build|merge|round|copy TIMES FILE...
 *
 * `copy` makes a copy of each file instead, and frees it. bench/library.py counts the instructions of two runs; what one
 * call takes is the difference. */
#include "noshinka.h"
#include <stdio.h>
#include <stdlib.h>
#include <string.h>

enum { MOST = 64 };
static noshinka_bytes texts[MOST];
static uint8_t *volatile kept;

static noshinka_bytes read_file(const char *name) {
    noshinka_bytes read = {NULL, 0};
    FILE *file = fopen(name, "rb");
    long size = file && !fseek(file, 0, SEEK_END) ? ftell(file) : -1;
    uint8_t *at = size < 0 ? NULL : (uint8_t *)malloc((size_t)size + 1);
    if (!at || fseek(file, 0, SEEK_SET) || fread(at, 1, (size_t)size, file) != (size_t)size) exit(3);
    fclose(file);
    read.at = at;
    read.length = (size_t)size;
    return read;
}

static noshinka_outcome copy(int count) {
    noshinka_outcome outcome = {NOSHINKA_DONE, 0, 0, 0};
    int n;
    for (n = 0; n < count; n++) {
        kept = (uint8_t *)malloc(texts[n].length);
        if (!kept) exit(5);
        memcpy(kept, texts[n].at, texts[n].length);
        free(kept);
    }
    return outcome;
}

int main(int words, char **word) {
    static const uint8_t layer[] = "a";
    noshinka_grid grid = {1, 1, 0, 0};
    int count = words - 3, n;
    long times = words > 3 ? atol(word[2]) : 0;
    size_t size = 4096;
    if (times < 1 || count > MOST) return 2;
    for (n = 0; n < count; n++) {
        texts[n] = read_file(word[3 + n]);
        size += 2 * texts[n].length;
    }
    uint8_t *room = (uint8_t *)calloc(size, 1);
    noshinka_source source = {{layer, 1}, texts[0]};
    noshinka_round_options options = NOSHINKA_ROUND_OPTIONS;
    options.format = NOSHINKA_GEOJSON;
    while (room && times--) {
        noshinka_outcome outcome;
        switch (word[1][0]) {
        case 'b': outcome = noshinka_build(&grid, &source, 1, room, size); break;
        case 'm': outcome = noshinka_merge(texts, (size_t)count, room, size); break;
        case 'r': outcome = noshinka_round(&options, &source, 1, room, size); break;
        default: outcome = copy(count);
        }
        if (outcome.status != NOSHINKA_DONE) return (int)outcome.status;
    }
    return room ? 0 : 5;
}
