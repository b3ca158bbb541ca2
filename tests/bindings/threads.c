/* Several threads at once, which are lent the same texts, and each have a room of their own. Their answers are the same.
 *
 *     threads THREADS TIMES
 */
#include "noshinka.h"
#include <pthread.h>
#include <stdio.h>
#include <stdlib.h>
#include <string.h>

enum { SIZE = 1 << 16, SQUARES = 40, MOST = 16 };
static uint8_t map[SIZE], right[SIZE], web[SIZE];
static size_t length, right_length, web_length;
static noshinka_neighbors_options lists = NOSHINKA_NEIGHBORS_OPTIONS;
static noshinka_back_options thousand = NOSHINKA_BACK_OPTIONS;
static noshinka_quality_options tests = NOSHINKA_QUALITY_OPTIONS;
static const char good[] = "{\"canonical\":true,\"ids\":null,\"near\":null}";
static const char degrees[] = "{\"type\":\"Point\",\"coordinates\":[7.4386325,46.9510827]}",
    snapped[] = "{\"features\":[{\"geometry\":{\"coordinates\":[7438633,46951083],\"type\":\"Point\"},\"properties\":{},\"type\":\"Feature\"}],"
                "\"type\":\"FeatureCollection\"}";
static long times;

static noshinka_outcome build(uint8_t *room) {
    static char texts[SQUARES][128];
    noshinka_grid grid = {1, 1, 0, 0};
    noshinka_source sources[SQUARES];
    int n;
    for (n = 0; n < SQUARES; n++) {
        int x = n % 8, y = n / 8;
        snprintf(texts[n], sizeof texts[n], "{\"type\":\"Polygon\",\"coordinates\":[[[%d,%d],[%d,%d],[%d,%d],[%d,%d],[%d,%d]]]}", x, y, x + 1, y,
                 x + 1, y + 1, x, y + 1, x, y);
        sources[n].layer.at = (const uint8_t *)"a";
        sources[n].layer.length = 1;
        sources[n].text.at = (const uint8_t *)texts[n];
        sources[n].text.length = strlen(texts[n]);
    }
    return noshinka_build(&grid, sources, SQUARES, room, SIZE);
}

static void *run(void *nothing) {
    noshinka_bytes texts[2] = {{map, length}, {map, length}};
    noshinka_change changes[2] = {{{map, length}, NOSHINKA_TAKE}, {{map, length}, NOSHINKA_ADD}};
    noshinka_round_options options = NOSHINKA_ROUND_OPTIONS;
    noshinka_source source = {{(const uint8_t *)"a", 1}, {(const uint8_t *)degrees, strlen(degrees)}};
    uint8_t *room = (uint8_t *)calloc(SIZE, 1);
    long n, same = room != NULL;
    (void)nothing;
    options.format = NOSHINKA_GEOJSON;
    for (n = 0; same && n < times; n++) {
        noshinka_outcome merged = noshinka_merge(texts, 2, room, SIZE);
        same &= merged.status == NOSHINKA_DONE && merged.length == length && !memcmp(room, map, length);
        noshinka_outcome asked = noshinka_neighbors(&lists, map, length, (const uint8_t *)"a", 1, room, SIZE);
        same &= asked.status == NOSHINKA_DONE && asked.length == right_length && !memcmp(room, right, right_length);
        noshinka_outcome edited = noshinka_edit(map, length, changes, 2, room, SIZE);
        same &= edited.status == NOSHINKA_DONE && edited.length == length && !memcmp(room, map, length);
        noshinka_outcome rounded = noshinka_round(&options, &source, 1, room, SIZE);
        same &= rounded.status == NOSHINKA_DONE && rounded.length == strlen(snapped) && !memcmp(room, snapped, strlen(snapped));
        noshinka_outcome written = noshinka_back(&thousand, map, length, room, SIZE);
        same &= written.status == NOSHINKA_DONE && written.length == web_length && !memcmp(room, web, web_length);
        noshinka_outcome tested = noshinka_quality(&tests, map, length, room, SIZE);
        same &= tested.status == NOSHINKA_DONE && tested.length == strlen(good) && !memcmp(room, good, strlen(good));
    }
    free(room);
    return (void *)same;
}

int main(int count, char **words) {
    pthread_t threads[MOST];
    int n, of = count > 1 ? atoi(words[1]) : 2;
    long all = 1;
    times = count > 2 ? atol(words[2]) : 1;
    if (of > MOST) return 2;
    length = build(map).length;
    right_length = noshinka_neighbors(&lists, map, length, (const uint8_t *)"a", 1, right, SIZE).length;
    thousand.transform = NOSHINKA_TRANSFORM_COUNT;
    thousand.count = 1000;
    web_length = noshinka_back(&thousand, map, length, web, SIZE).length;
    for (n = 0; n < of; n++)
        if (pthread_create(&threads[n], NULL, run, NULL)) return 2;
    for (n = 0; n < of; n++) {
        void *same;
        pthread_join(threads[n], &same);
        all &= (long)same;
    }
    printf("threads: %d threads, %ld times, %s\n", of, times, all ? "0 wrong" : "WRONG");
    return !all;
}
