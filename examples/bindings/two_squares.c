/* Two squares that share an edge: built, merged with themselves, and asked for their neighbours.
 *
 *     cc two_squares.c -lnoshinka && ./a.out
 */
#include <noshinka.h>
#include <stdio.h>
#include <stdlib.h>
#include <string.h>

static noshinka_bytes bytes(const char *text) {
    noshinka_bytes made = {(const uint8_t *)text, strlen(text)};
    return made;
}

static int say(noshinka_outcome outcome, const uint8_t *room) {
    if (outcome.status == NOSHINKA_DONE) return printf("%.*s\n", (int)outcome.length, (const char *)room) < 0;
    fprintf(stderr, "status %u, fault %u\n", (unsigned)outcome.status, (unsigned)outcome.fault);
    return 1;
}

int main(void) {
    noshinka_grid grid = {1, 1, 0, 0};
    noshinka_neighbors_options lists = NOSHINKA_NEIGHBORS_OPTIONS;
    noshinka_source squares[2];
    squares[0].layer = squares[1].layer = bytes("a");
    squares[0].text = bytes("{\"type\":\"Polygon\",\"coordinates\":[[[0,0],[1,0],[1,1],[0,1],[0,0]]]}");
    squares[1].text = bytes("{\"type\":\"Polygon\",\"coordinates\":[[[1,0],[2,0],[2,1],[1,1],[1,0]]]}");
    enum { SIZE = 4096 };
    uint8_t *room = calloc(SIZE, 1), *other = calloc(SIZE, 1);
    if (!room || !other || noshinka_version() != NOSHINKA_VERSION) return 1;
    noshinka_outcome built = noshinka_build(&grid, squares, 2, room, SIZE);
    int failed = say(built, room);
    noshinka_bytes shards[2] = {{room, built.length}, {room, built.length}};
    failed |= say(noshinka_merge(shards, 2, other, SIZE), other);
    failed |= say(noshinka_neighbors(&lists, room, built.length, (const uint8_t *)"a", 1, other, SIZE), other);
    free(other);
    free(room);
    return failed;
}
