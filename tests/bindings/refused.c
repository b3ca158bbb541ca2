/* Refuses each request for memory in turn, alone and with all behind it, at every call. Each then answers as without, or
 * says that it is out of memory, with its room as it was; and no block is held when it has ended. Linked with
 * -Wl,--wrap=malloc,--wrap=realloc,--wrap=free. Prints a line of counts; its status is 1 if anything is wrong. */
#include "noshinka.h"
#include <stdio.h>
#include <stdlib.h>
#include <string.h>

void *__real_malloc(size_t size);
void *__real_realloc(void *old, size_t size);
void __real_free(void *old);
void *__wrap_malloc(size_t size);
void *__wrap_realloc(void *old, size_t size);
void __wrap_free(void *old);

/* The request that is refused, from 1, none where it is 0; whether all behind it are too; how many there were; how many
 * blocks are held. */
static long refused, on, asked, held;

static int is_refused(void) {
    asked++;
    return refused && (on ? asked >= refused : asked == refused);
}

void *__wrap_malloc(size_t size) {
    void *made = is_refused() ? NULL : __real_malloc(size);
    if (made) held++;
    return made;
}

void *__wrap_realloc(void *old, size_t size) { return is_refused() ? NULL : __real_realloc(old, size); }

void __wrap_free(void *old) {
    if (old) held--;
    __real_free(old);
}

enum { SIZE = 1 << 16, CALLS = 26 };
static uint8_t room[SIZE], kept[SIZE], map[SIZE];
static size_t length;

static noshinka_bytes bytes(const char *text) {
    noshinka_bytes made = {(const uint8_t *)text, strlen(text)};
    return made;
}

static noshinka_outcome build(int which, uint8_t *to) {
    noshinka_grid grid = {1, 1, 0, 0};
    noshinka_source sources[3];
    sources[0].layer = sources[1].layer = bytes("a");
    sources[2].layer = bytes("b");
    sources[0].text = bytes("{\"type\":\"Feature\",\"id\":1,\"geometry\":{\"type\":\"Polygon\",\"coordinates\":[[[0,0],[1,0],[1,1],[0,1],[0,0]]]}}");
    sources[1].text = bytes(
        "{\"type\":\"Feature\",\"id\":7,\"properties\":{\"x\":[1,\"y\"]},\"geometry\":{\"type\":\"Polygon\",\"coordinates\":"
        "[[[1,0],[2,0],[2,1],[1,1],[1,0]]]}}");
    sources[2].text = bytes(which ? "{\"type\":\"LineString\",\"coordinates\":[[0,0],[1.5,0]]}" : "{\"type\":\"LineString\",\"coordinates\":[[0,0],[1,0],[1,1]]}");
    return noshinka_build(&grid, sources, 3, to, SIZE);
}

/* In steps of 0.000001 for degrees, or in steps of which each number is 0, so that a line collapses. */
static noshinka_outcome round_text(const char *step, uint32_t format, uint32_t snap) {
    noshinka_round_options options = NOSHINKA_ROUND_OPTIONS;
    noshinka_scale scale = {NOSHINKA_NO_BYTES, 1};
    noshinka_source sources[2];
    scale.property = bytes("y");
    options.step = options.unit = bytes(step);
    options.format = format;
    options.snap = snap;
    options.scales = &scale;
    options.report = options.scale_count = 1;
    sources[0].layer = bytes("a");
    sources[0].text = bytes("{\"type\":\"Feature\",\"properties\":{\"x\":1.50,\"y\":0.7},\"geometry\":{\"type\":\"LineString\",\"coordinates\":[[0.5,1e1],[7.4386325,46.9510827]]}}");
    sources[1].layer = bytes("");
    sources[1].text = bytes("{\"type\":\"Topology\",\"arcs\":[[[0.500001,10],[3,3],[9,1]]],\"objects\":{\"q\":{\"type\":\"LineString\",\"arcs\":[0]}}}");
    return noshinka_round(&options, sources, 2, room, SIZE);
}

static noshinka_outcome mesh(uint32_t edges) {
    noshinka_mesh_options options = NOSHINKA_MESH_OPTIONS;
    options.edges = edges;
    options.property = bytes("x");
    return noshinka_mesh(&options, map, length, room, SIZE);
}

static noshinka_outcome neighbors(uint32_t lists, uint32_t kind) {
    noshinka_neighbors_options options = NOSHINKA_NEIGHBORS_OPTIONS;
    options.lists = lists;
    options.kind = kind;
    options.property = bytes("x");
    return noshinka_neighbors(&options, map, length, (const uint8_t *)"a", 1, room, SIZE);
}

static noshinka_outcome diff(void) {
    noshinka_diff_options options = NOSHINKA_DIFF_OPTIONS;
    options.key = bytes("x");
    options.pairing = options.json = 1;
    return noshinka_diff(&options, map, length, map, length, room, SIZE);
}

static noshinka_outcome edit(void) {
    noshinka_change changes[2];
    changes[0].text.at = changes[1].text.at = map;
    changes[0].text.length = changes[1].text.length = length;
    changes[0].kind = NOSHINKA_TAKE;
    changes[1].kind = NOSHINKA_ADD;
    return noshinka_edit(map, length, changes, 2, room, SIZE);
}

/* With one property named, and one divided. */
static noshinka_outcome back(uint32_t transform, const char *like) {
    noshinka_back_options options = NOSHINKA_BACK_OPTIONS;
    noshinka_scale scale = {NOSHINKA_NO_BYTES, 1};
    noshinka_bytes name = bytes("x");
    scale.property = bytes("y");
    options.scales = &scale;
    options.properties = &name;
    options.scale_count = options.property_count = 1;
    options.numbers = NOSHINKA_NUMBERS_NAMED;
    options.transform = transform;
    options.like = bytes(like);
    return noshinka_back(&options, map, length, room, SIZE);
}

static noshinka_outcome quality(void) {
    noshinka_quality_options options = NOSHINKA_QUALITY_OPTIONS;
    options.ids = 1;
    options.near = 2;
    return noshinka_quality(&options, map, length, room, SIZE);
}

static noshinka_outcome list_faults(const char *text, uint32_t format) {
    noshinka_grid grid = {1, 1, 0, 0};
    return noshinka_faults((const uint8_t *)text, strlen(text), format, &grid, room, SIZE);
}

static noshinka_outcome call(int which) {
    noshinka_bytes texts[2] = {{map, length}, {map, length}};
    const uint8_t *name = (const uint8_t *)"a";
    switch (which) {
    case 0: return build(0, room);
    case 1: return noshinka_merge(texts, 2, room, SIZE);
    case 2: return noshinka_remove(map, length, map, length, room, SIZE);
    case 3: return noshinka_check(map, length, room, SIZE);
    case 4: return noshinka_feature(map, length, name, 1, room, SIZE);
    case 5: return mesh(NOSHINKA_INTERIOR);
    case 6: return neighbors(NOSHINKA_IDS, 0);
    case 7: return noshinka_info(map, length, 1, room, SIZE);
    case 8: return build(1, room);
    case 9: return round_text("", NOSHINKA_TOPOLOGY, 0);
    case 10: return round_text("1e12", NOSHINKA_GEOJSON, 0);
    case 11: return diff();
    case 12: return noshinka_check(map, length - 1, room, SIZE);
    case 13: return list_faults("{\"type\":\"Feature\",\"id\":\"a\",\"properties\":{\"x\":[0.5]},\"geometry\":{\"type\":\"Point\",\"coordinates\":[1.5]}}", 1);
    case 14: return list_faults("{\"type\":\"Topology\",\"arcs\":[[[0,0],[1,1]]],\"objects\":{\"a\":{\"type\":\"LineString\",\"arcs\":[0,7]}}}", 0);
    case 15: return round_text("", NOSHINKA_GEOJSON, 2);
    case 16: return mesh(NOSHINKA_BY_PROPERTY);
    case 17: return neighbors(NOSHINKA_PLACES, NOSHINKA_NEIGHBORS_BY);
    case 18: return neighbors(NOSHINKA_KEYED_IDS, 0);
    case 19: return edit();
    case 20: return noshinka_fault_name(13, room, SIZE);
    case 21: return back(NOSHINKA_TRANSFORM_OWN, "");
    case 22: return back(NOSHINKA_TRANSFORM_LIKE, "{\"type\":\"Topology\",\"transform\":{\"scale\":[0.5,0.25],\"translate\":[0,1e1]}}");
    case 23: return back(NOSHINKA_TRANSFORM_LIKE, "{\"type\":\"Topology\",\"transform\":{\"scale\":[0.5,0],\"translate\":[0,1e1]}}");
    case 24: return quality();
    default: return noshinka_merge(texts, 1, room, 3);
    }
}

static int is_same(noshinka_outcome one, noshinka_outcome other) {
    return one.status == other.status && one.fault == other.fault && one.place == other.place && one.length == other.length;
}

int main(void) {
    long runs = 0, wrong = 0, told = 0, most = 0, at;
    int which;
    length = build(0, map).length;
    for (which = 0; which < CALLS; which++) {
        refused = asked = 0;
        memset(room, 0x55, SIZE);
        noshinka_outcome right = call(which);
        long requests = asked;
        memcpy(kept, room, SIZE);
        if (held || right.status == NOSHINKA_MEMORY) wrong++;
        if (requests > most) most = requests;
        for (on = 0; on < 2; on++)
            for (at = 1; at <= requests; at++) {
                refused = at;
                asked = 0;
                memset(room, 0x55, 512);
                noshinka_outcome came = call(which);
                refused = 0;
                runs++;
                if (held) wrong++;
                held = 0;
                if (came.status == NOSHINKA_MEMORY) {
                    told++;
                    if (came.fault != 20 || room[0] != 0x55) wrong++;
                } else if (!is_same(came, right) || memcmp(room, kept, 512)) {
                    wrong++;
                }
            }
    }
    if (told < 100) wrong++;
    printf("refused: %d calls, %ld runs, %ld out of memory, %ld wrong\n", CALLS, runs, told, wrong);
    return wrong != 0;
}
