/* Each call of noshinka.h, in rooms of each size that tells: what it answers, what it refuses, and what it leaves alone.
 * All that is lent, and each room, is a block of memory of just its length, so that valgrind sees a byte read or written
 * behind it. Compiled as C99 and as C++11. Prints a line of counts; its status is 1 if anything is wrong. */
#include "noshinka.h"
#include <stdio.h>
#include <stdlib.h>
#include <string.h>

#define LEFT "{\"type\":\"Polygon\",\"coordinates\":[[[0,0],[1,0],[1,1],[0,1],[0,0]]]}"
#define RIGHT "{\"type\":\"Polygon\",\"coordinates\":[[[1,0],[2,0],[2,1],[1,1],[1,0]]]}"
#define OF_LEFT \
    "{\"arcs\":[[[0,0],[0,1],[1,0],[0,-1],[-1,0]]],\"bbox\":[0,0,1,1],\"objects\":{\"a\":{\"geometries\":[{\"arcs\":[[-1]]," \
    "\"type\":\"Polygon\"}],\"type\":\"GeometryCollection\"}},\"transform\":{\"scale\":[1,1],\"translate\":[0,0]}," \
    "\"type\":\"Topology\"}"
#define BOTH \
    "{\"arcs\":[[[1,0],[-1,0],[0,1],[1,0]],[[1,0],[0,1]],[[1,0],[1,0],[0,1],[-1,0]]],\"bbox\":[0,0,2,1]," \
    "\"objects\":{\"a\":{\"geometries\":[{\"arcs\":[[1,-1]],\"type\":\"Polygon\"},{\"arcs\":[[2,-2]],\"type\":\"Polygon\"}]," \
    "\"type\":\"GeometryCollection\"}},\"transform\":{\"scale\":[1,1],\"translate\":[0,0]},\"type\":\"Topology\"}"
#define HALF "{\"type\":\"Feature\",\"geometry\":{\"type\":\"LineString\",\"coordinates\":[[0,0],[0.5,1]]}}"
#define HALF_AT "$/geometry/coordinates/1/0"
#define DEGREES "{\"type\":\"Point\",\"coordinates\":[7.4386325,46.9510827,540.0]}"
#define OF_DEGREES \
    "{\"arcs\":[],\"bbox\":[7438633,46951083,7438633,46951083],\"objects\":{\"a\":{\"geometries\":[{\"coordinates\":[7438633,46951083]," \
    "\"type\":\"Point\"}],\"type\":\"GeometryCollection\"}},\"transform\":{\"scale\":[1,1],\"translate\":[0,0]},\"type\":\"Topology\"}"
/* 7.4386325 and 46.9510827 are half a step and three tenths of one from whole numbers of steps. */
#define REPORT_OF_DEGREES \
    "{\"maps\":[{\"layer\":null,\"text\":0}],\"outcomes\":[{\"features\":1,\"positions\":1,\"moved\":1,\"furthest\":5000,\"heights\":1," \
    "\"reals\":0,\"closed\":0,\"collapsed\":0,\"folded\":0,\"collections\":0,\"lost\":0,\"fixed\":[]}],\"equal\":[[]],\"joined\":0," \
    "\"too_wide\":0,\"first_too_wide\":null,\"shared\":0,\"nearly_shared\":0,\"first_nearly_shared\":null}\n"
#define NAMED(id, geometry) "{\"type\":\"Feature\",\"id\":" id ",\"properties\":{\"p\":" id "},\"geometry\":" geometry "}"
#define FAULTY \
    "{\"type\":\"Feature\",\"id\":7,\"properties\":{\"a\":1.5},\n" \
    "\"geometry\":{\"type\":\"LineString\",\"coordinates\":[[0],[1,2.5]]}}"
#define METRES "{\"type\":\"Point\",\"coordinates\":[604550,199784]}"
/* The text of a feature with a geometry. */
#define SNAPPED(geometry) "{\"features\":[{\"geometry\":" geometry ",\"properties\":{},\"type\":\"Feature\"}],\"type\":\"FeatureCollection\"}"
#define IN_ONES SNAPPED("{\"coordinates\":[604550,199784],\"type\":\"Point\"}")
#define IN_FOURS SNAPPED("{\"coordinates\":[604552,199784],\"type\":\"Point\"}")
#define COLLAPSED SNAPPED("null")
/* OF_LEFT in units, its ring clockwise as its arc is, on a transform, with a bounding box and an arc. */
#define LEFT_BACK(transform, bbox, arc) \
    "{\"type\":\"Topology\",\"transform\":{\"scale\":" transform ",\"translate\":[0,0]},\"bbox\":" bbox ",\"objects\":{\"a\":{\"type\":" \
    "\"GeometryCollection\",\"geometries\":[{\"type\":\"Polygon\",\"arcs\":[[0]]}]}},\"arcs\":[" arc "]}"
/* Half an absolute 1 is a step of it. */
#define HALVES "{\"transform\":{\"translate\":[0,0],\"scale\":[0.5,0.5]},\"type\":\"Topology\"}"
#define COUNTED "{\"type\":\"Feature\",\"properties\":{\"p\":\"1.5\",\"q\":13},\"geometry\":{\"type\":\"Point\",\"coordinates\":[3,4]}}"
#define NOTHING "{\"features\":[],\"type\":\"FeatureCollection\"}"

static long looked, wrong;

static void look(int holds, const char *what, int line) {
    looked++;
    if (holds) return;
    wrong++;
    printf("line %d: %s\n", line, what);
}

#define LOOK(holds) look(holds, #holds, __LINE__)

/* A block of just these bytes. It is never freed before the end, where valgrind would tell of it. */
static uint8_t *blocks[256];
static size_t count;

static uint8_t *block(size_t size) {
    uint8_t *made = (uint8_t *)malloc(size ? size : 1);
    if (!made || count == 256) exit(2);
    memset(made, 0x55, size ? size : 1);
    blocks[count++] = made;
    return made;
}

static noshinka_bytes bytes(const char *text) {
    noshinka_bytes made;
    made.length = strlen(text);
    uint8_t *at = block(made.length);
    memcpy(at, text, made.length);
    made.at = at;
    return made;
}

static noshinka_source source(const char *layer, const char *text) {
    noshinka_source made;
    made.layer = bytes(layer);
    made.text = bytes(text);
    return made;
}

static void release(void) {
    while (count) free(blocks[--count]);
}

static int is_untouched(const uint8_t *room, size_t size) {
    size_t at;
    for (at = 0; at < size; at++)
        if (room[at] != 0x55) return 0;
    return 1;
}

static int is(noshinka_outcome outcome, uint32_t status, uint32_t fault, size_t place, size_t length) {
    return outcome.status == status && outcome.fault == fault && outcome.place == place && outcome.length == length;
}

/* The calls that answer with a text, so that each is tried in the same rooms. */
enum { BUILD, MERGE, REMOVE, FEATURE, MESH, MESH_OF_LAYER, MESH_BY, NEIGHBORS, NEIGHBORS_BY, NEIGHBOR_IDS, KEYED, ROUND, ROUND_BUILD, REPORT, EDIT, BACK, BACK_LIKE, BACK_COUNT, BACK_NUMBERS, QUALITY, QUALITY_UNASKED, DIFF, FAULTS, FAULT_NAME, INFO, CALLS };

static const char *answers[CALLS] = {
    BOTH,
    BOTH,
    OF_LEFT,
    "{\"features\":[{\"geometry\":{\"coordinates\":[[[0,0],[1,0],[1,1],[0,1],[0,0]]],\"type\":\"Polygon\"},\"properties\":{}"
    ",\"type\":\"Feature\"}],\"type\":\"FeatureCollection\"}",
    "{\"coordinates\":[[[1,0],[1,1]]],\"type\":\"MultiLineString\"}",
    "{\"coordinates\":[[[0,0],[0,1],[1,1],[2,1],[2,0],[1,0],[0,0]]],\"type\":\"MultiLineString\"}",
    "{\"coordinates\":[[[1,0],[1,1]]],\"type\":\"MultiLineString\"}",
    "[[1],[0]]",
    "[[1],[0]]",
    "[[\"e\"],[7]]",
    "{\"7\":[\"e\"],\"e\":[7]}",
    SNAPPED("{\"coordinates\":[7438633,46951083],\"type\":\"Point\"}"),
    OF_DEGREES,
    REPORT_OF_DEGREES OF_DEGREES,
    OF_LEFT,
    LEFT_BACK("[0.000001,0.000001]", "[0,0,0.000001,0.000001]", "[[0,0],[0,1],[1,0],[0,-1],[-1,0]]"),
    LEFT_BACK("[0.5,0.5]", "[0,0,1,1]", "[[0,0],[0,2],[2,0],[0,-2],[-2,0]]"),
    LEFT_BACK("[0.5,0.5]", "[0,0,1,1]", "[[0,0],[0,2],[2,0],[0,-2],[-2,0]]"),
    "{\"type\":\"Topology\",\"transform\":{\"scale\":[0.000001,0.000001],\"translate\":[0,0]},\"bbox\":[0.000003,0.000004,0.000003,0.000004],"
    "\"objects\":{\"a\":{\"type\":\"GeometryCollection\",\"geometries\":[{\"properties\":{\"p\":1.5,\"q\":0.13},\"type\":\"Point\","
    "\"coordinates\":[3,4]}]}},\"arcs\":[]}",
    "{\"canonical\":true,\"ids\":[{\"layer\":\"a\",\"missing\":[0],\"repeated\":[1,2]},{\"layer\":\"b\",\"missing\":[],\"repeated\":[]}],"
    "\"near\":{\"count\":3,\"pairs\":[[[10,10],[20,10]],[[20,10],[30,20]]]}}",
    "{\"canonical\":false,\"ids\":null,\"near\":null}",
    "+ \"a\" null {}\n1 added, 0 removed, 0 changed\n",
    "[{\"column\":48,\"id\":7,\"line\":2,\"name\":\"NotTwo\",\"number\":16,\"path\":\"$/geometry/coordinates/0\"},\n"
    "{\"column\":55,\"id\":7,\"line\":2,\"name\":\"NotWhole\",\"number\":5,\"path\":\"$/geometry/coordinates/1/1\"},\n"
    "{\"column\":39,\"id\":7,\"line\":1,\"member\":\"a\",\"name\":\"PropertyNumber\",\"number\":13,\"path\":\"$/properties\"}]",
    "PropertyNumber",
    "grid: 1,1,0,0\nbbox: 0,0,1,1\narcs: 1\npositions of arcs: 5\nfree loops: 1\nlayer \"a\": 1 feature, 1 Polygon\n",
};

/* The topology of two features in a layer. */
static noshinka_bytes built(const char *one, const char *other) {
    noshinka_grid grid = {1, 1, 0, 0};
    noshinka_source sources[2];
    noshinka_bytes made;
    uint8_t *room = block(4096);
    sources[0] = source("a", one);
    sources[1] = source("a", other);
    made.at = room;
    made.length = noshinka_build(&grid, sources, 2, room, 4096).length;
    return made;
}

/* That of two squares with ids, which are values of a property too. */
static noshinka_bytes with_ids(void) { return built(NAMED("7", LEFT), NAMED("\"e\"", RIGHT)); }

static noshinka_outcome mesh(noshinka_bytes text, uint32_t scope, const char *layer, uint32_t edges, const char *property, uint8_t *room, size_t size) {
    noshinka_mesh_options options = NOSHINKA_MESH_OPTIONS;
    options.scope = scope;
    options.layer = bytes(layer);
    options.edges = edges;
    options.property = bytes(property);
    return noshinka_mesh(&options, text.at, text.length, room, size);
}

static noshinka_outcome neighbors(noshinka_bytes text, const char *layer, uint32_t lists, uint32_t kind, const char *property, uint8_t *room, size_t size) {
    noshinka_neighbors_options options = NOSHINKA_NEIGHBORS_OPTIONS;
    noshinka_bytes name = bytes(layer);
    options.lists = lists;
    options.kind = kind;
    options.property = bytes(property);
    return noshinka_neighbors(&options, text.at, text.length, name.at, name.length, room, size);
}

static noshinka_outcome diff(noshinka_bytes one, noshinka_bytes other, uint32_t scope, const char *layer, uint32_t pairing, uint32_t json, uint8_t *room, size_t size) {
    noshinka_diff_options options = NOSHINKA_DIFF_OPTIONS;
    options.scope = scope;
    options.layer = bytes(layer);
    options.pairing = pairing;
    options.json = json;
    return noshinka_diff(&options, one.at, one.length, other.at, other.length, room, size);
}

static noshinka_outcome edit(noshinka_bytes text, noshinka_bytes one, uint32_t kind, noshinka_bytes other, uint8_t *room, size_t size) {
    noshinka_change changes[2];
    changes[0].text = one;
    changes[0].kind = NOSHINKA_ADD;
    changes[1].text = other;
    changes[1].kind = kind;
    return noshinka_edit(text.at, text.length, changes, 2, room, size);
}

static noshinka_outcome round_one(const char *text, const char *step, uint32_t format, uint32_t report, uint8_t *room, size_t size) {
    noshinka_round_options options = NOSHINKA_ROUND_OPTIONS;
    noshinka_source one = source("a", text);
    options.step = bytes(step);
    options.format = format;
    options.report = report;
    return noshinka_round(&options, &one, 1, room, size);
}

/* On the unit 1: on its own transform, on that of a text, or of so many numbers. */
static noshinka_outcome back(noshinka_bytes text, const char *unit, uint32_t transform, const char *like, uint64_t number, uint8_t *room, size_t size) {
    noshinka_back_options options = NOSHINKA_BACK_OPTIONS;
    options.unit = bytes(unit);
    options.transform = transform;
    options.like = bytes(like);
    options.count = number;
    return noshinka_back(&options, text.at, text.length, room, size);
}

/* With a text that becomes a number, and a whole number that is divided by so many tens. */
static noshinka_outcome numbers_back(const char *property, uint32_t numbers, uint32_t zeros, uint8_t *room, size_t size) {
    noshinka_grid grid = {1, 1, 0, 0};
    noshinka_back_options options = NOSHINKA_BACK_OPTIONS;
    noshinka_scale scale = {NOSHINKA_NO_BYTES, 0};
    noshinka_source one = source("a", COUNTED);
    noshinka_bytes name = bytes(property);
    uint8_t *text = block(4096);
    size_t length = noshinka_build(&grid, &one, 1, text, 4096).length;
    scale.property = bytes("q");
    scale.zeros = zeros;
    options.scales = &scale;
    options.properties = &name;
    options.scale_count = options.property_count = 1;
    options.numbers = numbers;
    return noshinka_back(&options, text, length, room, size);
}

/* Of points on a grid of tens, two of which have one id, and one has none. */
static noshinka_outcome quality(uint32_t ids, uint32_t near, uint32_t listed, uint8_t *room, size_t size) {
    noshinka_grid grid = {10, 10, 0, 0};
    noshinka_quality_options options = NOSHINKA_QUALITY_OPTIONS;
    noshinka_source sources[4];
    uint8_t *text = block(4096);
    size_t length;
    sources[0] = source("a", NAMED("7", "{\"type\":\"Point\",\"coordinates\":[10,10]}"));
    sources[1] = source("a", NAMED("7", "{\"type\":\"Point\",\"coordinates\":[90,10]}"));
    sources[2] = source("a", "{\"type\":\"Point\",\"coordinates\":[20,10]}");
    sources[3] = source("b", NAMED("7", "{\"type\":\"MultiPoint\",\"coordinates\":[[30,20],[80,0]]}"));
    length = noshinka_build(&grid, sources, 4, text, 4096).length;
    options.ids = ids;
    options.near = near;
    options.listed = listed;
    return noshinka_quality(&options, text, length, room, size);
}

static noshinka_outcome call(int which, uint8_t *room, size_t size) {
    noshinka_grid grid = {1, 1, 0, 0};
    noshinka_source sources[2];
    noshinka_quality_options unasked = NOSHINKA_QUALITY_OPTIONS;
    noshinka_bytes texts[3], of_left = bytes(OF_LEFT), both = bytes(BOTH), name = bytes("a"), faulty;
    noshinka_outcome right;
    switch (which) {
    case BUILD:
        sources[0] = source("a", LEFT);
        sources[1] = source("a", RIGHT);
        return noshinka_build(&grid, sources, 2, room, size);
    case MERGE:
        sources[0] = source("a", RIGHT);
        texts[1] = of_left;
        texts[0].at = block(4096);
        right = noshinka_build(&grid, sources, 1, (uint8_t *)texts[0].at, 4096);
        texts[0].length = right.length;
        texts[2] = texts[0];
        return noshinka_merge(texts, 3, room, size);
    case REMOVE:
        sources[0] = source("a", RIGHT);
        texts[0].at = block(4096);
        right = noshinka_build(&grid, sources, 1, (uint8_t *)texts[0].at, 4096);
        return noshinka_remove(both.at, both.length, texts[0].at, right.length, room, size);
    case FEATURE:
        return noshinka_feature(of_left.at, of_left.length, name.at, name.length, room, size);
    case MESH:
        return mesh(both, NOSHINKA_ALL_LAYERS, "", NOSHINKA_INTERIOR, "", room, size);
    case MESH_OF_LAYER:
        return mesh(both, NOSHINKA_ONE_LAYER, "a", NOSHINKA_EXTERIOR, "", room, size);
    case MESH_BY:
        return mesh(with_ids(), NOSHINKA_ALL_LAYERS, "", NOSHINKA_BY_PROPERTY, "p", room, size);
    case NEIGHBORS:
        return neighbors(both, "a", NOSHINKA_PLACES, NOSHINKA_ALL_NEIGHBORS, "", room, size);
    case NEIGHBORS_BY:
        return neighbors(with_ids(), "a", NOSHINKA_PLACES, NOSHINKA_NEIGHBORS_BY, "p", room, size);
    case NEIGHBOR_IDS:
        return neighbors(with_ids(), "a", NOSHINKA_IDS, NOSHINKA_ALL_NEIGHBORS, "", room, size);
    case KEYED:
        return neighbors(with_ids(), "a", NOSHINKA_KEYED_IDS, NOSHINKA_ALL_NEIGHBORS, "", room, size);
    case ROUND:
        return round_one(DEGREES, "", NOSHINKA_GEOJSON, 0, room, size);
    case ROUND_BUILD:
        return round_one(DEGREES, "", NOSHINKA_TOPOLOGY, 0, room, size);
    case REPORT:
        return round_one(DEGREES, "", NOSHINKA_TOPOLOGY, 1, room, size);
    case EDIT:
        sources[0] = source("a", RIGHT);
        texts[0].at = block(4096);
        texts[0].length = noshinka_build(&grid, sources, 1, (uint8_t *)texts[0].at, 4096).length;
        return edit(texts[0], of_left, NOSHINKA_TAKE, texts[0], room, size);
    case BACK:
        return back(of_left, "", NOSHINKA_TRANSFORM_OWN, "", 0, room, size);
    case BACK_LIKE:
        return back(bytes("\xef\xbb\xbf" OF_LEFT), "1", NOSHINKA_TRANSFORM_LIKE, "\xef\xbb\xbf" HALVES, 0, room, size);
    case BACK_COUNT:
        return back(of_left, "1", NOSHINKA_TRANSFORM_COUNT, "", 3, room, size);
    case BACK_NUMBERS:
        return numbers_back("p", NOSHINKA_NUMBERS_NAMED, 2, room, size);
    case QUALITY:
        return quality(1, 1, 2, room, size);
    case QUALITY_UNASKED:
        faulty = bytes(BOTH "\n");
        return noshinka_quality(&unasked, faulty.at, faulty.length, room, size);
    case FAULTS:
        faulty = bytes(FAULTY);
        return noshinka_faults(faulty.at, faulty.length, NOSHINKA_GEOJSON, &grid, room, size);
    case FAULT_NAME:
        return noshinka_fault_name(13, room, size);
    case DIFF:
        return diff(of_left, both, NOSHINKA_ALL_LAYERS, "", NOSHINKA_BY_ID, 0, room, size);
    default:
        return noshinka_info(of_left.at, of_left.length, 0, room, size);
    }
}

static void look_at_rooms(int which) {
    const char *answer = answers[which];
    size_t length = strlen(answer), sizes[5], at;
    sizes[0] = 0;
    sizes[1] = 1;
    sizes[2] = length - 1;
    sizes[3] = length;
    sizes[4] = length + 9;
    for (at = 0; at < 5; at++) {
        uint8_t *room = block(sizes[at]);
        noshinka_outcome outcome = call(which, room, sizes[at]);
        if (sizes[at] < length) {
            LOOK(is(outcome, NOSHINKA_ROOM, 21, 0, length));
            LOOK(is_untouched(room, sizes[at]));
        } else {
            LOOK(is(outcome, NOSHINKA_DONE, 0, 0, length));
            LOOK(memcmp(room, answer, length) == 0);
            LOOK(is_untouched(room + length, sizes[at] - length));
        }
        release();
    }
}

static void look_at_faults(void) {
    noshinka_grid grid = {1, 1, 0, 0}, none = {0, 1, 0, 0}, tens = {10, 10, 0, 0};
    noshinka_source sources[2];
    noshinka_bytes texts[2], both = bytes(BOTH), other = bytes("q"), bad = bytes("\xff"), half = bytes("{}");
    size_t path = strlen(HALF_AT);
    uint8_t *room = block(4096), *small = block(path - 1), *right = block(path);
    sources[0] = source("a", LEFT);
    sources[1] = source("b", HALF);
    LOOK(is(noshinka_build(&grid, sources, 2, small, path - 1), NOSHINKA_REFUSED, 5, 1, path));
    LOOK(is_untouched(small, path - 1));
    LOOK(is(noshinka_build(&grid, sources, 2, right, path), NOSHINKA_REFUSED, 5, 1, path));
    LOOK(memcmp(right, HALF_AT, path) == 0);
    LOOK(is(noshinka_build(&none, sources, 1, room, 4096), NOSHINKA_USAGE, 0, 0, 0));
    sources[1].layer = bad;
    LOOK(is(noshinka_build(&grid, sources, 2, room, 4096), NOSHINKA_USAGE, 0, 1, 0));
    LOOK(is(noshinka_merge(texts, 0, room, 4096), NOSHINKA_REFUSED, 18, 0, 0));
    sources[0] = source("a", "{\"type\":\"Point\",\"coordinates\":[10,10]}");
    texts[0] = both;
    texts[1].at = block(4096);
    texts[1].length = noshinka_build(&tens, sources, 1, (uint8_t *)texts[1].at, 4096).length;
    LOOK(is(noshinka_merge(texts, 2, room, 4096), NOSHINKA_REFUSED, 17, 1, 0));
    LOOK(is(noshinka_remove(both.at, both.length, texts[1].at, texts[1].length, room, 4096), NOSHINKA_REFUSED, 17, 1, 0));
    LOOK(is(noshinka_remove(both.at, both.length, half.at, half.length, room, 4096), NOSHINKA_REFUSED, 2, 1, 6));
    LOOK(memcmp(room, "$/type", 6) == 0);
    LOOK(is(noshinka_check(half.at, half.length, room, 4096), NOSHINKA_REFUSED, 2, 0, 6));
    LOOK(is(noshinka_feature(both.at, both.length, other.at, other.length, room, 4096), NOSHINKA_REFUSED, 19, 0, 0));
    LOOK(is(neighbors(both, "q", NOSHINKA_PLACES, 0, "", room, 4096), NOSHINKA_REFUSED, 19, 0, 0));
    LOOK(is(mesh(both, NOSHINKA_ONE_LAYER, "q", 0, "", room, 4096), NOSHINKA_REFUSED, 19, 0, 0));
    LOOK(is(noshinka_feature(both.at, both.length, bad.at, bad.length, room, 4096), NOSHINKA_USAGE, 0, 0, 0));
    LOOK(is(mesh(both, 2, "a", 0, "", room, 4096), NOSHINKA_USAGE, 0, 0, 0));
    LOOK(is(mesh(both, 0, "", 4, "", room, 4096), NOSHINKA_USAGE, 0, 0, 0));
    LOOK(is(mesh(both, 0, "", NOSHINKA_BY_PROPERTY, "\xff", room, 4096), NOSHINKA_USAGE, 0, 0, 0));
    LOOK(is(neighbors(both, "a", NOSHINKA_IDS, 0, "", room, 4096), NOSHINKA_USAGE, 0, 0, 0));
    LOOK(is(neighbors(both, "a", NOSHINKA_KEYED_IDS, 0, "", room, 4096), NOSHINKA_USAGE, 0, 0, 0));
    LOOK(is(neighbors(built(NAMED("7", LEFT), NAMED("7", RIGHT)), "a", NOSHINKA_KEYED_IDS, 0, "", room, 4096), NOSHINKA_USAGE, 0, 0, 0));
    LOOK(is(neighbors(built(NAMED("7", LEFT), NAMED("\"7\"", RIGHT)), "a", NOSHINKA_KEYED_IDS, 0, "", room, 4096), NOSHINKA_USAGE, 0, 0, 0));
    LOOK(is(neighbors(built(NAMED("7", LEFT), NAMED("7", RIGHT)), "a", NOSHINKA_IDS, 0, "", room, 4096), NOSHINKA_DONE, 0, 0, 9));
    LOOK(memcmp(room, "[[7],[7]]", 9) == 0);
    LOOK(is(neighbors(both, "a", 3, 0, "", room, 4096), NOSHINKA_USAGE, 0, 0, 0));
    LOOK(is(neighbors(both, "a", 0, 2, "", room, 4096), NOSHINKA_USAGE, 0, 0, 0));
    LOOK(is(neighbors(both, "a", 0, NOSHINKA_NEIGHBORS_BY, "\xff", room, 4096), NOSHINKA_USAGE, 0, 0, 0));
    LOOK(is(noshinka_info(both.at, both.length, 2, room, 4096), NOSHINKA_USAGE, 0, 0, 0));
    LOOK(is(noshinka_faults(both.at, both.length, NOSHINKA_TOPOLOGY, &none, room, 4096), NOSHINKA_DONE, 0, 0, 2));
    LOOK(memcmp(room, "[]", 2) == 0);
    LOOK(is(noshinka_faults(both.at, both.length, NOSHINKA_GEOJSON, &none, room, 4096), NOSHINKA_USAGE, 0, 0, 0));
    LOOK(is(noshinka_faults(both.at, both.length, 2, &none, room, 4096), NOSHINKA_USAGE, 0, 0, 0));
    LOOK(is(diff(both, texts[1], 0, "", 0, 0, room, 4096), NOSHINKA_REFUSED, 17, 1, 0));
    LOOK(is(diff(both, half, 0, "", 0, 0, room, 4096), NOSHINKA_REFUSED, 2, 1, 6));
    LOOK(is(diff(both, both, 1, "q", 0, 0, room, 4096), NOSHINKA_REFUSED, 19, 0, 0));
    LOOK(is(diff(both, both, 1, "\xff", 0, 0, room, 4096), NOSHINKA_USAGE, 0, 0, 0));
    LOOK(is(diff(both, both, 0, "", 2, 0, room, 4096), NOSHINKA_USAGE, 0, 0, 0));
    LOOK(is(diff(both, both, 0, "", 0, 2, room, 4096), NOSHINKA_USAGE, 0, 0, 0));
    LOOK(is(edit(both, both, NOSHINKA_TAKE, texts[1], room, 4096), NOSHINKA_REFUSED, 17, 2, 0));
    LOOK(is(edit(both, half, NOSHINKA_TAKE, both, room, 4096), NOSHINKA_REFUSED, 2, 1, 6));
    LOOK(memcmp(room, "$/type", 6) == 0);
    LOOK(is(edit(half, both, NOSHINKA_TAKE, both, room, 4096), NOSHINKA_REFUSED, 2, 0, 6));
    LOOK(is(edit(both, both, 2, both, room, 4096), NOSHINKA_USAGE, 0, 0, 0));
    LOOK(is(noshinka_fault_name(0, room, 4096), NOSHINKA_USAGE, 0, 0, 0));
    LOOK(is(noshinka_fault_name(22, room, 4096), NOSHINKA_USAGE, 0, 0, 0));
    LOOK(is(noshinka_fault_name(21, room, 4096), NOSHINKA_DONE, 0, 0, 5));
    LOOK(memcmp(room, "Write", 5) == 0);
    release();
}

/* 604550 lies halfway between multiples of 4, so it goes away from 0 in such steps; 604550 degrees are too many. */
static void look_at_steps(void) {
    const char *folded = "{\"type\":\"LineString\",\"coordinates\":[[0,0],[0.4,0.4]]}";
    const char *open = "{\"type\":\"Polygon\",\"coordinates\":[[[0,0],[4,4]]]}";
    noshinka_round_options options = NOSHINKA_ROUND_OPTIONS;
    noshinka_source one = source("a", METRES);
    noshinka_scale scale = {NOSHINKA_NO_BYTES, 13};
    uint8_t *room = block(256);
    options.unit = bytes("1");
    options.step = bytes("1");
    options.format = NOSHINKA_GEOJSON;
    LOOK(is(noshinka_round(&options, &one, 1, room, 256), NOSHINKA_DONE, 0, 0, strlen(IN_ONES)));
    LOOK(memcmp(room, IN_ONES, strlen(IN_ONES)) == 0);
    options.step = bytes("4.0");
    LOOK(is(noshinka_round(&options, &one, 1, room, 256), NOSHINKA_DONE, 0, 0, strlen(IN_FOURS)));
    LOOK(memcmp(room, IN_FOURS, strlen(IN_FOURS)) == 0);
    LOOK(is(noshinka_round(&options, &one, 0, room, 256), NOSHINKA_DONE, 0, 0, strlen(NOTHING)));
    LOOK(memcmp(room, NOTHING, strlen(NOTHING)) == 0);
    options.step = bytes("0.5");
    LOOK(is(noshinka_round(&options, &one, 1, room, 256), NOSHINKA_USAGE, 0, 0, 0));
    options.step = bytes("1");
    one.text = bytes(folded);
    LOOK(is(noshinka_round(&options, &one, 1, room, 256), NOSHINKA_DONE, 0, 0, strlen(COLLAPSED)));
    LOOK(memcmp(room, COLLAPSED, strlen(COLLAPSED)) == 0);
    options.collapsed = NOSHINKA_COLLAPSED_REFUSE;
    LOOK(is(noshinka_round(&options, &one, 1, room, 256), NOSHINKA_REFUSED, 8, 0, 13));
    one.text = bytes(open);
    options.unclosed = NOSHINKA_FIX_NOT;
    LOOK(is(noshinka_round(&options, &one, 1, room, 256), NOSHINKA_REFUSED, 9, 0, 15));
    LOOK(memcmp(room, "$/coordinates/0", 15) == 0);
    one.layer = bytes("\xff");
    LOOK(is(noshinka_round(&options, &one, 1, room, 256), NOSHINKA_USAGE, 0, 0, 0));
    options.scales = &scale;
    options.scale_count = 1;
    LOOK(is(noshinka_round(&options, &one, 0, room, 256), NOSHINKA_USAGE, 0, 0, 0));
    options.scale_count = 0;
    options.snap = 11;
    LOOK(is(noshinka_round(&options, &one, 0, room, 256), NOSHINKA_USAGE, 0, 0, 0));
    options.snap = 0;
    options.size = 8;
    LOOK(is(noshinka_round(&options, &one, 0, room, 256), NOSHINKA_USAGE, 0, 0, 0));
    LOOK(is(round_one(METRES, "", 0, 0, room, 256), NOSHINKA_REFUSED, 6, 0, 15));
    LOOK(memcmp(room, "$/coordinates/0", 15) == 0);
    LOOK(is(round_one("{", "1", 0, 0, room, 256), NOSHINKA_REFUSED, 1, 0, 1));
    LOOK(is(round_one(METRES, "0", 0, 0, room, 256), NOSHINKA_USAGE, 0, 0, 0));
    LOOK(is(round_one(METRES, "-1", 0, 0, room, 256), NOSHINKA_USAGE, 0, 0, 0));
    LOOK(is(round_one(METRES, "1m", 0, 0, room, 256), NOSHINKA_USAGE, 0, 0, 0));
    release();
}

static void look_at_back(void) {
    noshinka_bytes both = bytes(BOTH), none = bytes("{}");
    noshinka_back_options options = NOSHINKA_BACK_OPTIONS;
    uint8_t *room = block(4096);
    LOOK(is(back(none, "", NOSHINKA_TRANSFORM_OWN, "", 0, room, 4096), NOSHINKA_REFUSED, 2, 0, 6));
    LOOK(memcmp(room, "$/type", 6) == 0);
    LOOK(is(back(none, "", NOSHINKA_TRANSFORM_COUNT, "", 2, room, 4096), NOSHINKA_REFUSED, 2, 0, 6));
    LOOK(is(back(none, "", NOSHINKA_TRANSFORM_LIKE, HALVES, 0, room, 4096), NOSHINKA_REFUSED, 2, 0, 6));
    LOOK(is(back(both, "", NOSHINKA_TRANSFORM_LIKE, "{", 0, room, 4096), NOSHINKA_REFUSED, 1, 1, 1));
    LOOK(memcmp(room, "$", 1) == 0);
    LOOK(is(back(both, "", NOSHINKA_TRANSFORM_LIKE, "{}", 0, room, 4096), NOSHINKA_REFUSED, 4, 1, 6));
    LOOK(memcmp(room, "$/type", 6) == 0);
    LOOK(is(back(both, "", NOSHINKA_TRANSFORM_LIKE, "{\"type\":\"Topology\"}", 0, room, 4096), NOSHINKA_REFUSED, 15, 1, 11));
    LOOK(memcmp(room, "$/transform", 11) == 0);
    LOOK(is(back(both, "", NOSHINKA_TRANSFORM_LIKE, "{\"type\":\"Topology\",\"transform\":{}}", 0, room, 4096), NOSHINKA_REFUSED, 16, 1, 11));
    LOOK(is(back(both, "", NOSHINKA_TRANSFORM_LIKE, "{\"type\":\"Topology\",\"transform\":{\"scale\":[0,1],\"translate\":[0,0]}}", 0, room, 4096), NOSHINKA_REFUSED, 6, 1, 11));
    LOOK(is(back(both, "", NOSHINKA_TRANSFORM_LIKE, "{\"type\":\"Topology\",\"transform\":{\"scale\":[1e-40,1],\"translate\":[0,0]}}", 0, room, 4096), NOSHINKA_REFUSED, 6, 1, 11));
    LOOK(is(back(none, "", NOSHINKA_TRANSFORM_LIKE, "{}", 0, room, 4096), NOSHINKA_REFUSED, 4, 1, 6));
    LOOK(is(back(both, "1e-30", NOSHINKA_TRANSFORM_OWN, "", 0, room, 0), NOSHINKA_ROOM, 21, 0, back(both, "1e-30", NOSHINKA_TRANSFORM_OWN, "", 0, room, 4096).length));
    LOOK(is(back(both, "1e-31", NOSHINKA_TRANSFORM_OWN, "", 0, room, 4096), NOSHINKA_USAGE, 0, 0, 0));
    LOOK(is(back(both, "1e-19", NOSHINKA_TRANSFORM_COUNT, "", 2, room, 4096), NOSHINKA_USAGE, 0, 0, 0));
    LOOK(is(back(both, "-1", NOSHINKA_TRANSFORM_OWN, "", 0, room, 4096), NOSHINKA_USAGE, 0, 0, 0));
    LOOK(is(back(both, "1", NOSHINKA_TRANSFORM_COUNT, "", 1, room, 4096), NOSHINKA_USAGE, 0, 0, 0));
    LOOK(is(back(both, "1", NOSHINKA_TRANSFORM_COUNT, "", (uint64_t)1 << 40, room, 4096), NOSHINKA_DONE, 0, 0, back(both, "1", NOSHINKA_TRANSFORM_COUNT, "", (uint64_t)1 << 40, room, 4096).length));
    LOOK(is(back(both, "1", NOSHINKA_TRANSFORM_COUNT, "", ((uint64_t)1 << 40) + 1, room, 4096), NOSHINKA_USAGE, 0, 0, 0));
    LOOK(is(back(both, "1", 3, "", 2, room, 4096), NOSHINKA_USAGE, 0, 0, 0));
    LOOK(is(numbers_back("\xff", NOSHINKA_NUMBERS_NAMED, 2, room, 4096), NOSHINKA_USAGE, 0, 0, 0));
    LOOK(numbers_back("\xff", NOSHINKA_NUMBERS_COLUMNS, 2, room, 4096).status == NOSHINKA_DONE);
    LOOK(is(numbers_back("p", 3, 2, room, 4096), NOSHINKA_USAGE, 0, 0, 0));
    LOOK(is(numbers_back("p", NOSHINKA_NUMBERS_NAMED, 13, room, 4096), NOSHINKA_USAGE, 0, 0, 0));
    options.rewind = 3;
    LOOK(is(noshinka_back(&options, both.at, both.length, room, 4096), NOSHINKA_USAGE, 0, 0, 0));
    options.rewind = NOSHINKA_REWIND_KEEP;
    LOOK(noshinka_back(&options, both.at, both.length, room, 4096).status == NOSHINKA_DONE);
    options.size = 8;
    LOOK(is(noshinka_back(&options, both.at, both.length, room, 4096), NOSHINKA_USAGE, 0, 0, 0));
    release();
}

static void look_at_quality(void) {
    noshinka_bytes none = bytes("{}");
    noshinka_quality_options options = NOSHINKA_QUALITY_OPTIONS;
    uint8_t *room = block(4096);
    LOOK(is(noshinka_quality(&options, none.at, none.length, room, 4096), NOSHINKA_REFUSED, 2, 0, 6));
    LOOK(memcmp(room, "$/type", 6) == 0);
    LOOK(is(quality(2, 0, 0, room, 4096), NOSHINKA_USAGE, 0, 0, 0));
    LOOK(is(quality(0, 101, 0, room, 4096), NOSHINKA_USAGE, 0, 0, 0));
    LOOK(quality(0, 100, 0, room, 4096).status == NOSHINKA_DONE);
    options.size = 8;
    LOOK(is(noshinka_quality(&options, none.at, none.length, room, 4096), NOSHINKA_USAGE, 0, 0, 0));
    release();
}

static void look_at_check(void) {
    noshinka_bytes both = bytes(BOTH), other = bytes(BOTH "\n");
    uint8_t *room = block(8);
    LOOK(is(noshinka_check(both.at, both.length, room, 0), NOSHINKA_DONE, 0, 0, 0));
    LOOK(is(noshinka_check(other.at, other.length, room, 8), NOSHINKA_NOT_CANONICAL, 0, 0, 0));
    LOOK(is_untouched(room, 8));
    release();
}

int main(void) {
    int which;
    LOOK(noshinka_version() == NOSHINKA_VERSION);
    for (which = 0; which < CALLS; which++) look_at_rooms(which);
    look_at_faults();
    look_at_steps();
    look_at_back();
    look_at_quality();
    look_at_check();
    printf("calls: %ld looked at, %ld wrong\n", looked, wrong);
    return wrong != 0;
}
