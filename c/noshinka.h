/* The library noshinka: TopoJSON topologies built, merged and queried in memory.
 *
 * A call takes texts and a room, which is memory of the caller for the answer, and returns an outcome by value. It
 * keeps nothing for the next call, and there is nothing to free. It reads no file and prints nothing. It may be used from
 * C99, from C++11, and from any language that calls C.
 *
 * What a caller has to observe, since no call checks it:
 *
 * - Pointers. None is NULL, even where a length is 0 or what it points to is not looked at. Each points to as many elements
 *   as its length says. The macros NOSHINKA_.._OPTIONS begin a struct of options so.
 * - Lengths. None is 2^63 or more.
 * - What is passed doesn't change until the call returns.
 * - The room. Each byte of it was written before: calloc, or a static array, is enough, malloc alone is not.
 * - The room overlaps nothing else that is passed. Any bytes may be in it.
 * - The room is written in its first `length` bytes or not at all; what is behind them stays.
 * - Memory. malloc, realloc and free of the program come from one allocator, and malloc and realloc align a block to
 *   each power of two up to 16 that divides its size, as the C library's do.
 * - Stack. 512 KiB are free. Between 196 and 212 KB were seen to be used, by `topotool faults` of 5,000 opening brackets;
 *   no proof says how much.
 * - Threads. Any number of threads may call at once, each with its own room. The texts may be shared.
 * - Fork and signals. No call is made from a signal handler, nor in the child of a fork of a process that had threads.
 *
 * docs/LIBRARY.md has examples, docs/FAULTS.md what each fault means.
 */
#ifndef NOSHINKA_H
#define NOSHINKA_H

#include <stddef.h>
#include <stdint.h>

#ifdef __cplusplus
extern "C" {
#endif

/* The version of these calls. It increases if a struct, a status or a call changes in a way that breaks callers. */
#define NOSHINKA_VERSION 1

/* Some bytes. */
typedef struct noshinka_bytes {
    const uint8_t *at;
    size_t length;
} noshinka_bytes;

/* No bytes. */
#define NOSHINKA_NO_BYTES {(const uint8_t *)"", 0}

/* A GeoJSON text, and the name of the layer that its features are put into, in UTF-8. Sources may share a name. */
typedef struct noshinka_source {
    noshinka_bytes layer;
    noshinka_bytes text;
} noshinka_source;

/* The grid of a topology, TopoJSON's transform. Scales are from 1 to 1000000, translations from -1000000000000 to
 * 1000000000000. Each coordinate of a source has to be a whole number times the scale, plus the translation. */
typedef struct noshinka_grid {
    int64_t scale_x, scale_y, translate_x, translate_y;
} noshinka_grid;

/* How a call ended. The numbers are the exit statuses of topotool, except that 3 (a file can't be read) is never
 * returned, and that 6 is a room that is too small. */
enum noshinka_status {
    /* Done: the answer is the first `length` bytes of the room. No zero byte is added. */
    NOSHINKA_DONE = 0,
    /* Of noshinka_check alone: the text is not canonical. */
    NOSHINKA_NOT_CANONICAL = 1,
    /* The grid, the step or the unit is outside its limits, the name at `place` is not UTF-8, a number is none of its choices,
     * options have another size, or ids are asked for and a feature has none, or as names of members one that another has. */
    NOSHINKA_USAGE = 2,
    /* The text at `place` is refused for `fault`. The path of the fault is the first `length` bytes of the room; if
     * `length` is more than the room has, the room is unchanged. Faults 17 to 19 have no path. */
    NOSHINKA_REFUSED = 4,
    /* Out of memory. */
    NOSHINKA_MEMORY = 5,
    /* The answer has `length` bytes, which is more than the room has, and the room is unchanged. Call again with a room
     * of that size: the answer is the same. */
    NOSHINKA_ROOM = 6
};

typedef struct noshinka_outcome {
    /* One of noshinka_status. */
    uint32_t status;
    /* The number of the fault, from 1 to 21, as in docs/FAULTS.md; 0 if there is none. */
    uint32_t fault;
    /* The place, from 0, of the text or the name that is refused. */
    size_t place;
    /* The length in bytes of the answer, or of the path. */
    size_t length;
} noshinka_outcome;

/* NOSHINKA_VERSION of the library. If it isn't that of this header, call nothing else. */
uint32_t noshinka_version(void);

/* The canonical text of the topology of GeoJSON texts on a grid. */
noshinka_outcome noshinka_build(const noshinka_grid *grid, const noshinka_source *sources, size_t count,
                                uint8_t *room, size_t size);

/* A property whose numbers are multiplied by a power of ten with so many zeros, 0 to 12, and rounded. */
typedef struct noshinka_scale {
    noshinka_bytes property;
    uint32_t zeros;
} noshinka_scale;

/* What a list of no scales points to. */
static const noshinka_scale noshinka_no_scale = {NOSHINKA_NO_BYTES, 0};

/* What a text is: a topology, or GeoJSON. */
enum noshinka_format { NOSHINKA_TOPOLOGY = 0, NOSHINKA_GEOJSON = 1 };

/* Which layers count: all, where the name of the layer is not looked at, or one. */
enum noshinka_scope { NOSHINKA_ALL_LAYERS = 0, NOSHINKA_ONE_LAYER = 1 };

/* Where ids are from: the members `id`, where the name of the property is not looked at, or a property. */
enum noshinka_ids { NOSHINKA_OWN_IDS = 0, NOSHINKA_PROPERTY_IDS = 1 };

/* What becomes of numbers that are not scaled (togrid --reals). */
enum noshinka_reals { NOSHINKA_REALS_WHOLE = 0, NOSHINKA_REALS_TEXT = 1, NOSHINKA_REALS_REFUSE = 2 };

/* Whether something is fixed, or the text is refused for it. */
enum noshinka_fix { NOSHINKA_FIX = 0, NOSHINKA_FIX_NOT = 1 };

/* What becomes of a feature of which no line or ring is left (togrid --collapsed). */
enum noshinka_collapsed { NOSHINKA_COLLAPSED_NULL = 0, NOSHINKA_COLLAPSED_DROP = 1, NOSHINKA_COLLAPSED_REFUSE = 2 };

/* How rings are turned (--rewind). */
enum noshinka_rewind { NOSHINKA_REWIND_KEEP = 0, NOSHINKA_REWIND_RFC7946 = 1, NOSHINKA_REWIND_D3 = 2 };

/* The options of togrid, as docs/TOGRID.md has them. Where a number is 0 and a list or a text is empty, they are what togrid does
 * if nothing is said. `size` is sizeof(noshinka_round_options): later versions may have more members. */
typedef struct noshinka_round_options {
    size_t size;
    /* --step and --unit, decimal numbers without a sign. If the step is empty, the texts are in degrees: steps of 0.000001, and
     * numbers beyond 180 and 90 are refused. If the unit is empty, it is 0.000001. */
    noshinka_bytes step;
    noshinka_bytes unit;
    /* --layer: the only object of topologies that is read, if `scope` is NOSHINKA_ONE_LAYER. */
    noshinka_bytes layer;
    /* --id: the property that is the id, if `ids` is NOSHINKA_PROPERTY_IDS. */
    noshinka_bytes id;
    /* --reals scale:PROPERTY=K: of one name the first counts. */
    const noshinka_scale *scales;
    size_t scale_count;
    /* --snap: how many steps apart nearly shared vertices are joined, 1 to 10; 0 joins none. */
    uint32_t snap;
    /* One of noshinka_scope, noshinka_ids, noshinka_reals. */
    uint32_t scope;
    uint32_t ids;
    uint32_t reals;
    /* --number: 1 if each feature without an id gets its number in its text. */
    uint32_t number;
    /* One of noshinka_fix each: open rings are closed, heights dropped, lines and rings that use a segment twice split, and so are
     * GeometryCollections. */
    uint32_t unclosed;
    uint32_t heights;
    uint32_t folded;
    uint32_t collections;
    /* One of noshinka_collapsed and of noshinka_rewind. */
    uint32_t collapsed;
    uint32_t rewind;
    /* --seq: 1 if each text is a sequence of GeoJSON texts, lines or behind the byte 30. */
    uint32_t sequences;
    /* 1 if a topology's only object gets the name of its source, as by NAME=FILE. Else objects keep their names. */
    uint32_t renames;
    /* The answer, one of noshinka_format: the topology of all texts, or all their features as a FeatureCollection, in order. */
    uint32_t format;
    /* 1 if the answer begins with the report, below. */
    uint32_t report;
} noshinka_round_options;

#define NOSHINKA_ROUND_OPTIONS \
    {sizeof(noshinka_round_options), NOSHINKA_NO_BYTES, NOSHINKA_NO_BYTES, NOSHINKA_NO_BYTES, NOSHINKA_NO_BYTES, &noshinka_no_scale, 0, \
     0, 0, 0, 0, 0, 0, 0, 0, 0, 0, 0, 0, 0, 0, 0}

/* GeoJSON texts in decimal numbers, and topologies of any tool, rounded to whole numbers of steps and fixed, as togrid does. The
 * answer is what `togrid --build` prints, or with NOSHINKA_GEOJSON what togrid prints of one text: the grid of the topology has the
 * scale step / unit. Texts may begin with a byte order mark.
 *
 * With `report` the answer begins with a JSON object of what became of the texts, and a newline, which the rest has none of: so one
 * call reads its texts once, and answers both into one room. In lists of one length, an element for each map, are
 *
 * - `maps`: the place of its `text`, and the `layer` that its text names, or null if that is the name of the source;
 * - `outcomes`: the counts `features`, `positions`, `moved`, `furthest` (in ten-thousandths of a step), `heights`, `reals`, `closed`,
 *   `collapsed`, `folded`, `collections` and `lost`, as docs/TOGRID.md has them, and the list `fixed` of the features of which anything
 *   was fixed: each a list of its number from 0 and the five counts from `closed` to `lost`;
 * - `equal`: the numbers of the features that equal an earlier one of their layer.
 *
 * Then `joined`, `too_wide` and `first_too_wide` say how many positions were moved to others, how many clusters were not, and where the
 * first is, and `shared`, `nearly_shared` and `first_nearly_shared` how many positions more than one feature has, how many pairs are
 * nearly shared, and the first. Positions are lists of x and y in steps; where there is none, it is null. */
noshinka_outcome noshinka_round(const noshinka_round_options *options, const noshinka_source *sources, size_t count,
                                uint8_t *room, size_t size);

/* The canonical text of the union of the features of topologies. Order makes no difference, nor does a text that is
 * there twice. All texts have to be on one grid; without a text the fault is 18. */
noshinka_outcome noshinka_merge(const noshinka_bytes *texts, size_t count, uint8_t *room, size_t size);

/* The canonical text of a topology (place 0) without the features of another one (place 1) on the same grid. */
noshinka_outcome noshinka_remove(const uint8_t *text, size_t length, const uint8_t *removed, size_t removed_length,
                                 uint8_t *room, size_t size);

/* What a change does: it adds the features of its topology, or takes them out. */
enum noshinka_change_kind { NOSHINKA_ADD = 0, NOSHINKA_TAKE = 1 };

/* A change of a topology: the text of another one on the same grid, and what becomes of its features. */
typedef struct noshinka_change {
    noshinka_bytes text;
    uint32_t kind;
} noshinka_change;

/* The canonical text of a topology (place 0) after changes (places from 1), one after the other: what noshinka_merge and
 * noshinka_remove would answer in turn. The text is read and written once. */
noshinka_outcome noshinka_edit(const uint8_t *text, size_t length, const noshinka_change *changes, size_t count,
                               uint8_t *room, size_t size);

/* Whether a topology's text is canonical, byte for byte: status 0 if it is, 1 if not. The room takes only the path of a
 * fault. */
noshinka_outcome noshinka_check(const uint8_t *text, size_t length, uint8_t *room, size_t size);

/* What noshinka_faults reads a text as, one of noshinka_format: a topology, where the grid is not looked at, or GeoJSON on the grid.
 * All faults of a text, in order, as a JSON array of objects. Each has the members `line` and `column`, both from 1,
 * `name`, `number` and `path`; and where there is one the `id` of its feature, and for fault 13 the `member` of the
 * properties. The status is 0 whether there are faults or not: the answer is [] if there are none. */
noshinka_outcome noshinka_faults(const uint8_t *text, size_t length, uint32_t format, const noshinka_grid *grid,
                                 uint8_t *room, size_t size);

/* A layer as a GeoJSON FeatureCollection. Without such a layer the fault is 19. */
noshinka_outcome noshinka_feature(const uint8_t *text, size_t length, const uint8_t *layer, size_t layer_length,
                                  uint8_t *room, size_t size);

/* Which borders: all, those between two features, those of one feature alone, or those between features whose values of a
 * property differ (topotool mesh --by). */
enum noshinka_edges { NOSHINKA_ALL = 0, NOSHINKA_INTERIOR = 1, NOSHINKA_EXTERIOR = 2, NOSHINKA_BY_PROPERTY = 3 };

typedef struct noshinka_mesh_options {
    size_t size;
    /* The layer, if `scope` is NOSHINKA_ONE_LAYER. */
    noshinka_bytes layer;
    /* The property, if `edges` is NOSHINKA_BY_PROPERTY. */
    noshinka_bytes property;
    /* One of noshinka_scope and of noshinka_edges. */
    uint32_t scope;
    uint32_t edges;
} noshinka_mesh_options;

#define NOSHINKA_MESH_OPTIONS {sizeof(noshinka_mesh_options), NOSHINKA_NO_BYTES, NOSHINKA_NO_BYTES, 0, 0}

/* Borders as a GeoJSON MultiLineString, each stretch once. */
noshinka_outcome noshinka_mesh(const noshinka_mesh_options *options, const uint8_t *text, size_t length,
                               uint8_t *room, size_t size);

/* What neighbours are answered as: places from 0, ids, which each feature then needs, or one object from each id to a list of ids,
 * where no other feature of the layer may have it, nor its number as a text. */
enum noshinka_lists { NOSHINKA_PLACES = 0, NOSHINKA_IDS = 1, NOSHINKA_KEYED_IDS = 2 };

/* Which neighbours count: all, or those whose values of a property differ. */
enum noshinka_neighbor_kind { NOSHINKA_ALL_NEIGHBORS = 0, NOSHINKA_NEIGHBORS_BY = 1 };

typedef struct noshinka_neighbors_options {
    size_t size;
    /* The property, if `kind` is NOSHINKA_NEIGHBORS_BY. */
    noshinka_bytes property;
    /* One of noshinka_neighbor_kind and of noshinka_lists. */
    uint32_t kind;
    uint32_t lists;
} noshinka_neighbors_options;

#define NOSHINKA_NEIGHBORS_OPTIONS {sizeof(noshinka_neighbors_options), NOSHINKA_NO_BYTES, 0, 0}

/* For each feature of a layer, in the order of noshinka_feature, the others that share a border with it, as JSON. */
noshinka_outcome noshinka_neighbors(const noshinka_neighbors_options *options, const uint8_t *text, size_t length,
                                    const uint8_t *layer, size_t layer_length, uint8_t *room, size_t size);

/* How noshinka_diff pairs features: by their ids, or by the values of a property. */
enum noshinka_pairing { NOSHINKA_BY_ID = 0, NOSHINKA_BY_KEY = 1 };

typedef struct noshinka_diff_options {
    size_t size;
    /* The layer, if `scope` is NOSHINKA_ONE_LAYER: one of the topologies has to have it, else the fault is 19. */
    noshinka_bytes layer;
    /* The property, if `pairing` is NOSHINKA_BY_KEY. */
    noshinka_bytes key;
    /* One of noshinka_scope and of noshinka_pairing. */
    uint32_t scope;
    uint32_t pairing;
    /* 1 if the answer is JSON, 0 if it is lines. */
    uint32_t json;
} noshinka_diff_options;

#define NOSHINKA_DIFF_OPTIONS {sizeof(noshinka_diff_options), NOSHINKA_NO_BYTES, NOSHINKA_NO_BYTES, 0, 0, 0}

/* Which features two topologies on the same grid (places 0 and 1) have alone, and what changed in those that pair, as
 * `topotool diff` prints it. The status is 0 also if something differs. */
noshinka_outcome noshinka_diff(const noshinka_diff_options *options, const uint8_t *text, size_t length,
                               const uint8_t *other, size_t other_length, uint8_t *room, size_t size);

/* The grid, the bounding box and counts of a topology: as lines, or as JSON if `json` is 1. */
noshinka_outcome noshinka_info(const uint8_t *text, size_t length, uint32_t json, uint8_t *room, size_t size);

/* Which decimal texts of properties become numbers again (togrid --back --numbers): none, those of columns, or those of named properties. */
enum noshinka_numbers { NOSHINKA_NUMBERS_STAY = 0, NOSHINKA_NUMBERS_COLUMNS = 1, NOSHINKA_NUMBERS_NAMED = 2 };

/* On which transform a topology is written: its own times the unit, that of another topology, or that of so many numbers along each axis. */
enum noshinka_transform { NOSHINKA_TRANSFORM_OWN = 0, NOSHINKA_TRANSFORM_LIKE = 1, NOSHINKA_TRANSFORM_COUNT = 2 };

/* The options of togrid --back, as docs/TOGRID.md has them. */
typedef struct noshinka_back_options {
    size_t size;
    /* --unit, a decimal number without a sign. If it is empty, it is 0.000001. */
    noshinka_bytes unit;
    /* --like: the text of another topology (place 1), whose numbers may be decimal, if `transform` is NOSHINKA_TRANSFORM_LIKE. */
    noshinka_bytes like;
    /* --numbers=P,Q: the properties, if `numbers` is NOSHINKA_NUMBERS_NAMED. */
    const noshinka_bytes *properties;
    size_t property_count;
    /* --reals scale:PROPERTY=K: whole numbers of the property are divided by the power of ten; of one name the first counts. */
    const noshinka_scale *scales;
    size_t scale_count;
    /* --quantize N: 2 to 2^40, if `transform` is NOSHINKA_TRANSFORM_COUNT. */
    uint64_t count;
    /* One of noshinka_numbers, of noshinka_transform and of noshinka_rewind. */
    uint32_t numbers;
    uint32_t transform;
    uint32_t rewind;
} noshinka_back_options;

/* What a list of no bytes points to. */
static const noshinka_bytes noshinka_no_bytes = NOSHINKA_NO_BYTES;

#define NOSHINKA_BACK_OPTIONS \
    {sizeof(noshinka_back_options), NOSHINKA_NO_BYTES, NOSHINKA_NO_BYTES, &noshinka_no_bytes, 0, &noshinka_no_scale, 0, 0, \
     NOSHINKA_NUMBERS_STAY, NOSHINKA_TRANSFORM_OWN, NOSHINKA_REWIND_D3}

/* A topology (place 0) in the unit of the map again, as `togrid --back` prints it: for other tools, since no call here takes a
 * fraction. Both texts may begin with a byte order mark. A unit of too many digits is NOSHINKA_USAGE. */
noshinka_outcome noshinka_back(const noshinka_back_options *options, const uint8_t *text, size_t length,
                               uint8_t *room, size_t size);

typedef struct noshinka_quality_options {
    size_t size;
    /* 1: which features have no id, and which one that occurs more than once in their layer. */
    uint32_t ids;
    /* 1 to 100 steps of the grid: which vertices of different features are so near each other. 0: not asked. */
    uint32_t near;
    /* How many of those pairs are listed at most. */
    uint32_t listed;
} noshinka_quality_options;

#define NOSHINKA_QUALITY_OPTIONS {sizeof(noshinka_quality_options), 0, 0, 10}

/* What `topotool check --ids --near` finds in a topology's text, as a JSON object of three members. `canonical` is what noshinka_check
 * tells. `ids` is a list with an object for each layer: the name `layer`, and in the lists `missing` and `repeated` the places from 0 of
 * the features without an id, and of those whose id others of the layer have too. `near` has the `count` of all pairs, and the first
 * `pairs` by their positions: lists of two positions, x and y in the numbers of GeoJSON. What is not asked for is null. The status is 0
 * whatever is found. */
noshinka_outcome noshinka_quality(const noshinka_quality_options *options, const uint8_t *text, size_t length,
                                  uint8_t *room, size_t size);

/* The name of the fault with a number, as docs/FAULTS.md has it: `NotJson` for 1. Other numbers than 1 to 21 are NOSHINKA_USAGE. */
noshinka_outcome noshinka_fault_name(uint32_t fault, uint8_t *room, size_t size);

#ifdef __cplusplus
}
#endif
#endif
