/* Gwerniloc: lines, triangles and triangular prisms on one reference scale, corner points, leaf lists over root prisms,
 * their files, and orders.
 *
 * The edge of the root is 2^21 and the highest level is 21. An element of level l has the side h = 2^(21-l); its
 * coordinates are its anchor. Its kind is its type: a triangle of type 0 has the corners (x, y), (x+h, y), (x+h, y+h),
 * one of type 1 has (x, y), (x, y+h), (x+h, y+h). A prism stands on its triangle from z to z+h,
 * its corners 0 to 2 at z and 3 to 5 at z+h. A line has no type.
 *
 * Every call takes any values at all. The library has no state and allocates nothing: any thread may call it at any time,
 * and 16 KB of stack are enough.
 *
 * Columns. A column is a pointer and a length. The pointer must not be NULL, also where the length is 0, and that many entries
 * must stand there; unequal columns of one list, or of one section, are refused, 11. A const column is only read; any other
 * is written at its front by an accepted call (the three of a section, which are as long as the positions, to their end), and
 * a refused call leaves it as it was. A column that is written must overlap no other column of the call.
 *
 * Answers. An answer has refusal 0 and the value, or a refusal and a value of zeros. A refusal is place * 256 + number; the
 * numbers are those of gw_refusal_number. The place is 0, except that
 *   - compare and family give the index of the element at fault (modulo 2^56),
 *   - corner points for a section give with 5 the index of the first bad position (modulo 2^56),
 *   - a list call gives the number of the leaf with 1, 5, 7, 12, 13 and 16, and with 12 of a list that ends early its
 *     length (a uniform start has no leaf yet: its 1 has place 0),
 *   - 14 gives the entries or bytes needed,
 *   - reading a file gives an offset into it, except with 11 and 14.
 * Each call below names its refusals in the order of its tests; the first that applies is given. */
#ifndef GWERNILOC_H
#define GWERNILOC_H

#include <stddef.h>
#include <stdint.h>

#ifdef __cplusplus
extern "C" {
#endif

/* ---- refusals */

#define GW_REFUSAL_NUMBER(r) ((unsigned)((r) & 255u))
#define GW_REFUSAL_PLACE(r) ((uint64_t)(r) >> 8)

enum gw_refusal_number {
    GW_ACCEPTED = 0,
    GW_LEVEL_ABOVE_HIGHEST = 1,  /* level above 21 */
    GW_BAD_ANCHOR = 2,           /* anchor 2^21 or more, or no multiple of h */
    GW_BAD_TYPE = 3,             /* type above 1 */
    GW_OUTSIDE_ROOT = 4,         /* outside the root */
    GW_BAD_POSITION = 5,         /* position not below children^level */
    GW_LEVEL_TOO_SMALL = 6,      /* parent of level 0; descendant level smaller than the element's own */
    GW_LEVEL_IS_HIGHEST = 7,     /* child of level 21; mark 1 on a leaf of level 21 */
    GW_NUMBER_TOO_LARGE = 8,     /* child, face or corner number too large */
    GW_NO_SUCCESSOR = 9,         /* successor of the last */
    GW_NO_NEIGHBOUR = 10,        /* neighbour outside the root */
    GW_BAD_COLUMNS = 11,         /* columns of one list or section unequal; input list empty or over GW_MOST_LEAVES;
                                    marks or weights of another length */
    GW_NOT_COVERED = 12,         /* list doesn't cover its roots, leaf after leaf */
    GW_BAD_MARK = 13,            /* mark above 2 */
    GW_NO_ROOM = 14,             /* no room: place = entries or bytes needed */
    GW_TOO_MANY_LEAVES = 15,     /* result over GW_MOST_LEAVES */
    GW_WEIGHT_ZERO = 16,         /* weight 0 */
    GW_COUNT_OUT_OF_RANGE = 17,  /* roots or shares outside 1 to GW_MOST_ROOTS */
    GW_NOT_A_GRID_FILE = 18,     /* first four bytes of a file missing or different */
    GW_FILE_ENDS = 19,           /* file ends inside or before a number */
    GW_BAD_FILE_NUMBER = 20,     /* number not shortest, or third byte with top bit */
    GW_BAD_RUN = 21,             /* number of runs outside 1 to GW_MOST_LEAVES; run of 0; level as in the run before */
    GW_BYTES_LEFT = 22,          /* bytes after the last run */
    GW_BAD_FIELD = 23,           /* order field: only in what gw_order and gw_convert print */
    GW_BAD_ROOT_CORNER = 24      /* root corner outside -512 to 512 */
};

/* ---- limits */

#define GW_HIGHEST_LEVEL 21
#define GW_EDGE 2097152           /* 2^21 */
#define GW_MOST_LEAVES 1048576    /* of a list, and runs of a file */
#define GW_MOST_ROOTS 4096        /* and shares */
#define GW_MOST_ORDER_INPUT 71    /* bytes of an order's input that decide */
#define GW_MOST_ORDER_OUTPUT 86212 /* bytes that an order's output never exceeds */
#define GW_MOST_ORDER_LINE 45     /* bytes that a converted order line, or its refusal, never exceeds */

#define GW_LINE_CHILDREN 2
#define GW_LINE_FACES 2
#define GW_LINE_CORNERS 2

#define GW_TRIANGLE_CHILDREN 4
#define GW_TRIANGLE_FACES 3
#define GW_TRIANGLE_CORNERS 3

#define GW_PRISM_CHILDREN 8
#define GW_PRISM_FACES 5
#define GW_PRISM_CORNERS 6

/* ---- elements and answers */

typedef struct gw_line {
    uint32_t x;
    uint8_t level;
} gw_line;

typedef struct gw_triangle {
    uint32_t x, y;
    uint8_t level, kind;
} gw_triangle;

typedef struct gw_prism {
    uint32_t x, y, z;
    uint8_t level, kind;
} gw_prism;

typedef struct gw_line_result {
    uint64_t refusal;
    gw_line value;
} gw_line_result;

typedef struct gw_triangle_result {
    uint64_t refusal;
    gw_triangle value;
} gw_triangle_result;

typedef struct gw_prism_result {
    uint64_t refusal;
    gw_prism value;
} gw_prism_result;

typedef struct gw_number_result {
    uint64_t refusal;
    uint64_t value;
} gw_number_result;

/* The value is -1, 0 or 1: e comes before f, is f, comes after f. */
typedef struct gw_comparison {
    uint64_t refusal;
    int32_t value;
} gw_comparison;

/* A grid that was read: its roots and the number of its leaves. */
typedef struct gw_grid_result {
    uint64_t refusal;
    uint64_t roots, leaves;
} gw_grid_result;

/* ---- lines */

/** The line at a position of a level.
 *  Refuses: 1 level above 21; 5 position not below 2^level. */
gw_line_result gw_line_at(uint8_t level, uint64_t position);

/** The position of a line among all of its level, from 0.
 *  Refuses: 1 level, 2 anchor. */
gw_number_result gw_line_position(gw_line e);

/** The parent, one level up.
 *  Refuses: 1 level, 2 anchor; 6 level 0. */
gw_line_result gw_line_parent(gw_line e);

/** The child with a number, 0 to 1: 0 is the lower half, 1 the upper.
 *  Refuses: 1 level, 2 anchor; 7 level 21; 8 number above 1. */
gw_line_result gw_line_child(gw_line e, uint8_t number);

/** The line of the same level at the next position.
 *  Refuses: 1 level, 2 anchor; 9 the last of its level. */
gw_line_result gw_line_successor(gw_line e);

/** The first descendant at a level, which may be the line's own.
 *  Refuses: 1 level, 2 anchor; 1 asked level above 21; 6 it is below the line's. */
gw_line_result gw_line_first_descendant(gw_line e, uint8_t level);

/** The last descendant at a level, which may be the line's own.
 *  Refuses: 1 level, 2 anchor; 1 asked level above 21; 6 it is below the line's. */
gw_line_result gw_line_last_descendant(gw_line e, uint8_t level);

/** The line of the same level across a face. Face 0 is at x, face 1 at x + h.
 *  Refuses: 1 level, 2 anchor; 8 face above 1; 10 neighbour outside the root. */
gw_line_result gw_line_neighbour(gw_line e, uint8_t face);

/** The order of two: by the positions of their first descendants at level 21, then by level.
 *  Refuses, first e with place 0, then f with place 1: 1 level, 2 anchor. */
gw_comparison gw_line_compare(gw_line e, gw_line f);

/** 1 if the columns hold the 2 children of one parent, in order, else 0. Any other count, or none, is 0.
 *  Refuses: 11 unequal columns; then each in turn, place = its index: 1 level, 2 anchor. */
gw_number_result gw_line_family(const uint32_t *x, size_t x_length, const uint8_t *level, size_t level_length);

/* ---- triangles */

/** The triangle at a position of a level.
 *  Refuses: 1 level above 21; 5 position not below 4^level. */
gw_triangle_result gw_triangle_at(uint8_t level, uint64_t position);

/** The position of a triangle among all of its level, from 0.
 *  Refuses: 1 level, 2 anchor, 3 type, 4 outside. */
gw_number_result gw_triangle_position(gw_triangle e);

/** The parent, one level up.
 *  Refuses: 1 level, 2 anchor, 3 type, 4 outside; 6 level 0. */
gw_triangle_result gw_triangle_parent(gw_triangle e);

/** The child with a number, 0 to 3: numbered along the curve.
 *  Refuses: 1 level, 2 anchor, 3 type, 4 outside; 7 level 21; 8 number above 3. */
gw_triangle_result gw_triangle_child(gw_triangle e, uint8_t number);

/** The triangle of the same level at the next position.
 *  Refuses: 1 level, 2 anchor, 3 type, 4 outside; 9 the last of its level. */
gw_triangle_result gw_triangle_successor(gw_triangle e);

/** The first descendant at a level, which may be the triangle's own.
 *  Refuses: 1 level, 2 anchor, 3 type, 4 outside; 1 asked level above 21; 6 it is below the triangle's. */
gw_triangle_result gw_triangle_first_descendant(gw_triangle e, uint8_t level);

/** The last descendant at a level, which may be the triangle's own.
 *  Refuses: 1 level, 2 anchor, 3 type, 4 outside; 1 asked level above 21; 6 it is below the triangle's. */
gw_triangle_result gw_triangle_last_descendant(gw_triangle e, uint8_t level);

/** The triangle of the same level across a face. Face i is opposite corner i.
 *  Refuses: 1 level, 2 anchor, 3 type, 4 outside; 8 face above 2; 10 neighbour outside the root. */
gw_triangle_result gw_triangle_neighbour(gw_triangle e, uint8_t face);

/** The order of two: by the positions of their first descendants at level 21, then by level.
 *  Refuses, first e with place 0, then f with place 1: 1 level, 2 anchor, 3 type, 4 outside. */
gw_comparison gw_triangle_compare(gw_triangle e, gw_triangle f);

/** 1 if the columns hold the 4 children of one parent, in order, else 0. Any other count, or none, is 0.
 *  Refuses: 11 unequal columns; then each in turn, place = its index: 1 level, 2 anchor, 3 type, 4 outside. */
gw_number_result gw_triangle_family(const uint32_t *x, size_t x_length, const uint32_t *y, size_t y_length,
                                    const uint8_t *level, size_t level_length, const uint8_t *kind, size_t kind_length);

/* ---- prisms */

/** The prism at a position of a level.
 *  Refuses: 1 level above 21; 5 position not below 8^level. */
gw_prism_result gw_prism_at(uint8_t level, uint64_t position);

/** The position of a prism among all of its level, from 0.
 *  Refuses: 1 level, 2 anchor, 3 type, 4 outside. */
gw_number_result gw_prism_position(gw_prism e);

/** The parent, one level up.
 *  Refuses: 1 level, 2 anchor, 3 type, 4 outside; 6 level 0. */
gw_prism_result gw_prism_parent(gw_prism e);

/** The child with a number, 0 to 7: 4 times the line's number plus the triangle's.
 *  Refuses: 1 level, 2 anchor, 3 type, 4 outside; 7 level 21; 8 number above 7. */
gw_prism_result gw_prism_child(gw_prism e, uint8_t number);

/** The prism of the same level at the next position.
 *  Refuses: 1 level, 2 anchor, 3 type, 4 outside; 9 the last of its level. */
gw_prism_result gw_prism_successor(gw_prism e);

/** The first descendant at a level, which may be the prism's own.
 *  Refuses: 1 level, 2 anchor, 3 type, 4 outside; 1 asked level above 21; 6 it is below the prism's. */
gw_prism_result gw_prism_first_descendant(gw_prism e, uint8_t level);

/** The last descendant at a level, which may be the prism's own.
 *  Refuses: 1 level, 2 anchor, 3 type, 4 outside; 1 asked level above 21; 6 it is below the prism's. */
gw_prism_result gw_prism_last_descendant(gw_prism e, uint8_t level);

/** The prism of the same level across a face. Faces 0 to 2 are the triangle's, 3 is at z, 4 at z + h.
 *  Refuses: 1 level, 2 anchor, 3 type, 4 outside; 8 face above 4; 10 neighbour outside the root. */
gw_prism_result gw_prism_neighbour(gw_prism e, uint8_t face);

/** The order of two: by the positions of their first descendants at level 21, then by level.
 *  Refuses, first e with place 0, then f with place 1: 1 level, 2 anchor, 3 type, 4 outside. */
gw_comparison gw_prism_compare(gw_prism e, gw_prism f);

/** 1 if the columns hold the 8 children of one parent, in order, else 0. Any other count, or none, is 0.
 *  Refuses: 11 unequal columns; then each in turn, place = its index: 1 level, 2 anchor, 3 type, 4 outside. */
gw_number_result gw_prism_family(const uint32_t *x, size_t x_length, const uint32_t *y, size_t y_length,
                                 const uint32_t *z, size_t z_length, const uint8_t *level, size_t level_length,
                                 const uint8_t *kind, size_t kind_length);

/* ---- corner points */

/* A root in space: its six corners, each three whole numbers from -512 to 512. Corners 0 to 2 belong to z = 0, 3 to 5 to
 * z = 2^21, each over the one three before it; in space they may lie anywhere. */
typedef struct gw_corner {
    int64_t x, y, z;
} gw_corner;

typedef struct gw_root {
    gw_corner corner[6];
} gw_root;

typedef struct gw_point {
    double x, y, z;
} gw_point;

typedef struct gw_point_result {
    uint64_t refusal;
    gw_point value;
} gw_point_result;

/** The point in space of a corner, 0 to 5, of the prism at a position of a level, in a root with the given corners. For the
 *  corner's local (X, Y, Z), on the scale where the root's edge is 2^21, each coordinate has exactly the value Q / 2^42,
 *  zero as +0, where with v0 to v5 the root's Tj = 2^21 vj + (v(j+3) - vj) Z and Q = 2^21 T0 + (T1 - T0) X + (T2 - T1) Y.
 *  Flat and folded roots are accepted.
 *  Refuses: 1 level above 21; 5 position not below 8^level; 8 corner above 5; 24 a root's corner outside -512 to 512. */
gw_point_result gw_corner_point(uint8_t level, uint64_t position, uint8_t corner, gw_root root);

/** Corner points for a whole section: the points of one corner, 0 to 5, at the given positions of one level, in a root with
 *  the given corners. Entry i of columns x, y and z is bit for bit the point of gw_corner_point at position i. Any number of
 *  positions will do, also none. Returns the refusal alone: 11 the four columns are not all of one length; 1 level above 21;
 *  5 a position not below 8^level (place = index of the first); 8 corner above 5; 24 a root's corner outside -512 to 512.
 *  Every other place is 0. */
uint64_t gw_corner_points(uint8_t level, const uint64_t *position, size_t position_length, uint8_t corner, gw_root root,
                          double *x, size_t x_length, double *y, size_t y_length, double *z, size_t z_length);

/* ---- leaf lists: columns root, level, position, each a pointer and a length */

/** Whether the leaves are a valid list of k roots: the first starts root 0, each later one starts where the one before it
 *  ended, the last ends root k-1. Returns 0, or the first refusal: 17 roots outside 1 to 4,096; 11 columns unequal, empty
 *  or over 1,048,576; then at each leaf (place = leaf) 1 level, 5 position, 12 it does not start there; 12 at the length
 *  of a list that ends early. */
uint64_t gw_list_check(uint16_t k, const uint16_t *root, size_t root_length, const uint8_t *level, size_t level_length,
                       const uint64_t *position, size_t position_length);

/** A uniform start: writes the leaves of k roots, all at one level, at the front of the columns, and nothing behind them.
 *  The value is how many. Refuses: 17 roots outside 1 to 4,096; 11 columns unequal; 1 level above 21; 15 over 1,048,576
 *  leaves; 14 no room, place = the entries needed. Every other place is 0. */
gw_number_result gw_list_uniform(uint16_t k, uint8_t level, uint16_t *root, size_t root_length, uint8_t *leaf_level,
                                 size_t leaf_level_length, uint64_t *position, size_t position_length);

/** 1 if the list is balanced: any two leaves that follow one another in one root differ by at most one level; else 0.
 *  Refuses: 17 roots outside 1 to 4,096; 11 columns unequal, empty or over 1,048,576; then at each leaf (place = leaf)
 *  1 level, 5 position, 12 it does not start where the one before it ended; 12 at the length of a list that ends early. */
gw_number_result gw_list_balanced(uint16_t k, const uint16_t *root, size_t root_length, const uint8_t *level,
                                  size_t level_length, const uint64_t *position, size_t position_length);

/** One pass over the marks of a list, one a leaf: 0 keep, 1 refine, 2 merge. A refined leaf gives its eight children, eight
 *  consecutive leaves that are a family and all carry 2 give their parent, any other leaf is kept. The new list stands at
 *  the front of the new columns; the value is its number of leaves. Refuses: 17 roots outside 1 to 4,096; 11 columns
 *  unequal, empty or over 1,048,576, marks of another length, new columns unequal; then at each leaf (place = leaf)
 *  1 level, 5 position, 12 it does not start where the one before it ended; 12 at the length of a list that ends early;
 *  then at any leaf 13 its mark is above 2; then at any leaf 7 it is refined at level 21; 15 the new list has over
 *  1,048,576 leaves; 14 the new columns are too short (place = entries needed). */
gw_number_result gw_list_adapt(uint16_t k, const uint16_t *root, size_t root_length, const uint8_t *level,
                               size_t level_length, const uint64_t *position, size_t position_length,
                               const uint8_t *mark, size_t mark_length,
                               uint16_t *new_root, size_t new_root_length, uint8_t *new_level, size_t new_level_length,
                               uint64_t *new_position, size_t new_position_length);

/** The p + 1 boundaries of p shares of a weighted list, at the front of the column: share s runs from leaf boundary[s] up
 *  to boundary[s + 1]. Boundary s is the largest j such that the weights of the first j leaves, times p, are within s times
 *  the whole weight. Returns the refusal alone: 17 roots or shares outside 1 to 4,096; 11 columns unequal, empty or over
 *  1,048,576, weights of another length; then at each leaf (place = leaf) 1 level, 5 position, 12 it does not start where
 *  the one before it ended; 12 at the length of a list that ends early; then at any leaf 16 its weight is 0; 14 the column
 *  is too short (place = p + 1). */
uint64_t gw_list_shares(uint16_t k, uint16_t p, const uint16_t *root, size_t root_length, const uint8_t *level,
                        size_t level_length, const uint64_t *position, size_t position_length,
                        const uint16_t *weight, size_t weight_length,
                        uint32_t *boundary, size_t boundary_length);

/* ---- the grid file: the bytes 50 47 52 31, the roots, the number of runs, then a level and a leaf count for each run */

/** The file of a list of k roots, at the front of the bytes, and nothing behind it. The value is its length. Refuses:
 *  17 roots outside 1 to 4,096; 11 columns unequal, empty or over 1,048,576; then at each leaf (place = leaf) 1 level,
 *  5 position, 12 it does not start where the one before it ended; 12 at the length of a list that ends early; 14 the bytes
 *  are too few (place = bytes needed). */
gw_number_result gw_file_write(uint16_t k, const uint16_t *root, size_t root_length, const uint8_t *level,
                               size_t level_length, const uint64_t *position, size_t position_length,
                               uint8_t *bytes, size_t bytes_length);

/** The list in a file, at the front of the columns, and nothing behind it. Every accepted file holds a valid list. Refuses:
 *  11 columns unequal; then in the order of the bytes, place = offset of the number's first byte: 18 first four bytes;
 *  19 and 20 any number; 17 roots outside 1 to 4,096; 21 number of runs outside 1 to 1,048,576; at a level 1 above 21,
 *  21 as in the run before; at a count 21 it is 0, 15 the list has over 1,048,576 leaves; 12 at the run's level, a leaf of
 *  the run cannot start where the one before it ended or lies past the last root; after the last run 12 the list ends
 *  early, 22 bytes are left; 14 the columns are too short (place = entries needed). */
gw_grid_result gw_file_read(const uint8_t *bytes, size_t bytes_length, uint16_t *root, size_t root_length, uint8_t *level,
                            size_t level_length, uint64_t *position, size_t position_length);

/* ---- the order program, and the converter of stored order lines */

/** What the program `order` prints on an input, at the front of the buffer, and nothing behind it. The value is how many
 *  bytes, never more than 86,212; the first 71 bytes of the input decide. A line that the program refuses, one with an empty
 *  field among them, is answered with its one line of refusal. Refuses: 14 no room, place = the bytes needed. */
gw_number_result gw_order(const uint8_t *input, size_t input_length, uint8_t *out, size_t out_length);

/** What the program `convert` prints on an input, at the front of the buffer, and nothing behind it: a stored order line with
 *  the 2 that its empty field seven meant; or the line as it is, where field seven is filled; or, for a line that was refused
 *  also when an empty field seven meant 2, its one line of refusal by that rule. The value is how many bytes, never more than
 *  45; the first 71 bytes of the input decide. Refuses: 14 no room, place = the bytes needed. */
gw_number_result gw_convert(const uint8_t *input, size_t input_length, uint8_t *out, size_t out_length);

#ifdef __cplusplus
}
#endif

#endif
