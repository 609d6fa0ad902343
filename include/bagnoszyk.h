/*
 * Bagnoszyk 0.4.0: geometry for patent drawings in f32, proved. The C interface, in C99 and C++11 and all later versions.
 * Made from the Rattle sources by tests/generate. Licence: MIT, see NOTICE (installed under share/doc/bagnoszyk).
 *
 * Calls. Every routine takes any bits in every number, NaN and infinities among them, ends, and gives an answer, none, or
 * the number of a refusal. It keeps no state, allocates nothing and calls nothing outside the library but memset, so
 * threads may call at the same time; a list that one call writes must be in use by no other call. It is built for x86-64
 * Linux.
 *
 * Answers. A struct bgz_..._answer has a status: BGZ_ANSWERED (0), BGZ_NONE (255), or the number of a refusal. Where the
 * status is not 0, every other field is 0, but for the place of a refusal that tells one, and the list that it is in.
 * Conditions of a refusal are listed in the order in which they are tested; the first that holds gives the number. Only
 * routines whose comment says so refuse, or give BGZ_NONE. Which refusals tell a place, and what it counts, stands under
 * Place in a routine's comment; with any other status the place is 0, which is a place too, so look at the status first.
 * After a refused merge look at the list too: with list 0 the place tells nothing.
 *
 * Versions. Header and archive must be of one version: a later one may have structs with more fields.
 *
 * Floats. Each operation is rounded to the nearest float, ties to even, as IEEE 754 has it. The caller must leave the
 * rounding mode as it is at the start of a program, and subnormal numbers on: a program linked with -ffast-math may turn
 * them off. Else answers may be others; that calls still end and keep to their lists is tested, and not proved.
 * Exceptions must not trap, as they do not at the start of a program; calls may raise their flags.
 * A comparison with a NaN is false. An answer that is a NaN may have any NaN's bits. +0 and -0 are equal in every
 * comparison; of two equal zeros a minimum or maximum gives the first. Minimum and maximum, wherever a comment names them,
 * drop a NaN if the other is a number.
 *
 * Axes. x grows with the column and y with the row. A line rises where y grows with x, as in direction (1, 1), and falls
 * where it shrinks, as in direction (1, -1). The lower edge of a box is the one at min_y. On a screen with row 0 on top a
 * line that rises so goes down to the right, and a lower edge is on top. In space z is the third axis; where it points is
 * the caller's.
 *
 * Lists. A list is a pointer to its first entry and the number of its entries; where that number is 0 the pointer may be
 * null. A pointer must be aligned for its type; that many entries must be readable, and writable unless the pointer is to
 * const. A list of bytes is a pointer to void, so that char serves as well as uint8_t. A list that a call writes must not
 * overlap another list of that call; lists that it only reads may be the same. A routine that writes to a list says which
 * entries it writes; the entries beyond them are left as they are. A box that is lent is a pointer to it, never null. A
 * refused call changes no list and no lent box. bgz_hatch_report refuses nothing: of bytes that are no hatch list its
 * text says so.
 */
#ifndef BAGNOSZYK_H
#define BAGNOSZYK_H

#include <stdbool.h>
#include <stddef.h>
#include <stdint.h>

#ifdef __cplusplus
extern "C" {
#endif

#define BAGNOSZYK_VERSION "0.4.0"

/* ---- limits, and the floats of a line */

#define BGZ_IMAGE_SIDE_MAX 16384         /* The longest side of an image in pixels, and of a sheet in tiles. */
#define BGZ_LINE_FLOATS 4                /* The floats of a line in a list of lines. */
#define BGZ_LINE_RESULT_FLOATS 4         /* The floats that a line gives in a list of results. */
#define BGZ_STROKE_COORDINATE_MAX 65536  /* The largest coordinate of a stroke's ends, in size. */
#define BGZ_STROKE_ENTRIES_MAX 16385     /* Room for the entries of any stroke. */
#define BGZ_TILE_COORDINATE_MAX 1048576  /* The largest coordinate of a box whose tiles are listed, in size. */
#define BGZ_TILE_SIZE_MAX 4096           /* The longest side of a tile. */
#define BGZ_HATCH_RECORD_FLOATS 8        /* The floats of a record of a hatch list. */
#define BGZ_HATCH_RECORDS_MAX 2000       /* The most records of a hatch list. */
#define BGZ_HATCH_FLOATS_MAX 16000       /* Room for the floats of any hatch list. */
#define BGZ_HATCH_BYTES_MAX 64007        /* The bytes of the longest hatch list. */
#define BGZ_HATCH_REPORT_MAX 58014       /* Room for any report: none has more bytes. */

/* ---- the status of an answer */

enum bgz_status {
    BGZ_ANSWERED = 0,                 /* an answer: it stands in the other fields */
    BGZ_REFUSED_ROOM = 1,             /* a lent list is shorter than what is to be written */
    BGZ_REFUSED_SAME_ENDS = 2,        /* both ends of a stroke are equal */
    BGZ_REFUSED_COORDINATE = 3,       /* a coordinate is above its limit in size, or for tiles not finite */
    BGZ_REFUSED_SIZE = 4,             /* a side of an image or a sheet is too large, or a tile size is 0 or too large */
    BGZ_REFUSED_ORDER = 5,            /* a range is not ordered: low is not at most high */
    BGZ_REFUSED_RADIUS = 6,           /* a radius is not at least 0 */
    BGZ_REFUSED_NAN_LENGTH = 7,       /* a length to the turned box is NaN */
    BGZ_REFUSED_NO_IMAGE = 8,         /* a corner has no image */
    BGZ_REFUSED_INDEX = 9,            /* an index is not below the number of boxes */
    BGZ_REFUSED_MARK = 10,            /* a hatch list does not begin with its mark */
    BGZ_REFUSED_VERSION = 11,         /* a hatch list has an unknown version */
    BGZ_REFUSED_COUNT = 12,           /* a hatch list has too many records */
    BGZ_REFUSED_LENGTH = 13,          /* the bytes of a hatch list are too few or too many */
    BGZ_REFUSED_LINES = 14,           /* a list of lines is not a multiple of four floats */
    BGZ_REFUSED_NOT_FINITE = 15,      /* a coordinate of a stroke is not finite */
    BGZ_REFUSED_NAN_PROJECTION = 16,  /* a corner's projection is NaN on an axis that is reached, whether it separates the boxes or not */
    BGZ_REFUSED_CORNER = 17,          /* the number of a corner is above 7 */
    BGZ_NONE = 255                    /* no refusal, and none of what was asked for */
};

/* What a status says, in one line. */
static inline const char *bgz_refusal_text(uint32_t status) {
    switch (status) {
    case BGZ_ANSWERED:
        return "an answer: it stands in the other fields";
    case BGZ_REFUSED_ROOM:
        return "a lent list is shorter than what is to be written";
    case BGZ_REFUSED_SAME_ENDS:
        return "both ends of a stroke are equal";
    case BGZ_REFUSED_COORDINATE:
        return "a coordinate is above its limit in size, or for tiles not finite";
    case BGZ_REFUSED_SIZE:
        return "a side of an image or a sheet is too large, or a tile size is 0 or too large";
    case BGZ_REFUSED_ORDER:
        return "a range is not ordered: low is not at most high";
    case BGZ_REFUSED_RADIUS:
        return "a radius is not at least 0";
    case BGZ_REFUSED_NAN_LENGTH:
        return "a length to the turned box is NaN";
    case BGZ_REFUSED_NO_IMAGE:
        return "a corner has no image";
    case BGZ_REFUSED_INDEX:
        return "an index is not below the number of boxes";
    case BGZ_REFUSED_MARK:
        return "a hatch list does not begin with its mark";
    case BGZ_REFUSED_VERSION:
        return "a hatch list has an unknown version";
    case BGZ_REFUSED_COUNT:
        return "a hatch list has too many records";
    case BGZ_REFUSED_LENGTH:
        return "the bytes of a hatch list are too few or too many";
    case BGZ_REFUSED_LINES:
        return "a list of lines is not a multiple of four floats";
    case BGZ_REFUSED_NOT_FINITE:
        return "a coordinate of a stroke is not finite";
    case BGZ_REFUSED_NAN_PROJECTION:
        return "a corner's projection is NaN on an axis that is reached, whether it separates the boxes or not";
    case BGZ_REFUSED_CORNER:
        return "the number of a corner is above 7";
    case BGZ_NONE:
        return "no refusal, and none of what was asked for";
    default:
        return "not a status of this library";
    }
}

/* ---- the edge by which a line comes in */

/* Compare hit.edge == BGZ_EDGE_LEFT, or switch over (enum bgz_edge)hit.edge. Of a face it is (enum bgz_edge)(int)out[3]. */
enum bgz_edge {
    BGZ_EDGE_NONE = 0,   /* no edge: of a miss, or where the interval starts at the lowest finite number */
    BGZ_EDGE_LEFT = 1,   /* the edge at min_x */
    BGZ_EDGE_RIGHT = 2,  /* the edge at max_x */
    BGZ_EDGE_LOWER = 3,  /* the edge at min_y */
    BGZ_EDGE_UPPER = 4,  /* the edge at max_y */
    BGZ_EDGE_NEAR = 5,   /* the face at min_z */
    BGZ_EDGE_FAR = 6     /* the face at max_z */
};

/* ---- shapes, and other results of several numbers */

/* A point or a vector. */
typedef struct bgz_vec2 {
    float x;  /* Grows with the column. */
    float y;  /* Grows with the row. */
} bgz_vec2;

/* A point or a vector of space. */
typedef struct bgz_vec3 {
    float x;  /* Along the first axis. */
    float y;  /* Along the second axis. */
    float z;  /* Along the third axis. */
} bgz_vec3;

/* The numbers from low to high. */
typedef struct bgz_range {
    float low;   /* The least number. */
    float high;  /* The greatest number. */
} bgz_range;

/* An upright box: an axis-aligned bounding box by its low and its high corner. */
typedef struct bgz_aabb2 {
    float min_x;  /* x of the low corner. */
    float min_y;  /* y of the low corner. */
    float max_x;  /* x of the high corner. */
    float max_y;  /* y of the high corner. */
} bgz_aabb2;

/* An upright box of space: an axis-aligned bounding box by its low and its high corner. */
typedef struct bgz_aabb3 {
    float min_x;  /* x of the low corner. */
    float min_y;  /* y of the low corner. */
    float min_z;  /* z of the low corner. */
    float max_x;  /* x of the high corner. */
    float max_y;  /* y of the high corner. */
    float max_z;  /* z of the high corner. */
} bgz_aabb3;

/* A turned box: an oriented bounding box by its centre and two half edges, u and v. */
typedef struct bgz_obb2 {
    float cx;  /* x of the centre. */
    float cy;  /* y of the centre. */
    float ux;  /* x of the half edge u. */
    float uy;  /* y of the half edge u. */
    float vx;  /* x of the half edge v. */
    float vy;  /* y of the half edge v. */
} bgz_obb2;

/* A turned box of space: an oriented bounding box by its centre and three half edges, u, v and w. */
typedef struct bgz_obb3 {
    float cx;  /* x of the centre. */
    float cy;  /* y of the centre. */
    float cz;  /* z of the centre. */
    float ux;  /* x of the half edge u. */
    float uy;  /* y of the half edge u. */
    float uz;  /* z of the half edge u. */
    float vx;  /* x of the half edge v. */
    float vy;  /* y of the half edge v. */
    float vz;  /* z of the half edge v. */
    float wx;  /* x of the half edge w. */
    float wy;  /* y of the half edge w. */
    float wz;  /* z of the half edge w. */
} bgz_obb3;

/* A 3 by 3 matrix in column-major order: mRC stands in row R and column C. */
typedef struct bgz_mat3 {
    float m00;  /* Row 0, column 0. */
    float m10;  /* Row 1, column 0. */
    float m20;  /* Row 2, column 0. */
    float m01;  /* Row 0, column 1. */
    float m11;  /* Row 1, column 1. */
    float m21;  /* Row 2, column 1. */
    float m02;  /* Row 0, column 2. */
    float m12;  /* Row 1, column 2. */
    float m22;  /* Row 2, column 2. */
} bgz_mat3;

/* A square root, and how many of its binary digits were worked. */
typedef struct bgz_sqrt_digits {
    float root;       /* The root rounded to the nearest float; a NaN where there is none. */
    uint32_t digits;  /* Up to the last 1 of an exact root, 24 of any other; 0 where none is worked. */
} bgz_sqrt_digits;

/* A point of an edge, and its ratio along the edge. */
typedef struct bgz_on_edge {
    float ratio;     /* 0 at the first end, 1 at the second. */
    bgz_vec2 point;  /* Where it is. */
} bgz_on_edge;

/* Four corners, each joined to the next by an edge, and the last to the first. */
typedef struct bgz_corners {
    bgz_vec2 p0;  /* c + u + v. */
    bgz_vec2 p1;  /* c - u + v. */
    bgz_vec2 p2;  /* c - u - v. */
    bgz_vec2 p3;  /* c + u - v. */
} bgz_corners;

/*
 * Eight corners of space: four of one face, each joined to the next by an edge and the last to the first, then those of
 * the opposite face in the same order.
 */
typedef struct bgz_corners3 {
    bgz_vec3 p0;  /* c - u - v - w. */
    bgz_vec3 p1;  /* c + u - v - w. */
    bgz_vec3 p2;  /* c + u + v - w. */
    bgz_vec3 p3;  /* c - u + v - w. */
    bgz_vec3 p4;  /* c - u - v + w. */
    bgz_vec3 p5;  /* c + u - v + w. */
    bgz_vec3 p6;  /* c + u + v + w. */
    bgz_vec3 p7;  /* c - u + v + w. */
} bgz_corners3;

/* ---- answers */

/* A number. */
typedef struct bgz_float_answer {
    uint32_t status;
    float value;
} bgz_float_answer;

/* A point. */
typedef struct bgz_point_answer {
    uint32_t status;
    bgz_vec2 value;
} bgz_point_answer;

/* A point of space. */
typedef struct bgz_point3_answer {
    uint32_t status;
    bgz_vec3 value;
} bgz_point3_answer;

/* An upright box. */
typedef struct bgz_box_answer {
    uint32_t status;
    bgz_aabb2 value;
} bgz_box_answer;

/* An upright box of space. */
typedef struct bgz_box3_answer {
    uint32_t status;
    bgz_aabb3 value;
} bgz_box3_answer;

/* Yes or no. */
typedef struct bgz_bool_answer {
    uint32_t status;
    bool value;
} bgz_bool_answer;

/* The stretch of a line or a ray in a box, by the parameters t of its two ends: the points origin + t * direction. */
typedef struct bgz_interval_answer {
    uint32_t status;
    float tmin;       /* Where it begins. */
    float tmax;       /* Where it ends. */
    uint32_t edge;    /* The edge by which the line comes in at tmin, or none, of enum bgz_edge. */
} bgz_interval_answer;

/* Columns from x0 up to and without x1, rows from y0 up to and without y1. */
typedef struct bgz_pixels_answer {
    uint32_t status;
    size_t x0;        /* The first column. */
    size_t y0;        /* The first row. */
    size_t x1;        /* The column after the last. */
    size_t y1;        /* The row after the last. */
} bgz_pixels_answer;

/* How many entries: those written, or the most that there can be. */
typedef struct bgz_count_answer {
    uint32_t status;
    size_t count;
    size_t place;     /* The place of a refusal that tells one, and else 0. */
} bgz_count_answer;

/* The ink of a stroke: a length. */
typedef struct bgz_ink_answer {
    uint32_t status;
    float value;
    size_t place;     /* The place of a refusal that tells one, and else 0. */
} bgz_ink_answer;

/* The version of a hatch list, and how many records were read. */
typedef struct bgz_read_answer {
    uint32_t status;
    size_t version;   /* The version. */
    size_t count;     /* The number of records. */
    size_t place;     /* The byte of a refusal, and else 0. */
} bgz_read_answer;

/* The length of a merged hatch list. */
typedef struct bgz_merge_answer {
    uint32_t status;
    size_t count;     /* The number of bytes. */
    size_t list;      /* The list of a refusal, 1 or 2, and else 0. */
    size_t place;     /* The byte of a refusal, and else 0. */
} bgz_merge_answer;

/* ---- f32: float helpers. */

/*
 * The absolute value: the sign is dropped, that of -0 too.
 * Example: -1.5 gives 1.5.
 */
float bgz_f32_abs(float x);

/*
 * The smaller of two numbers. Of two zeros it is the first, and of a NaN and a number the number.
 * Example: 2, -1 gives -1.
 */
float bgz_f32_min(float a, float b);

/*
 * The larger of two numbers. Of two zeros it is the first, and of a NaN and a number the number.
 * Example: 2, -1 gives 2.
 */
float bgz_f32_max(float a, float b);

/*
 * low if x is below low, else high if x is above high, else x, a NaN too. Any low and high are taken.
 * Example: 5, 0, 1 gives 1.
 */
float bgz_f32_clamp(float x, float low, float high);

/*
 * The greatest whole number that is not above x. The sign is kept, that of a zero too; a NaN and an infinity give
 * themselves.
 * Example: -1.5 gives -2.
 */
float bgz_f32_floor(float x);

/*
 * The least whole number that is not below x. The sign is kept, so -0.5 gives -0; a NaN and an infinity give
 * themselves.
 * Example: 1.25 gives 2.
 */
float bgz_f32_ceil(float x);

/*
 * x cut toward zero to an integer and held from -2^31 to 2^31 - 1; 0 for a NaN.
 * Example: -1.75 gives -1.
 */
int32_t bgz_f32_to_i32(float x);

/*
 * x cut toward zero to an integer and held from 0 to 2^32 - 1; 0 for a NaN.
 * Example: 1.75 gives 1.
 */
uint32_t bgz_f32_to_u32(float x);

/*
 * x cut toward zero to an integer and held from 0 to 2^64 - 1; 0 for a NaN.
 * Example: -1.75 gives 0.
 */
size_t bgz_f32_to_usize(float x);

/*
 * The float nearest to the square root. A zero and +infinity give themselves; an x below 0 and a NaN give a NaN.
 * Example: 2.25 gives 1.5.
 */
float bgz_f32_sqrt(float x);

/*
 * The square root as bgz_f32_sqrt gives it, and how many of its binary digits were worked, from the leading 1: up to
 * the last 1 of an exact root, at most 12 of them, and 24 of any other. 0 for a NaN, a zero, an infinity and an x below
 * 0.
 * Example: 6.25 gives (2.5, 3).
 */
bgz_sqrt_digits bgz_f32_sqrt_digits(float x);

/* ---- range: ranges of numbers. */

/*
 * The gap between two ranges. None if they touch or overlap.
 * Refused: BGZ_REFUSED_ORDER if a or b is not low <= high, as with a NaN.
 * Example: (0, 1), (3, 5) gives 2.
 */
bgz_float_answer bgz_range_distance_to_range(bgz_range a, bgz_range b);

/*
 * The length that two ranges share. None if they touch or lie apart; a range of one point strictly inside the other
 * gives 0.
 * Refused: BGZ_REFUSED_ORDER if a or b is not low <= high, as with a NaN.
 * Example: (0, 4), (3, 5) gives 1.
 */
bgz_float_answer bgz_range_intersection_length(bgz_range a, bgz_range b);

/* ---- vec2: points and vectors. */

/*
 * a - b, by component.
 * Example: (3, 4), (1, 1) gives (2, 3).
 */
bgz_vec2 bgz_vec2_sub(bgz_vec2 a, bgz_vec2 b);

/*
 * a.x * b.x + a.y * b.y.
 * Example: (1, 2), (3, 4) gives 11.
 */
float bgz_vec2_dot(bgz_vec2 a, bgz_vec2 b);

/*
 * p.x * p.x + p.y * p.y.
 * Example: (3, 4) gives 25.
 */
float bgz_vec2_squared_length(bgz_vec2 p);

/*
 * The square root of the squared length, which may overflow to infinity or underflow to 0.
 * Example: (3, 4) gives 5.
 */
float bgz_vec2_length(bgz_vec2 p);

/* ---- mat3: transforms. */

/*
 * The image of p: m times (p.x, p.y, 1), divided by its third component. None if that component, as computed, is a
 * zero.
 * Example: (1, 0, 0, 0, 1, 0, 2, 3, 1), (4, 5) gives (6, 8).
 */
bgz_point_answer bgz_mat3_transform_homogeneous(bgz_mat3 m, bgz_vec2 p);

/* ---- edge2: edges, and pen strokes along them. */

/*
 * The length of the edge from s to e.
 * Example: (0, 0), (3, 4) gives 5.
 */
float bgz_edge2_length(bgz_vec2 s, bgz_vec2 e);

/*
 * The squared length of the edge from s to e.
 * Example: (0, 0), (3, 4) gives 25.
 */
float bgz_edge2_squared_length(bgz_vec2 s, bgz_vec2 e);

/*
 * The direction from s to e: e - s times 1 / length. An edge whose computed length is 0 gives infinities or NaN, and
 * one whose length overflows zeros or NaN.
 * Example: (0, 0), (0, 2) gives (0, 1).
 */
bgz_vec2 bgz_edge2_unit_edge_vector(bgz_vec2 s, bgz_vec2 e);

/*
 * (1 - ratio) * p0 + ratio * p1. With finite ends it is p0 at 0 and p1 at 1, but for the sign of a zero. Any ratio is
 * taken.
 * Example: (0, 0), (4, 8), 0.25 gives (1, 2).
 */
bgz_vec2 bgz_edge2_position_from_ratio(bgz_vec2 p0, bgz_vec2 p1, float ratio);

/*
 * The dot product of pe - ps and q, divided by the length of pe - ps. This is del-geo-core's formula: q is measured
 * from the origin and not from ps, and the result is a length and not a ratio.
 * Example: (0, 0), (4, 0), (3, 1) gives 3.
 */
float bgz_edge2_ratio_from_position(bgz_vec2 ps, bgz_vec2 pe, bgz_vec2 q);

/*
 * Whether the upright boxes of two edges come as near as a slack, which is 2^-23 times the sum of both edges' extents
 * in x and y. No exactly if in x or in y the high end of one, with the slack added, is below the low end of the other,
 * as computed. Where the answer is no, the edges do not cross. A NaN or an infinite slack parts nothing.
 * Example: (0, 0), (1, 1), (2, 2), (3, 3) gives false.
 */
bool bgz_edge2_culling_intersection(bgz_vec2 s0, bgz_vec2 e0, bgz_vec2 s1, bgz_vec2 e1);

/*
 * The point of the edge from s to e that is nearest to (0, 0), with its ratio, but for rounding. An edge whose computed
 * squared length is 0 gives its midpoint, with ratio 0.5. Where that squared length overflows, the point may be a NaN
 * or another than the nearest.
 * Example: (-1, 1), (1, 1) gives (0.5, (0, 1)).
 */
bgz_on_edge bgz_edge2_nearest_origin(bgz_vec2 s, bgz_vec2 e);

/*
 * The point of the edge from s to e that is nearest to p, with its ratio, but for rounding: it is what
 * bgz_edge2_nearest_origin gives for the edge from s - p to e - p, with p added. These differences are rounded first,
 * so for a p that is far from a short edge the point may lie off the edge: (10, 10), (11, 10), (1e8, 10) gives (0.5,
 * (8, 10)).
 * Example: (0, 0), (4, 0), (1, 5) gives (0.25, (1, 0)).
 */
bgz_on_edge bgz_edge2_nearest_to_point(bgz_vec2 s, bgz_vec2 e, bgz_vec2 p);

/*
 * The length of the edge from s to e in the box b, as del-geo-core takes it: the diagonal of what the box's range and
 * the range between the ends share in x and in y. 0 if they share nothing in x, or nothing in y. It is the exact length
 * only where the edge runs from corner to corner of what is shared: it may be above 0 for an edge that misses the box,
 * and is 0 for one that only runs along an edge of the box. Where a coordinate of one end is a NaN, the other end's
 * counts for both.
 * Refused: BGZ_REFUSED_ORDER if in x the box is not low <= high, as with a NaN, or both ends are NaN; then, unless x
 * shares nothing, the same in y.
 * Example: (0, 0), (3, 4), (0, 0, 3, 4) gives 5.
 */
bgz_float_answer bgz_edge2_intersection_length_against_aabb2(bgz_vec2 s, bgz_vec2 e, bgz_aabb2 b);

/*
 * The ink that the stroke from p0 to p1 leaves in the box b: the length of what it draws there. The stroke's line is
 * clipped against the box, as by bgz_aabb_intersections_against_line with the origin p0 and the direction p1 - p0. The
 * interval is bounded to 0..1. The ink is the bgz_edge2_length between the positions that bgz_edge2_position_from_ratio
 * gives for the interval's two ends. It is 0 if the line misses the box or the bounding leaves nothing. It is finite
 * and not below 0. With both ends in the box, edges included, it is exactly the stroke's bgz_edge2_length, with no
 * further rounding. With both ends beyond one edge of the box it is 0. Equal ends are not refused: their ink is 0.
 * Otherwise the two positions are rounded, so that the ink may differ from the exact length, and may be above the
 * stroke's own. No bound on this is proved. The most that a search by running found is 0.0493 from the exact length,
 * for (-65304.58, -64553.074), (64146.25, 65250.32), (-65536, -31735.12, 65536, 61723.89), and 1/64 above the stroke's
 * bgz_edge2_length, for (-64281.117, 35206.668), (64216.21, 62848.684), (-64281.113, 0, 65536, 65536). Coordinates half
 * as large halve both.
 * Refused: BGZ_REFUSED_NOT_FINITE if of the coordinates p0.x, p0.y, p1.x, p1.y the first that offends is not finite,
 * BGZ_REFUSED_COORDINATE if it is above 65,536 in size; then BGZ_REFUSED_ORDER if in x the box is not low <= high, as
 * with a NaN, then the same in y.
 * Place: that of bgz_edge2_overlapping_pixels_dda.
 * Example: (0, 0), (4, 3), (0, 0, 2, 3) gives 2.5.
 */
bgz_ink_answer bgz_edge2_ink(bgz_vec2 p0, bgz_vec2 p1, bgz_aabb2 b);

/*
 * The pixels along the stroke from p0 to p1, in an image of width by height pixels; a side may be 0. They are the
 * pixels of positions a step apart: one that the stroke only crosses between two positions is left out. A walk starts
 * at p0. Each step adds the difference of the ends divided by the larger absolute difference, signs kept. The walk goes
 * on while x and y lie within the ends' ranges, widened by 2^-23 and rounded. Each position in the image enters row *
 * width + column. The first position outside the ranges enters likewise, as a closing entry: there is always one, and
 * it is the last. A negative coordinate counts as 0 there. The closing entry may name a pixel of the image that the
 * stroke does not come to. It may also be the pixel of p1: (0.5, 0.5), (3.5, 2.5) in 8 by 8 gives 0, 9, 10 and the
 * closing entry 19, in which p1 lies. For each step is rounded, and the errors add up: the walk can leave the ranges
 * long before p1, or end in another row or column than p1. From (0.5, 16000) to (15000.5, 16009) in 16384 by 16384 it
 * ends in column 9216, and from (0.5, 16000) to (15000.5, 16006) it stays in row 16000.
 * Writes the entries to the start of list and answers how many: never more than bgz_edge2_pixels_bound answers, so a
 * list of that length is never too short.
 * Refused: BGZ_REFUSED_SIZE if width or height is above 16,384; of the coordinates p0.x, p0.y, p1.x, p1.y the first
 * that offends decides: BGZ_REFUSED_NOT_FINITE if it is not finite, BGZ_REFUSED_COORDINATE if it is above 65,536 in
 * size; BGZ_REFUSED_SAME_ENDS if p0 equals p1; BGZ_REFUSED_ROOM if list is shorter than the entries.
 * Place: BGZ_REFUSED_NOT_FINITE and BGZ_REFUSED_COORDINATE tell which coordinate, 0 to 3 in that order; the others tell
 * none.
 * Example: 8, 4, (1.5, 1.5), (3.5, 1.5), [0; 6] gives 4 and leaves [9, 10, 11, 12, 0, 0].
 */
bgz_count_answer bgz_edge2_overlapping_pixels_dda(size_t width, size_t height, bgz_vec2 p0, bgz_vec2 p1, uint32_t *list,
                                                  size_t list_length);

/*
 * The pixels along the stroke from p0 to p1, in an image of width by height pixels; a side may be 0. They are the
 * entries of bgz_edge2_overlapping_pixels_dda without the closing one. Each is row * width + column of a position of
 * the walk that lies in the image: the row is below height and the column below width. The last pixels before p1, that
 * of p1 among them, may be missing, or lie in another row or column, since the walk's rounding adds up: (0.5, 0.5),
 * (3.5, 2.5) in 8 by 8 gives 0, 9, 10, and not 19, in which p1 lies. How far that goes for a long stroke stands with
 * bgz_edge2_overlapping_pixels_dda.
 * Writes the entries to the start of list and answers how many: always fewer than bgz_edge2_pixels_bound answers, so a
 * list that is shorter than that by one is never too short.
 * Refused: BGZ_REFUSED_SIZE if width or height is above 16,384; of the coordinates p0.x, p0.y, p1.x, p1.y the first
 * that offends decides: BGZ_REFUSED_NOT_FINITE if it is not finite, BGZ_REFUSED_COORDINATE if it is above 65,536 in
 * size; BGZ_REFUSED_SAME_ENDS if p0 equals p1; BGZ_REFUSED_ROOM if list is shorter than the entries.
 * Place: that of bgz_edge2_overlapping_pixels_dda.
 * Example: 8, 4, (1.5, 1.5), (3.5, 1.5), [0; 6] gives 3 and leaves [9, 10, 11, 0, 0, 0].
 */
bgz_count_answer bgz_edge2_pixels_inside(size_t width, size_t height, bgz_vec2 p0, bgz_vec2 p1, uint32_t *list,
                                         size_t list_length);

/*
 * How many entries the stroke from p0 to p1 makes at most in an image of width by height pixels, the closing one among
 * them. It is 2 * D + 2, or one more than the longer of width and height if that is less. D is the larger of the exact
 * differences between the ends in x and in y, not as floats round them, then rounded up to a whole number. A list of
 * this length is never too short for bgz_edge2_overlapping_pixels_dda. One that is shorter by one is never too short
 * for bgz_edge2_pixels_inside.
 * Refused: BGZ_REFUSED_SIZE if width or height is above 16,384; of the coordinates p0.x, p0.y, p1.x, p1.y the first
 * that offends decides: BGZ_REFUSED_NOT_FINITE if it is not finite, BGZ_REFUSED_COORDINATE if it is above 65,536 in
 * size; BGZ_REFUSED_SAME_ENDS if p0 equals p1.
 * Place: that of bgz_edge2_overlapping_pixels_dda.
 * Example: 64, 64, (0, 0), (2.5, 1) gives 8.
 */
bgz_count_answer bgz_edge2_pixels_bound(size_t width, size_t height, bgz_vec2 p0, bgz_vec2 p1);

/* ---- aabb: upright boxes: clipping lines, and what is inside. */

/*
 * The stretch of the line origin + t * direction in the box b, edges included: from tmin to tmax, tmin <= tmax, both
 * finite. None if the line misses b. The t at which the line meets an edge is (edge - origin) / direction, as computed:
 * rounding can turn a touched corner into a miss, and a narrow miss into a hit. t keeps its sign: a line may be in the
 * box only at negative t. It is held to the finite numbers, -3.4028235e38 to 3.4028235e38: where nothing bounds t these
 * two are the answer, and a line that is in the box only beyond them misses it. Where a component of direction is a
 * zero, that dimension has no t, and only tests that origin is not outside. An edge whose t is a NaN drops out: that
 * dimension has the opposite edge's t alone. Where both drop out, as with a NaN in origin or direction, that dimension
 * bounds nothing. A box reversed in a dimension is taken as ordered there, unless that component of direction is a
 * zero. The edge is the one by which the line comes in: BGZ_EDGE_LEFT at min_x, BGZ_EDGE_RIGHT at max_x, BGZ_EDGE_LOWER
 * at min_y or BGZ_EDGE_UPPER at max_y. It is BGZ_EDGE_NONE if tmin is -3.4028235e38. Else it is an edge of x if the
 * smaller t of x equals tmin, and if not, one of y: the edge with that t, and where both have it, the one at min_x or
 * min_y. In a box reversed in x the edge at min_x is on the side of the larger x. Where origin is far from the box,
 * rounding can make two t equal, and so tell the edge at min_x for the one at max_x, or an edge of x for one of y.
 * Example: (0, 0, 4, 2), (6, -1), (-1, 1) gives (2, 3, BGZ_EDGE_RIGHT).
 */
bgz_interval_answer bgz_aabb_intersections_against_line(bgz_aabb2 b, bgz_vec2 origin, bgz_vec2 direction);

/*
 * The line's answer, its edge too, if tmax >= 0, and else none. tmin is not raised to 0: it may be negative, and the
 * edge then lies behind the origin.
 * Example: (0, 0, 4, 2), (2, 1), (1, 0) gives (-2, 2, BGZ_EDGE_LEFT).
 */
bgz_interval_answer bgz_aabb_intersections_against_ray(bgz_aabb2 b, bgz_vec2 origin, bgz_vec2 direction);

/*
 * Every line of a list against the box b, a whole face in one call: each is answered as by
 * bgz_aabb_intersections_against_line, bit for bit. In lines a line is four floats, BGZ_LINE_FLOATS: x and y of its
 * origin, x and y of its direction. It gives four, BGZ_LINE_RESULT_FLOATS: 1, tmin, tmax and the number of the edge for
 * a hit, or 0, 0, 0 and 0 for a miss; a hit may have the interval from 0 to 0 too. The numbers are 0 for BGZ_EDGE_NONE,
 * 1 for BGZ_EDGE_LEFT, 2 for BGZ_EDGE_RIGHT, 3 for BGZ_EDGE_LOWER and 4 for BGZ_EDGE_UPPER. Both lengths count floats,
 * not lines. There may be any number of lines, none too.
 * Writes what the lines give, in their order, to the start of out and answers how many floats that is, four a line.
 * Refused: BGZ_REFUSED_LINES if the length of lines is not a multiple of 4; BGZ_REFUSED_ROOM if out has fewer than four
 * floats a line.
 * Example: (0, 0, 4, 2), [6, -1, -1, 1, 6, -1, 1, 1], [9; 10] gives 8 and leaves [1, 2, 3, 2, 0, 0, 0, 0, 9, 9].
 */
bgz_count_answer bgz_aabb_intersections_against_lines(bgz_aabb2 b, const float *lines, size_t lines_length, float *out,
                                                      size_t out_length);

/*
 * Whether p is in b, edges included. With a NaN in p or in b it is not.
 * Example: (0, 0, 4, 2), (4, 1) gives true.
 */
bool bgz_aabb_is_include_point(bgz_aabb2 b, bgz_vec2 p);

/*
 * (low + high) * 0.5, by component.
 * Example: (0, 0, 4, 2) gives (2, 1).
 */
bgz_vec2 bgz_aabb_center(bgz_aabb2 b);

/* ---- aabb2: upright boxes: making, changing and measuring them, their pixels and tiles, and flat lists of them. */

/*
 * The box from p - radius to p + radius.
 * Refused: BGZ_REFUSED_RADIUS if radius is not at least 0, as with a NaN.
 * Example: (3, 4), 1 gives (2, 3, 4, 5).
 */
bgz_box_answer bgz_aabb2_from_point(bgz_vec2 p, float radius);

/*
 * The box from the minimum of p - radius and q - radius to the maximum of p + radius and q + radius, by component. Any
 * radius is taken: one below 0 can reverse the box.
 * Example: (0, 0), (3, 1), 1 gives (-1, -1, 4, 2).
 */
bgz_aabb2 bgz_aabb2_from_two_points(bgz_vec2 p, bgz_vec2 q, float radius);

/*
 * The box around two boxes: the minimum of the low corners and the maximum of the high ones, by component.
 * Example: (0, 0, 1, 1), (2, -1, 3, 0) gives (0, -1, 3, 1).
 */
bgz_aabb2 bgz_aabb2_from_two_aabbs(bgz_aabb2 a, bgz_aabb2 b);

/*
 * b widened to hold the box from p - radius to p + radius, by minimum and maximum. A NaN is dropped.
 * Refused: BGZ_REFUSED_RADIUS if radius is not at least 0, as with a NaN.
 * Example: (0, 0, 1, 1), (3, 0), 0 gives (0, 0, 3, 1).
 */
bgz_box_answer bgz_aabb2_add_point(bgz_aabb2 b, bgz_vec2 p, float radius);

/*
 * The pixels of an image of width by height whose centres lie in b, low edge in and high edge out. x0 and y0 are not
 * held to the image: where x0 is not below x1, or y0 not below y1, there are none. A NaN at a low end counts as 0, and
 * one at a high end as the whole side. A side may be 0.
 * Refused: BGZ_REFUSED_SIZE if width or height is above 16,384.
 * Example: (0.25, 0.25, 2.5, 1.75), 8, 8 gives (0, 0, 2, 2).
 */
bgz_pixels_answer bgz_aabb2_rasterize(bgz_aabb2 b, size_t width, size_t height);

/*
 * The same as bgz_aabb_center.
 * Example: (0, 0, 4, 2) gives (2, 1).
 */
bgz_vec2 bgz_aabb2_center(bgz_aabb2 b);

/*
 * The longer of the two sides, high - low. A NaN is dropped, as by maximum.
 * Example: (0, 0, 4, 2) gives 4.
 */
float bgz_aabb2_max_edge_size(bgz_aabb2 b);

/*
 * The box around the images of the four corners of b under m. A coordinate that is a NaN is left out. Where all four
 * are, the box goes from +infinity to -infinity in that dimension.
 * Refused: BGZ_REFUSED_NO_IMAGE if a corner has none: see bgz_mat3_transform_homogeneous.
 * Example: (0, 0, 1, 1), (2, 0, 0, 0, 2, 0, 1, 0, 1) gives (1, 0, 3, 2).
 */
bgz_box_answer bgz_aabb2_transform_homogeneous(bgz_aabb2 b, bgz_mat3 m);

/*
 * The transform that scales both axes by 1 / (the longer side) and takes the centre of b to (0.5, 0.5). It takes b into
 * the unit square, but for rounding, where b is not reversed and the nine numbers are finite. A longer side of 0 gives
 * infinities or NaN.
 * Example: (0, 0, 4, 2) gives (0.25, 0, 0, 0, 0.25, 0, 0, 0.25, 1).
 */
bgz_mat3 bgz_aabb2_to_transformation_world2unit_ortho_preserve_asp(bgz_aabb2 b);

/*
 * The same as bgz_aabb_is_include_point.
 * Example: (0, 0, 4, 2), (5, 1) gives false.
 */
bool bgz_aabb2_is_include_point2(bgz_aabb2 b, bgz_vec2 p);

/*
 * Whether the square from p - radius to p + radius overlaps b: in x and in y, as computed, radius is above how far p
 * lies from the middle of b, less half the length of b. Touching is not overlapping. A dimension in which that is a NaN
 * parts nothing; where it is one in both, or radius is one, the answer is false.
 * Example: (0, 0, 4, 2), (5, 1), 2 gives true.
 */
bool bgz_aabb2_is_intersect_square(bgz_aabb2 b, bgz_vec2 p, float radius);

/*
 * The point of b that is nearest to p; p itself if it is in b. A NaN in p is kept.
 * Refused: BGZ_REFUSED_ORDER if b is not low <= high in x, then in y, as with a NaN.
 * Example: (0, 0, 4, 2), (6, 1) gives (4, 1).
 */
bgz_point_answer bgz_aabb2_nearest_point2(bgz_aabb2 b, bgz_vec2 p);

/*
 * The signed distance from p to the edge of b: positive outside, negative inside, but for rounding, if b is not
 * reversed and the sum of its corners is finite in x and in y. A NaN is dropped, as by maximum.
 * Example: (0, 0, 4, 2), (7, 6) gives 5.
 */
float bgz_aabb2_sdf(bgz_aabb2 b, bgz_vec2 p);

/*
 * b with its sides s times as long, about its centre. Ends are rounded, and may overflow. A negative s exchanges the
 * low and the high ends.
 * Example: (0, 0, 4, 2), 2 gives (-2, -1, 6, 3).
 */
bgz_aabb2 bgz_aabb2_scale(bgz_aabb2 b, float s);

/*
 * b moved by t.
 * Example: (0, 0, 4, 2), (1, 1) gives (1, 1, 5, 3).
 */
bgz_aabb2 bgz_aabb2_translate(bgz_aabb2 b, bgz_vec2 t);

/*
 * The tiles that b overlaps, on a sheet of shape_width by shape_height square tiles of side size. Columns go from
 * floor(min_x / size) up to and with floor(max_x / size), each quotient rounded, and rows likewise; those off the sheet
 * are skipped. A tile's number is row * shape_width + column. A tile holds its low edges and not its high ones, so a
 * box that ends on a tile's high edge has the next tile too, if the sheet has one. Where the box is not reversed and
 * each of its coordinates is zero or at least 2^-100 in size, the tiles are the smallest set of the sheet's tiles that
 * covers the box: each point of it that has f32 coordinates and lies on the sheet. A box reversed in x has a column
 * only if both ends lie in it, and likewise a row in y. A side of the shape may be 0.
 * Writes the numbers, rising, to the start of out and answers how many; 0 is an answer too.
 * Refused: BGZ_REFUSED_SIZE if size is 0 or above 4,096, or shape_width or shape_height is above 16,384;
 * BGZ_REFUSED_COORDINATE if a coordinate of b is not finite or is above 1,048,576 in size; BGZ_REFUSED_ROOM if out is
 * shorter than the tiles.
 * Example: (5, 5, 25, 12), 10, 4, 4, [0; 8] gives 6 and leaves [0, 1, 2, 4, 5, 6, 0, 0].
 */
bgz_count_answer bgz_aabb2_overlapping_tiles(bgz_aabb2 b, size_t size, size_t shape_width, size_t shape_height,
                                             uint32_t *out, size_t out_length);

/*
 * How many whole boxes a flat list has: its length / 4, rounded down. Each box is min_x, min_y, max_x, max_y.
 * Example: [0, 0, 1, 1, 2] gives 1.
 */
size_t bgz_aabb2_count(const float *all, size_t all_length);

/*
 * The box at an index of a flat list, from 0.
 * Refused: BGZ_REFUSED_INDEX if index is not below bgz_aabb2_count.
 * Example: [0, 0, 1, 1, 2, 2, 3, 3], 1 gives (2, 2, 3, 3).
 */
bgz_box_answer bgz_aabb2_from_aabbs(const float *all, size_t all_length, size_t index);

/*
 * The first box of a flat list.
 * Refused: BGZ_REFUSED_INDEX if the list has fewer than 4 floats.
 * Example: [0, 0, 1, 1] gives (0, 0, 1, 1).
 */
bgz_box_answer bgz_aabb2_from_slice(const float *s, size_t s_length);

/*
 * b widened where it stands to hold the box from p - radius to p + radius. A NaN is dropped, as by minimum and maximum.
 * Answers the status.
 * Refused: BGZ_REFUSED_RADIUS if radius is not at least 0, as with a NaN; b stays as it was.
 * Example: (0, 0, 1, 1), (3, 0), 0 leaves (0, 0, 3, 1).
 */
uint32_t bgz_aabb2_add_point_lent(bgz_aabb2 *b, bgz_vec2 p, float radius);

/* ---- obb2: turned boxes. */

/*
 * c + u + v, c - u + v, c - u - v, c + u - v.
 * Example: (1, 1, 2, 0, 0, 1) gives ((3, 2), (-1, 2), (-1, 0), (3, 0)).
 */
bgz_corners bgz_obb2_corner_points(bgz_obb2 o);

/*
 * Whether p is in o, edges included, by its dot products with u and v, as computed. Where u and v are at a right angle
 * and no product overflows or underflows, that is the box, but for rounding. Else it is another region. A product that
 * is a NaN counts as inside, and a half edge of length 0 does not bound its direction.
 * Example: (0, 0, 2, 0, 0, 1), (1, 1) gives true.
 */
bool bgz_obb2_is_include_point2(bgz_obb2 o, bgz_vec2 p);

/*
 * p itself if bgz_obb2_is_include_point2 says so; else the nearest of the points that bgz_edge2_nearest_to_point gives
 * for the four edges, the first of equals.
 * Refused: BGZ_REFUSED_NAN_LENGTH if p is not included and its distance to one of the four is a NaN.
 * Example: (0, 0, 2, 0, 0, 1), (5, 0) gives (2, 0).
 */
bgz_point_answer bgz_obb2_nearest_point2(bgz_obb2 o, bgz_vec2 p);

/*
 * Whether two turned boxes meet: no exactly if on some axis across a half edge of a or of b the computed projections of
 * the corners of one lie strictly below those of the other. Ranges whose computed ends are equal overlap. Rounding
 * parts some boxes that touch, and joins some that lie close. The order of a and b does not matter. Across a half edge
 * of length 0 every finite corner projects to 0, so boxes that only that axis would part count as meeting. Projections
 * that are NaN are left out. Where a box has no others on an axis, that axis parts it from the other box, unless that
 * one reaches from -infinity to +infinity there.
 * Example: (0, 0, 1, 0, 0, 1), (3, 0, 1, 0, 0, 1) gives false.
 */
bool bgz_obb2_is_intersect_obb2(bgz_obb2 a, bgz_obb2 b);

/*
 * Whether a turned and an upright box meet: no exactly if on some axis (x, y, and those across u and v) the computed
 * projections of the corners of one lie strictly below those of the other. Ranges whose computed ends are equal
 * overlap. Rounding parts some boxes that touch, and joins some that lie close. Across a half edge of length 0 every
 * finite corner projects to 0, so boxes that only that axis would part count as meeting. Projections that are NaN are
 * left out. Where a box has no others on an axis, that axis parts it from the other box, unless that one reaches from
 * -infinity to +infinity there.
 * Example: (0, 0, 1, 1, -1, 1), (1, 1, 3, 3) gives true.
 */
bool bgz_obb2_is_intersect_aabb2(bgz_obb2 o, bgz_aabb2 b);

/* ---- aabb_3: upright boxes of space: clipping lines, and what is inside. */

/*
 * The stretch of the line origin + t * direction in the box b, as bgz_aabb_intersections_against_line has it, with z
 * after x and y: from tmin to tmax, tmin <= tmax, both finite, faces included. None if the line misses b. Rounding can
 * turn a touched edge or corner into a miss, and a narrow miss into a hit. A line that is in the box only at t beyond
 * the finite numbers misses it. The edge is a face of the box, told by the same rule with z after y: BGZ_EDGE_NEAR at
 * min_z and BGZ_EDGE_FAR at max_z.
 * Example: (0, 0, 0, 4, 2, 1), (6, -1, 0.5), (-1, 1, 0) gives (2, 3, BGZ_EDGE_RIGHT).
 */
bgz_interval_answer bgz_aabb_3_intersections_against_line(bgz_aabb3 b, bgz_vec3 origin, bgz_vec3 direction);

/*
 * Whether p is in b, faces included. With a NaN in p or in b it is not, unlike for bgz_aabb3_is_contain.
 * Example: (0, 0, 0, 4, 2, 1), (4, 1, 1) gives true.
 */
bool bgz_aabb_3_is_include_point(bgz_aabb3 b, bgz_vec3 p);

/*
 * (low + high) * 0.5, by component.
 * Example: (0, 0, 0, 4, 2, 1) gives (2, 1, 0.5).
 */
bgz_vec3 bgz_aabb_3_center(bgz_aabb3 b);

/*
 * The answer of bgz_aabb_3_intersections_against_line, its edge too, if tmax >= 0, and else none. tmin is not raised to
 * 0: it may be negative.
 * Example: (0, 0, 0, 4, 2, 1), (2, 1, 0.5), (1, 0, 0) gives (-2, 2, BGZ_EDGE_LEFT).
 */
bgz_interval_answer bgz_aabb_3_intersections_against_ray(bgz_aabb3 b, bgz_vec3 origin, bgz_vec3 direction);

/*
 * ---- aabb3: upright boxes of space: making, scaling and measuring them, what they hold and meet, and flat lists of
 * them.
 */

/*
 * The box around two boxes: the low end of a where it is below that of b, the high end where it is above that of b, and
 * else the end of b. So a NaN of a drops out, and one of b stays.
 * Example: (0, 0, 0, 1, 1, 1), (2, -1, 0, 3, 0, 2) gives (0, -1, 0, 3, 1, 2).
 */
bgz_aabb3 bgz_aabb3_from_two_aabbs(bgz_aabb3 a, bgz_aabb3 b);

/*
 * The cube from p - eps to p + eps. Any eps is taken.
 * Example: (3, 4, 5), 1 gives (2, 3, 4, 4, 5, 6).
 */
bgz_aabb3 bgz_aabb3_set_as_cube(bgz_vec3 p, float eps);

/*
 * b widened to the low ends p - eps and the high ends p + eps, by minimum and maximum. A NaN is dropped. Any eps is
 * taken: with one below 0 the box need not hold p.
 * Example: (0, 0, 0, 1, 1, 1), (3, 0, 0), 0 gives (0, 0, 0, 3, 1, 1).
 */
bgz_aabb3 bgz_aabb3_add_point(bgz_aabb3 b, bgz_vec3 p, float eps);

/*
 * (low + high) * 0.5, by component.
 * Example: (0, 0, 0, 4, 2, 1) gives (2, 1, 0.5).
 */
bgz_vec3 bgz_aabb3_center(bgz_aabb3 b);

/*
 * high - low, by component: the lengths of the edges.
 * Example: (0, 0, 0, 4, 2, 1) gives (4, 2, 1).
 */
bgz_vec3 bgz_aabb3_size(bgz_aabb3 b);

/*
 * The box with the centre of b and edges s times as long: the centre's coordinate and, on either side of it, edge * s *
 * 0.5.
 * Example: (0, 0, 0, 4, 2, 2), 2 gives (-2, -1, -1, 6, 3, 3).
 */
bgz_aabb3 bgz_aabb3_scale(bgz_aabb3 b, float s);

/*
 * The product of the edges, x times y times z. The edge of a reversed dimension is negative.
 * Example: (0, 0, 0, 4, 2, 3) gives 24.
 */
float bgz_aabb3_volume(bgz_aabb3 b);

/*
 * The longest edge, by comparisons: that of x if it is above that of y, else that of y; and this if it is above that of
 * z, else that of z. So a NaN in x drops out, one in y drops out and x with it, and one in z is the answer.
 * Example: (0, 0, 0, 4, 2, 3) gives 4.
 */
float bgz_aabb3_max_edge_size(bgz_aabb3 b);

/*
 * The corner of a number, as hexahedra number them: 0 to 3 are low in z, from the low corner along x and round the
 * face; 4 to 7 are high in z and stand over them.
 * Refused: BGZ_REFUSED_CORNER if index is above 7.
 * Example: (0, 0, 0, 4, 2, 1), 6 gives (4, 2, 1).
 */
bgz_point3_answer bgz_aabb3_xyz_from_hex_index(bgz_aabb3 b, size_t index);

/*
 * Whether b is ordered in x, min_x <= max_x. y and z are not looked at.
 * Example: (0, 0, 0, 4, 2, 1) gives true.
 */
bool bgz_aabb3_is_active(bgz_aabb3 b);

/*
 * Whether p is in b, faces included: below no low end and above no high one. A NaN puts nothing outside: a coordinate
 * or an end that is one does not bound its dimension. For bgz_aabb_3_is_include_point a NaN is outside.
 * Example: (0, 0, 0, 4, 2, 1), (4, 1, 1) gives true.
 */
bool bgz_aabb3_is_contain(bgz_aabb3 b, bgz_vec3 p);

/*
 * Whether two boxes meet, faces included: both are ordered in x, and in no dimension the low end of one is above the
 * high end of the other. A NaN in y or z parts nothing.
 * Example: (0, 0, 0, 1, 1, 1), (1, 1, 1, 2, 2, 2) gives true.
 */
bool bgz_aabb3_is_intersect(bgz_aabb3 a, bgz_aabb3 b);

/*
 * The squared distance from p to the nearest point of b, 0 inside: each coordinate is raised to the low end and then
 * lowered to the high one, by minimum and maximum, and the squares of what it moved are summed from 0. In a dimension
 * in which b is reversed the nearest is the high end. A NaN in p gives a NaN, and so does an infinite coordinate that
 * is not moved.
 * Example: (0, 0, 0, 1, 1, 1), (3, 0.5, 0) gives 4.
 */
float bgz_aabb3_min_sq_dist_to_point3(bgz_aabb3 b, bgz_vec3 p);

/*
 * Whether two boxes of space may be no further apart than threshold: no if in x, y or z the gap between them is above
 * it. The first dimension with a no or a refusal decides, in this order. Ranges that touch or overlap have no gap,
 * whatever threshold is; with a NaN threshold no gap is above it.
 * Refused: BGZ_REFUSED_ORDER if a dimension is reached in which the range of a or of b is not low <= high, as with a
 * NaN.
 * Example: (0, 0, 0, 1, 1, 1), (3, 0, 0, 4, 1, 1), 1.5 gives false.
 */
bgz_bool_answer bgz_aabb3_is_possible_distance_to_aabb2_smaller_than_threshold(bgz_aabb3 a, bgz_aabb3 b,
                                                                               float threshold);

/*
 * How many whole boxes a flat list has: its length / 6, rounded down. Each box is min_x, min_y, min_z, max_x, max_y,
 * max_z.
 * Example: [0, 0, 0, 1, 1, 1, 2] gives 1.
 */
size_t bgz_aabb3_count(const float *all, size_t all_length);

/*
 * The box at an index of a flat list, from 0.
 * Refused: BGZ_REFUSED_INDEX if index is not below bgz_aabb3_count.
 * Example: [0, 0, 0, 1, 1, 1, 2, 2, 2, 3, 3, 3], 1 gives (2, 2, 2, 3, 3, 3).
 */
bgz_box3_answer bgz_aabb3_from_aabbs(const float *all, size_t all_length, size_t index);

/*
 * The first box of a flat list: the one at index 0.
 * Refused: BGZ_REFUSED_INDEX if the list has fewer than six floats.
 * Example: [0, 0, 0, 1, 1, 1, 2] gives (0, 0, 0, 1, 1, 1).
 */
bgz_box3_answer bgz_aabb3_from_slice(const float *s, size_t s_length);

/* ---- obb3: turned boxes of space. */

/*
 * c - u - v - w, c + u - v - w, c + u + v - w, c - u + v - w, and the same four with + w.
 * Example: (0, 0, 0, 1, 0, 0, 0, 2, 0, 0, 0, 3) gives ((-1, -2, -3), (1, -2, -3), (1, 2, -3), (-1, 2, -3), (-1, -2, 3),
 * (1, -2, 3), (1, 2, 3), (-1, 2, 3)).
 */
bgz_corners3 bgz_obb3_corner_points(bgz_obb3 o);

/*
 * Whether p is in o, faces included, by its dot products with u, v and w, as computed, each edge stretched by 1 + eps.
 * With an eps of 0, where u, v and w are at right angles and no product overflows or underflows, that is the box, but
 * for rounding. Else it is another region. A product that is a NaN counts as inside, and a half edge of length 0 does
 * not bound its direction.
 * Example: (0, 0, 0, 2, 0, 0, 0, 1, 0, 0, 0, 1), (2, 1, 1), 0 gives true.
 */
bool bgz_obb3_is_include_point(bgz_obb3 o, bgz_vec3 p, float eps);

/*
 * Whether two turned boxes meet: no if on some axis the computed projections of the corners of one lie strictly below
 * those of the other. There are fifteen: u, v and w of a, each times 1 / its norm, those of b, and the cross product of
 * each of these of a with each of b. The first axis that parts the boxes, or on which a projection is a NaN, decides.
 * Ranges whose computed ends are equal overlap. Rounding parts some boxes that touch, and joins some that lie close.
 * Refused: BGZ_REFUSED_NAN_PROJECTION if a projection is a NaN on an axis that is reached, whether it parts the boxes
 * or not; as with a half edge of length 0.
 * Example: (0, 0, 0, 1, 0, 0, 0, 1, 0, 0, 0, 1), (3, 0, 0, 1, 0, 0, 0, 1, 0, 0, 0, 1) gives false.
 */
bgz_bool_answer bgz_obb3_is_intersect_to_obb3(bgz_obb3 a, bgz_obb3 b);

/*
 * ---- hatch: hatch lists, read, written, merged and reported on. The bytes of a hatch list are "HSL", a 16-bit
 * version, which is 1, a 16-bit count n of at most 2,000, and n records of eight floats: box (min_x, min_y, max_x,
 * max_y), origin (x, y), direction (x, y). Little-endian; 7 + 32 n bytes in all. Records are read and written as
 * floats, or as patterns, the bits of the floats, in which a NaN keeps its own.
 */

/*
 * Reads the floats of the records of a hatch list. A float may have any bits; a NaN is read as a NaN, whose bits may
 * differ.
 * Writes the 8 * count floats to the start of out and answers version and count.
 * Refused: BGZ_REFUSED_MARK if the bytes do not begin with "HSL"; BGZ_REFUSED_LENGTH if they are fewer than 7;
 * BGZ_REFUSED_VERSION if the version is not 1; BGZ_REFUSED_COUNT if the count is above 2,000; BGZ_REFUSED_LENGTH if
 * they are not 7 + 32 * count; BGZ_REFUSED_ROOM if out is shorter than 8 * count.
 * Place: a byte, from 0 on: 0 with BGZ_REFUSED_MARK, 3 with BGZ_REFUSED_VERSION, 5 with BGZ_REFUSED_COUNT; with
 * BGZ_REFUSED_LENGTH the number of the bytes if they are too few, and 7 + 32 * count if they are too many; with
 * BGZ_REFUSED_ROOM 7 + 32 * count.
 * Example: "HSL\1\0\0\0", [] gives (1, 0).
 */
bgz_read_answer bgz_hatch_read_floats(const void *bytes, size_t bytes_length, float *out, size_t out_length);

/*
 * bgz_hatch_read_floats with each float as its bits, so that a NaN keeps them.
 * Writes the 8 * count patterns to the start of out and answers version and count.
 * Refused: as bgz_hatch_read_floats is.
 * Place: that of bgz_hatch_read_floats.
 * Example: "HSL\1\0\0\0", [] gives (1, 0).
 */
bgz_read_answer bgz_hatch_read_patterns(const void *bytes, size_t bytes_length, uint32_t *out, size_t out_length);

/*
 * How many records a list of floats has, eight floats each; an incomplete last one does not count.
 * Example: [0, 0, 4, 2, 6, -1, -1, 1, 0] gives 1.
 */
size_t bgz_hatch_record_count(const float *floats, size_t floats_length);

/*
 * A hatch list of version 1 from the bits of its floats, eight a record. The number n of records is the length of
 * patterns / 8, rounded down: an incomplete last record is not written. What is written, bgz_hatch_read_patterns reads
 * as the same records. To save what bgz_hatch_read_patterns read, hand over the 8 * count patterns that it wrote: the
 * bytes are those that it read, also where a float is a NaN.
 * Writes 7 + 32 * n bytes to the start of out and answers how many that is; BGZ_HATCH_BYTES_MAX are room for any.
 * Refused: BGZ_REFUSED_COUNT if n is above 2,000; BGZ_REFUSED_ROOM if out is shorter than 7 + 32 * n.
 * Example: [1, 2, 3, 4, 5, 6, 7, 8], [9; 40] gives 39 and leaves [72, 83, 76, 1, 0, 1, 0, 1, 0, 0, 0, 2, 0, 0, 0, 3, 0,
 * 0, 0, 4, 0, 0, 0, 5, 0, 0, 0, 6, 0, 0, 0, 7, 0, 0, 0, 8, 0, 0, 0, 9].
 */
bgz_count_answer bgz_hatch_write_patterns(const uint32_t *patterns, size_t patterns_length, void *out,
                                          size_t out_length);

/*
 * bgz_hatch_write_patterns from the floats themselves, n records of eight. A NaN is written with the bits 7fc00000,
 * whatever its own are, and every other float with its own bits. What is written, bgz_hatch_read_floats reads as the
 * same records. The floats that it read are written as the bytes that it read if the file's NaNs have the bits
 * 7fc00000; bgz_hatch_read_patterns and bgz_hatch_write_patterns keep the bits of every NaN.
 * Writes 7 + 32 * n bytes to the start of out and answers how many that is.
 * Refused: as bgz_hatch_write_patterns is.
 * Example: [0, 0, 4, 2, 6, -1, -1, 1], [9; 40] gives 39 and leaves [72, 83, 76, 1, 0, 1, 0, 0, 0, 0, 0, 0, 0, 0, 0, 0,
 * 0, 128, 64, 0, 0, 0, 64, 0, 0, 192, 64, 0, 0, 128, 191, 0, 0, 128, 191, 0, 0, 128, 63, 9].
 */
bgz_count_answer bgz_hatch_write_floats(const float *floats, size_t floats_length, void *out, size_t out_length);

/*
 * Two hatch lists merged into one of version 1: the records of first in its order, with its repeats, and then those of
 * second in its order that are neither in first nor earlier in second. Two records are the same if all their bits are:
 * 0 is not -0, and two NaNs are the same only if their bits are. bgz_hatch_read_patterns reads the merged list as these
 * records. If second has no records, the merged list is first, byte for byte. A call takes some 20,300 bytes of the
 * stack.
 * Writes the 7 + 32 * n bytes of the n records to the start of out and answers how many bytes that is. The bytes of
 * first and of second together, less 7, are always room enough, and so are BGZ_HATCH_BYTES_MAX.
 * Refused: first, then second, as bgz_hatch_read_patterns refuses them, but for BGZ_REFUSED_ROOM; BGZ_REFUSED_COUNT if
 * n is above 2,000; BGZ_REFUSED_ROOM if out is shorter than 7 + 32 * n.
 * Place: list is 1 with a refusal of first and 2 with one of second; place is the byte that bgz_hatch_read_patterns
 * tells with BGZ_REFUSED_MARK, BGZ_REFUSED_VERSION, BGZ_REFUSED_COUNT or BGZ_REFUSED_LENGTH. Both are 0 if n is above
 * 2,000 or out is too short.
 * Example: "HSL\1\0\0\0", "HSL\1\0\0\0", [9; 8] gives 7 and leaves [72, 83, 76, 1, 0, 0, 0, 9].
 */
bgz_merge_answer bgz_hatch_merge(const void *first, size_t first_length, const void *second, size_t second_length,
                                 void *out, size_t out_length);

/*
 * The report on a hatch list, as text in ASCII. The first line is "HSL", version and count. Then each record has a line
 * of its own: its place from 1, and what bgz_aabb_intersections_against_line answers for its box, origin and direction:
 * "miss", or "hit" with tmin and tmax, each as the eight lower-case hexadecimal digits of its bits, any zero as
 * 00000000, and the edge as a letter: l for BGZ_EDGE_LEFT, r for BGZ_EDGE_RIGHT, b for BGZ_EDGE_LOWER, t for
 * BGZ_EDGE_UPPER, n for BGZ_EDGE_NONE. Fields stand one space apart, and a line ends in a line feed. For bytes that are
 * no hatch list the only line is "refused", the number of the refusal of bgz_hatch_read_floats, and its byte. Bytes
 * beyond the first BGZ_HATCH_BYTES_MAX + 1 change nothing: they need not be handed over.
 * Writes the text to the start of out, with no NUL after it, and answers its length in bytes. If out is shorter, it is
 * filled with the first bytes of the text, and the answer is still the whole length; BGZ_HATCH_REPORT_MAX are room for
 * any.
 * Example: "HSL\1\0\0\0", [0; 8] gives 8 and leaves "HSL 1 0\n".
 */
size_t bgz_hatch_report(const void *bytes, size_t bytes_length, void *out, size_t out_length);

#ifdef __cplusplus
}
#endif

#endif
