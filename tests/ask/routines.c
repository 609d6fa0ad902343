/* Written by tests/generate from the functions that the Rattle sources export. */
#include "routines.h"
#include "bagnoszyk.h"
#include <string.h>

static void f32_abs(const struct arguments *in, struct answer *out) {
    const float *f = in->floats;
    float r = bgz_f32_abs(f[0]);
    out->status = BGZ_ANSWERED;
    out->values[0].f = r;
}

static void f32_min(const struct arguments *in, struct answer *out) {
    const float *f = in->floats;
    float r = bgz_f32_min(f[0], f[1]);
    out->status = BGZ_ANSWERED;
    out->values[0].f = r;
}

static void f32_max(const struct arguments *in, struct answer *out) {
    const float *f = in->floats;
    float r = bgz_f32_max(f[0], f[1]);
    out->status = BGZ_ANSWERED;
    out->values[0].f = r;
}

static void f32_clamp(const struct arguments *in, struct answer *out) {
    const float *f = in->floats;
    float r = bgz_f32_clamp(f[0], f[1], f[2]);
    out->status = BGZ_ANSWERED;
    out->values[0].f = r;
}

static void f32_floor(const struct arguments *in, struct answer *out) {
    const float *f = in->floats;
    float r = bgz_f32_floor(f[0]);
    out->status = BGZ_ANSWERED;
    out->values[0].f = r;
}

static void f32_ceil(const struct arguments *in, struct answer *out) {
    const float *f = in->floats;
    float r = bgz_f32_ceil(f[0]);
    out->status = BGZ_ANSWERED;
    out->values[0].f = r;
}

static void f32_to_i32(const struct arguments *in, struct answer *out) {
    const float *f = in->floats;
    int32_t r = bgz_f32_to_i32(f[0]);
    out->status = BGZ_ANSWERED;
    out->values[0].i = r;
}

static void f32_to_u32(const struct arguments *in, struct answer *out) {
    const float *f = in->floats;
    uint32_t r = bgz_f32_to_u32(f[0]);
    out->status = BGZ_ANSWERED;
    out->values[0].u = r;
}

static void f32_to_usize(const struct arguments *in, struct answer *out) {
    const float *f = in->floats;
    size_t r = bgz_f32_to_usize(f[0]);
    out->status = BGZ_ANSWERED;
    out->values[0].u = r;
}

static void f32_sqrt(const struct arguments *in, struct answer *out) {
    const float *f = in->floats;
    float r = bgz_f32_sqrt(f[0]);
    out->status = BGZ_ANSWERED;
    out->values[0].f = r;
}

static void f32_sqrt_digits(const struct arguments *in, struct answer *out) {
    const float *f = in->floats;
    bgz_sqrt_digits r = bgz_f32_sqrt_digits(f[0]);
    out->status = BGZ_ANSWERED;
    out->values[0].f = r.root;
    out->values[1].u = r.digits;
}

static void range_distance_to_range(const struct arguments *in, struct answer *out) {
    const float *f = in->floats;
    bgz_float_answer r = bgz_range_distance_to_range((bgz_range){f[0], f[1]}, (bgz_range){f[2], f[3]});
    out->status = r.status;
    out->values[0].f = r.value;
}

static void range_intersection_length(const struct arguments *in, struct answer *out) {
    const float *f = in->floats;
    bgz_float_answer r = bgz_range_intersection_length((bgz_range){f[0], f[1]}, (bgz_range){f[2], f[3]});
    out->status = r.status;
    out->values[0].f = r.value;
}

static void vec2_sub(const struct arguments *in, struct answer *out) {
    const float *f = in->floats;
    bgz_vec2 r = bgz_vec2_sub((bgz_vec2){f[0], f[1]}, (bgz_vec2){f[2], f[3]});
    out->status = BGZ_ANSWERED;
    out->values[0].f = r.x;
    out->values[1].f = r.y;
}

static void vec2_dot(const struct arguments *in, struct answer *out) {
    const float *f = in->floats;
    float r = bgz_vec2_dot((bgz_vec2){f[0], f[1]}, (bgz_vec2){f[2], f[3]});
    out->status = BGZ_ANSWERED;
    out->values[0].f = r;
}

static void vec2_squared_length(const struct arguments *in, struct answer *out) {
    const float *f = in->floats;
    float r = bgz_vec2_squared_length((bgz_vec2){f[0], f[1]});
    out->status = BGZ_ANSWERED;
    out->values[0].f = r;
}

static void vec2_length(const struct arguments *in, struct answer *out) {
    const float *f = in->floats;
    float r = bgz_vec2_length((bgz_vec2){f[0], f[1]});
    out->status = BGZ_ANSWERED;
    out->values[0].f = r;
}

static void mat3_transform_homogeneous(const struct arguments *in, struct answer *out) {
    const float *f = in->floats;
    bgz_point_answer r = bgz_mat3_transform_homogeneous(
        (bgz_mat3){f[0], f[1], f[2], f[3], f[4], f[5], f[6], f[7], f[8]}, (bgz_vec2){f[9], f[10]});
    out->status = r.status;
    out->values[0].f = r.value.x;
    out->values[1].f = r.value.y;
}

static void edge2_length(const struct arguments *in, struct answer *out) {
    const float *f = in->floats;
    float r = bgz_edge2_length((bgz_vec2){f[0], f[1]}, (bgz_vec2){f[2], f[3]});
    out->status = BGZ_ANSWERED;
    out->values[0].f = r;
}

static void edge2_squared_length(const struct arguments *in, struct answer *out) {
    const float *f = in->floats;
    float r = bgz_edge2_squared_length((bgz_vec2){f[0], f[1]}, (bgz_vec2){f[2], f[3]});
    out->status = BGZ_ANSWERED;
    out->values[0].f = r;
}

static void edge2_unit_edge_vector(const struct arguments *in, struct answer *out) {
    const float *f = in->floats;
    bgz_vec2 r = bgz_edge2_unit_edge_vector((bgz_vec2){f[0], f[1]}, (bgz_vec2){f[2], f[3]});
    out->status = BGZ_ANSWERED;
    out->values[0].f = r.x;
    out->values[1].f = r.y;
}

static void edge2_position_from_ratio(const struct arguments *in, struct answer *out) {
    const float *f = in->floats;
    bgz_vec2 r = bgz_edge2_position_from_ratio((bgz_vec2){f[0], f[1]}, (bgz_vec2){f[2], f[3]}, f[4]);
    out->status = BGZ_ANSWERED;
    out->values[0].f = r.x;
    out->values[1].f = r.y;
}

static void edge2_ratio_from_position(const struct arguments *in, struct answer *out) {
    const float *f = in->floats;
    float r = bgz_edge2_ratio_from_position((bgz_vec2){f[0], f[1]}, (bgz_vec2){f[2], f[3]}, (bgz_vec2){f[4], f[5]});
    out->status = BGZ_ANSWERED;
    out->values[0].f = r;
}

static void edge2_culling_intersection(const struct arguments *in, struct answer *out) {
    const float *f = in->floats;
    bool r = bgz_edge2_culling_intersection(
        (bgz_vec2){f[0], f[1]}, (bgz_vec2){f[2], f[3]}, (bgz_vec2){f[4], f[5]}, (bgz_vec2){f[6], f[7]});
    out->status = BGZ_ANSWERED;
    out->values[0].u = r;
}

static void edge2_nearest_origin(const struct arguments *in, struct answer *out) {
    const float *f = in->floats;
    bgz_on_edge r = bgz_edge2_nearest_origin((bgz_vec2){f[0], f[1]}, (bgz_vec2){f[2], f[3]});
    out->status = BGZ_ANSWERED;
    out->values[0].f = r.ratio;
    out->values[1].f = r.point.x;
    out->values[2].f = r.point.y;
}

static void edge2_nearest_to_point(const struct arguments *in, struct answer *out) {
    const float *f = in->floats;
    bgz_on_edge r = bgz_edge2_nearest_to_point((bgz_vec2){f[0], f[1]}, (bgz_vec2){f[2], f[3]}, (bgz_vec2){f[4], f[5]});
    out->status = BGZ_ANSWERED;
    out->values[0].f = r.ratio;
    out->values[1].f = r.point.x;
    out->values[2].f = r.point.y;
}

static void edge2_intersection_length_against_aabb2(const struct arguments *in, struct answer *out) {
    const float *f = in->floats;
    bgz_float_answer r = bgz_edge2_intersection_length_against_aabb2(
        (bgz_vec2){f[0], f[1]}, (bgz_vec2){f[2], f[3]}, (bgz_aabb2){f[4], f[5], f[6], f[7]});
    out->status = r.status;
    out->values[0].f = r.value;
}

static void edge2_ink(const struct arguments *in, struct answer *out) {
    const float *f = in->floats;
    bgz_ink_answer r = bgz_edge2_ink(
        (bgz_vec2){f[0], f[1]}, (bgz_vec2){f[2], f[3]}, (bgz_aabb2){f[4], f[5], f[6], f[7]});
    out->status = r.status;
    out->place = r.place;
    out->values[0].f = r.value;
}

static void edge2_overlapping_pixels_dda(const struct arguments *in, struct answer *out) {
    const float *f = in->floats;
    const uint64_t *u = in->wholes;
    bgz_count_answer r = bgz_edge2_overlapping_pixels_dda(
        u[0], u[1], (bgz_vec2){f[0], f[1]}, (bgz_vec2){f[2], f[3]}, in->lists[0].start, in->lists[0].length);
    out->status = r.status;
    out->place = r.place;
    out->values[0].u = r.count;
}

static void edge2_pixels_inside(const struct arguments *in, struct answer *out) {
    const float *f = in->floats;
    const uint64_t *u = in->wholes;
    bgz_count_answer r = bgz_edge2_pixels_inside(
        u[0], u[1], (bgz_vec2){f[0], f[1]}, (bgz_vec2){f[2], f[3]}, in->lists[0].start, in->lists[0].length);
    out->status = r.status;
    out->place = r.place;
    out->values[0].u = r.count;
}

static void edge2_pixels_bound(const struct arguments *in, struct answer *out) {
    const float *f = in->floats;
    const uint64_t *u = in->wholes;
    bgz_count_answer r = bgz_edge2_pixels_bound(u[0], u[1], (bgz_vec2){f[0], f[1]}, (bgz_vec2){f[2], f[3]});
    out->status = r.status;
    out->place = r.place;
    out->values[0].u = r.count;
}

static void aabb_intersections_against_line(const struct arguments *in, struct answer *out) {
    const float *f = in->floats;
    bgz_interval_answer r = bgz_aabb_intersections_against_line(
        (bgz_aabb2){f[0], f[1], f[2], f[3]}, (bgz_vec2){f[4], f[5]}, (bgz_vec2){f[6], f[7]});
    out->status = r.status;
    out->values[0].f = r.tmin;
    out->values[1].f = r.tmax;
    out->values[2].u = r.edge;
}

static void aabb_intersections_against_ray(const struct arguments *in, struct answer *out) {
    const float *f = in->floats;
    bgz_interval_answer r = bgz_aabb_intersections_against_ray(
        (bgz_aabb2){f[0], f[1], f[2], f[3]}, (bgz_vec2){f[4], f[5]}, (bgz_vec2){f[6], f[7]});
    out->status = r.status;
    out->values[0].f = r.tmin;
    out->values[1].f = r.tmax;
    out->values[2].u = r.edge;
}

static void aabb_intersections_against_lines(const struct arguments *in, struct answer *out) {
    const float *f = in->floats;
    bgz_count_answer r = bgz_aabb_intersections_against_lines(
        (bgz_aabb2){f[0], f[1], f[2], f[3]}, in->lists[1].start, in->lists[1].length,
        in->lists[0].start, in->lists[0].length);
    out->status = r.status;
    out->place = r.place;
    out->values[0].u = r.count;
}

static void aabb_is_include_point(const struct arguments *in, struct answer *out) {
    const float *f = in->floats;
    bool r = bgz_aabb_is_include_point((bgz_aabb2){f[0], f[1], f[2], f[3]}, (bgz_vec2){f[4], f[5]});
    out->status = BGZ_ANSWERED;
    out->values[0].u = r;
}

static void aabb_center(const struct arguments *in, struct answer *out) {
    const float *f = in->floats;
    bgz_vec2 r = bgz_aabb_center((bgz_aabb2){f[0], f[1], f[2], f[3]});
    out->status = BGZ_ANSWERED;
    out->values[0].f = r.x;
    out->values[1].f = r.y;
}

static void aabb2_from_point(const struct arguments *in, struct answer *out) {
    const float *f = in->floats;
    bgz_box_answer r = bgz_aabb2_from_point((bgz_vec2){f[0], f[1]}, f[2]);
    out->status = r.status;
    out->values[0].f = r.value.min_x;
    out->values[1].f = r.value.min_y;
    out->values[2].f = r.value.max_x;
    out->values[3].f = r.value.max_y;
}

static void aabb2_from_two_points(const struct arguments *in, struct answer *out) {
    const float *f = in->floats;
    bgz_aabb2 r = bgz_aabb2_from_two_points((bgz_vec2){f[0], f[1]}, (bgz_vec2){f[2], f[3]}, f[4]);
    out->status = BGZ_ANSWERED;
    out->values[0].f = r.min_x;
    out->values[1].f = r.min_y;
    out->values[2].f = r.max_x;
    out->values[3].f = r.max_y;
}

static void aabb2_from_two_aabbs(const struct arguments *in, struct answer *out) {
    const float *f = in->floats;
    bgz_aabb2 r = bgz_aabb2_from_two_aabbs((bgz_aabb2){f[0], f[1], f[2], f[3]}, (bgz_aabb2){f[4], f[5], f[6], f[7]});
    out->status = BGZ_ANSWERED;
    out->values[0].f = r.min_x;
    out->values[1].f = r.min_y;
    out->values[2].f = r.max_x;
    out->values[3].f = r.max_y;
}

static void aabb2_add_point(const struct arguments *in, struct answer *out) {
    const float *f = in->floats;
    bgz_box_answer r = bgz_aabb2_add_point((bgz_aabb2){f[0], f[1], f[2], f[3]}, (bgz_vec2){f[4], f[5]}, f[6]);
    out->status = r.status;
    out->values[0].f = r.value.min_x;
    out->values[1].f = r.value.min_y;
    out->values[2].f = r.value.max_x;
    out->values[3].f = r.value.max_y;
}

static void aabb2_rasterize(const struct arguments *in, struct answer *out) {
    const float *f = in->floats;
    const uint64_t *u = in->wholes;
    bgz_pixels_answer r = bgz_aabb2_rasterize((bgz_aabb2){f[0], f[1], f[2], f[3]}, u[0], u[1]);
    out->status = r.status;
    out->values[0].u = r.x0;
    out->values[1].u = r.y0;
    out->values[2].u = r.x1;
    out->values[3].u = r.y1;
}

static void aabb2_center(const struct arguments *in, struct answer *out) {
    const float *f = in->floats;
    bgz_vec2 r = bgz_aabb2_center((bgz_aabb2){f[0], f[1], f[2], f[3]});
    out->status = BGZ_ANSWERED;
    out->values[0].f = r.x;
    out->values[1].f = r.y;
}

static void aabb2_max_edge_size(const struct arguments *in, struct answer *out) {
    const float *f = in->floats;
    float r = bgz_aabb2_max_edge_size((bgz_aabb2){f[0], f[1], f[2], f[3]});
    out->status = BGZ_ANSWERED;
    out->values[0].f = r;
}

static void aabb2_transform_homogeneous(const struct arguments *in, struct answer *out) {
    const float *f = in->floats;
    bgz_box_answer r = bgz_aabb2_transform_homogeneous(
        (bgz_aabb2){f[0], f[1], f[2], f[3]}, (bgz_mat3){f[4], f[5], f[6], f[7], f[8], f[9], f[10], f[11], f[12]});
    out->status = r.status;
    out->values[0].f = r.value.min_x;
    out->values[1].f = r.value.min_y;
    out->values[2].f = r.value.max_x;
    out->values[3].f = r.value.max_y;
}

static void aabb2_to_transformation_world2unit_ortho_preserve_asp(const struct arguments *in, struct answer *out) {
    const float *f = in->floats;
    bgz_mat3 r = bgz_aabb2_to_transformation_world2unit_ortho_preserve_asp((bgz_aabb2){f[0], f[1], f[2], f[3]});
    out->status = BGZ_ANSWERED;
    out->values[0].f = r.m00;
    out->values[1].f = r.m10;
    out->values[2].f = r.m20;
    out->values[3].f = r.m01;
    out->values[4].f = r.m11;
    out->values[5].f = r.m21;
    out->values[6].f = r.m02;
    out->values[7].f = r.m12;
    out->values[8].f = r.m22;
}

static void aabb2_is_include_point2(const struct arguments *in, struct answer *out) {
    const float *f = in->floats;
    bool r = bgz_aabb2_is_include_point2((bgz_aabb2){f[0], f[1], f[2], f[3]}, (bgz_vec2){f[4], f[5]});
    out->status = BGZ_ANSWERED;
    out->values[0].u = r;
}

static void aabb2_is_intersect_square(const struct arguments *in, struct answer *out) {
    const float *f = in->floats;
    bool r = bgz_aabb2_is_intersect_square((bgz_aabb2){f[0], f[1], f[2], f[3]}, (bgz_vec2){f[4], f[5]}, f[6]);
    out->status = BGZ_ANSWERED;
    out->values[0].u = r;
}

static void aabb2_nearest_point2(const struct arguments *in, struct answer *out) {
    const float *f = in->floats;
    bgz_point_answer r = bgz_aabb2_nearest_point2((bgz_aabb2){f[0], f[1], f[2], f[3]}, (bgz_vec2){f[4], f[5]});
    out->status = r.status;
    out->values[0].f = r.value.x;
    out->values[1].f = r.value.y;
}

static void aabb2_sdf(const struct arguments *in, struct answer *out) {
    const float *f = in->floats;
    float r = bgz_aabb2_sdf((bgz_aabb2){f[0], f[1], f[2], f[3]}, (bgz_vec2){f[4], f[5]});
    out->status = BGZ_ANSWERED;
    out->values[0].f = r;
}

static void aabb2_scale(const struct arguments *in, struct answer *out) {
    const float *f = in->floats;
    bgz_aabb2 r = bgz_aabb2_scale((bgz_aabb2){f[0], f[1], f[2], f[3]}, f[4]);
    out->status = BGZ_ANSWERED;
    out->values[0].f = r.min_x;
    out->values[1].f = r.min_y;
    out->values[2].f = r.max_x;
    out->values[3].f = r.max_y;
}

static void aabb2_translate(const struct arguments *in, struct answer *out) {
    const float *f = in->floats;
    bgz_aabb2 r = bgz_aabb2_translate((bgz_aabb2){f[0], f[1], f[2], f[3]}, (bgz_vec2){f[4], f[5]});
    out->status = BGZ_ANSWERED;
    out->values[0].f = r.min_x;
    out->values[1].f = r.min_y;
    out->values[2].f = r.max_x;
    out->values[3].f = r.max_y;
}

static void aabb2_overlapping_tiles(const struct arguments *in, struct answer *out) {
    const float *f = in->floats;
    const uint64_t *u = in->wholes;
    bgz_count_answer r = bgz_aabb2_overlapping_tiles(
        (bgz_aabb2){f[0], f[1], f[2], f[3]}, u[0], u[1], u[2], in->lists[0].start, in->lists[0].length);
    out->status = r.status;
    out->place = r.place;
    out->values[0].u = r.count;
}

static void aabb2_count(const struct arguments *in, struct answer *out) {
    size_t r = bgz_aabb2_count(in->lists[0].start, in->lists[0].length);
    out->status = BGZ_ANSWERED;
    out->values[0].u = r;
}

static void aabb2_from_aabbs(const struct arguments *in, struct answer *out) {
    const uint64_t *u = in->wholes;
    bgz_box_answer r = bgz_aabb2_from_aabbs(in->lists[0].start, in->lists[0].length, u[0]);
    out->status = r.status;
    out->values[0].f = r.value.min_x;
    out->values[1].f = r.value.min_y;
    out->values[2].f = r.value.max_x;
    out->values[3].f = r.value.max_y;
}

static void aabb2_from_slice(const struct arguments *in, struct answer *out) {
    bgz_box_answer r = bgz_aabb2_from_slice(in->lists[0].start, in->lists[0].length);
    out->status = r.status;
    out->values[0].f = r.value.min_x;
    out->values[1].f = r.value.min_y;
    out->values[2].f = r.value.max_x;
    out->values[3].f = r.value.max_y;
}

static void aabb2_add_point_lent(const struct arguments *in, struct answer *out) {
    const float *f = in->floats;
    bgz_aabb2 b = {f[0], f[1], f[2], f[3]};
    const bgz_aabb2 before = b;
    out->status = bgz_aabb2_add_point_lent(&b, (bgz_vec2){f[4], f[5]}, f[6]);
    if (out->status != BGZ_ANSWERED && memcmp(&b, &before, sizeof before) == 0)
        memset(&b, 0, sizeof b);
    out->values[0].f = b.min_x;
    out->values[1].f = b.min_y;
    out->values[2].f = b.max_x;
    out->values[3].f = b.max_y;
}

static void obb2_corner_points(const struct arguments *in, struct answer *out) {
    const float *f = in->floats;
    bgz_corners r = bgz_obb2_corner_points((bgz_obb2){f[0], f[1], f[2], f[3], f[4], f[5]});
    out->status = BGZ_ANSWERED;
    out->values[0].f = r.p0.x;
    out->values[1].f = r.p0.y;
    out->values[2].f = r.p1.x;
    out->values[3].f = r.p1.y;
    out->values[4].f = r.p2.x;
    out->values[5].f = r.p2.y;
    out->values[6].f = r.p3.x;
    out->values[7].f = r.p3.y;
}

static void obb2_is_include_point2(const struct arguments *in, struct answer *out) {
    const float *f = in->floats;
    bool r = bgz_obb2_is_include_point2((bgz_obb2){f[0], f[1], f[2], f[3], f[4], f[5]}, (bgz_vec2){f[6], f[7]});
    out->status = BGZ_ANSWERED;
    out->values[0].u = r;
}

static void obb2_nearest_point2(const struct arguments *in, struct answer *out) {
    const float *f = in->floats;
    bgz_point_answer r = bgz_obb2_nearest_point2(
        (bgz_obb2){f[0], f[1], f[2], f[3], f[4], f[5]}, (bgz_vec2){f[6], f[7]});
    out->status = r.status;
    out->values[0].f = r.value.x;
    out->values[1].f = r.value.y;
}

static void obb2_is_intersect_obb2(const struct arguments *in, struct answer *out) {
    const float *f = in->floats;
    bool r = bgz_obb2_is_intersect_obb2(
        (bgz_obb2){f[0], f[1], f[2], f[3], f[4], f[5]}, (bgz_obb2){f[6], f[7], f[8], f[9], f[10], f[11]});
    out->status = BGZ_ANSWERED;
    out->values[0].u = r;
}

static void obb2_is_intersect_aabb2(const struct arguments *in, struct answer *out) {
    const float *f = in->floats;
    bool r = bgz_obb2_is_intersect_aabb2(
        (bgz_obb2){f[0], f[1], f[2], f[3], f[4], f[5]}, (bgz_aabb2){f[6], f[7], f[8], f[9]});
    out->status = BGZ_ANSWERED;
    out->values[0].u = r;
}

static void aabb_3_intersections_against_line(const struct arguments *in, struct answer *out) {
    const float *f = in->floats;
    bgz_interval_answer r = bgz_aabb_3_intersections_against_line(
        (bgz_aabb3){f[0], f[1], f[2], f[3], f[4], f[5]}, (bgz_vec3){f[6], f[7], f[8]}, (bgz_vec3){f[9], f[10], f[11]});
    out->status = r.status;
    out->values[0].f = r.tmin;
    out->values[1].f = r.tmax;
    out->values[2].u = r.edge;
}

static void aabb_3_is_include_point(const struct arguments *in, struct answer *out) {
    const float *f = in->floats;
    bool r = bgz_aabb_3_is_include_point((bgz_aabb3){f[0], f[1], f[2], f[3], f[4], f[5]}, (bgz_vec3){f[6], f[7], f[8]});
    out->status = BGZ_ANSWERED;
    out->values[0].u = r;
}

static void aabb_3_center(const struct arguments *in, struct answer *out) {
    const float *f = in->floats;
    bgz_vec3 r = bgz_aabb_3_center((bgz_aabb3){f[0], f[1], f[2], f[3], f[4], f[5]});
    out->status = BGZ_ANSWERED;
    out->values[0].f = r.x;
    out->values[1].f = r.y;
    out->values[2].f = r.z;
}

static void aabb_3_intersections_against_ray(const struct arguments *in, struct answer *out) {
    const float *f = in->floats;
    bgz_interval_answer r = bgz_aabb_3_intersections_against_ray(
        (bgz_aabb3){f[0], f[1], f[2], f[3], f[4], f[5]}, (bgz_vec3){f[6], f[7], f[8]}, (bgz_vec3){f[9], f[10], f[11]});
    out->status = r.status;
    out->values[0].f = r.tmin;
    out->values[1].f = r.tmax;
    out->values[2].u = r.edge;
}

static void aabb3_from_two_aabbs(const struct arguments *in, struct answer *out) {
    const float *f = in->floats;
    bgz_aabb3 r = bgz_aabb3_from_two_aabbs(
        (bgz_aabb3){f[0], f[1], f[2], f[3], f[4], f[5]}, (bgz_aabb3){f[6], f[7], f[8], f[9], f[10], f[11]});
    out->status = BGZ_ANSWERED;
    out->values[0].f = r.min_x;
    out->values[1].f = r.min_y;
    out->values[2].f = r.min_z;
    out->values[3].f = r.max_x;
    out->values[4].f = r.max_y;
    out->values[5].f = r.max_z;
}

static void aabb3_set_as_cube(const struct arguments *in, struct answer *out) {
    const float *f = in->floats;
    bgz_aabb3 r = bgz_aabb3_set_as_cube((bgz_vec3){f[6], f[7], f[8]}, f[9]);
    out->status = BGZ_ANSWERED;
    out->values[0].f = r.min_x;
    out->values[1].f = r.min_y;
    out->values[2].f = r.min_z;
    out->values[3].f = r.max_x;
    out->values[4].f = r.max_y;
    out->values[5].f = r.max_z;
}

static void aabb3_add_point(const struct arguments *in, struct answer *out) {
    const float *f = in->floats;
    bgz_aabb3 r = bgz_aabb3_add_point(
        (bgz_aabb3){f[0], f[1], f[2], f[3], f[4], f[5]}, (bgz_vec3){f[6], f[7], f[8]}, f[9]);
    out->status = BGZ_ANSWERED;
    out->values[0].f = r.min_x;
    out->values[1].f = r.min_y;
    out->values[2].f = r.min_z;
    out->values[3].f = r.max_x;
    out->values[4].f = r.max_y;
    out->values[5].f = r.max_z;
}

static void aabb3_center(const struct arguments *in, struct answer *out) {
    const float *f = in->floats;
    bgz_vec3 r = bgz_aabb3_center((bgz_aabb3){f[0], f[1], f[2], f[3], f[4], f[5]});
    out->status = BGZ_ANSWERED;
    out->values[0].f = r.x;
    out->values[1].f = r.y;
    out->values[2].f = r.z;
}

static void aabb3_size(const struct arguments *in, struct answer *out) {
    const float *f = in->floats;
    bgz_vec3 r = bgz_aabb3_size((bgz_aabb3){f[0], f[1], f[2], f[3], f[4], f[5]});
    out->status = BGZ_ANSWERED;
    out->values[0].f = r.x;
    out->values[1].f = r.y;
    out->values[2].f = r.z;
}

static void aabb3_scale(const struct arguments *in, struct answer *out) {
    const float *f = in->floats;
    bgz_aabb3 r = bgz_aabb3_scale((bgz_aabb3){f[0], f[1], f[2], f[3], f[4], f[5]}, f[6]);
    out->status = BGZ_ANSWERED;
    out->values[0].f = r.min_x;
    out->values[1].f = r.min_y;
    out->values[2].f = r.min_z;
    out->values[3].f = r.max_x;
    out->values[4].f = r.max_y;
    out->values[5].f = r.max_z;
}

static void aabb3_volume(const struct arguments *in, struct answer *out) {
    const float *f = in->floats;
    float r = bgz_aabb3_volume((bgz_aabb3){f[0], f[1], f[2], f[3], f[4], f[5]});
    out->status = BGZ_ANSWERED;
    out->values[0].f = r;
}

static void aabb3_max_edge_size(const struct arguments *in, struct answer *out) {
    const float *f = in->floats;
    float r = bgz_aabb3_max_edge_size((bgz_aabb3){f[0], f[1], f[2], f[3], f[4], f[5]});
    out->status = BGZ_ANSWERED;
    out->values[0].f = r;
}

static void aabb3_xyz_from_hex_index(const struct arguments *in, struct answer *out) {
    const float *f = in->floats;
    const uint64_t *u = in->wholes;
    bgz_point3_answer r = bgz_aabb3_xyz_from_hex_index((bgz_aabb3){f[0], f[1], f[2], f[3], f[4], f[5]}, u[0]);
    out->status = r.status;
    out->values[0].f = r.value.x;
    out->values[1].f = r.value.y;
    out->values[2].f = r.value.z;
}

static void aabb3_is_active(const struct arguments *in, struct answer *out) {
    const float *f = in->floats;
    bool r = bgz_aabb3_is_active((bgz_aabb3){f[0], f[1], f[2], f[3], f[4], f[5]});
    out->status = BGZ_ANSWERED;
    out->values[0].u = r;
}

static void aabb3_is_contain(const struct arguments *in, struct answer *out) {
    const float *f = in->floats;
    bool r = bgz_aabb3_is_contain((bgz_aabb3){f[0], f[1], f[2], f[3], f[4], f[5]}, (bgz_vec3){f[6], f[7], f[8]});
    out->status = BGZ_ANSWERED;
    out->values[0].u = r;
}

static void aabb3_is_intersect(const struct arguments *in, struct answer *out) {
    const float *f = in->floats;
    bool r = bgz_aabb3_is_intersect(
        (bgz_aabb3){f[0], f[1], f[2], f[3], f[4], f[5]}, (bgz_aabb3){f[6], f[7], f[8], f[9], f[10], f[11]});
    out->status = BGZ_ANSWERED;
    out->values[0].u = r;
}

static void aabb3_min_sq_dist_to_point3(const struct arguments *in, struct answer *out) {
    const float *f = in->floats;
    float r = bgz_aabb3_min_sq_dist_to_point3(
        (bgz_aabb3){f[0], f[1], f[2], f[3], f[4], f[5]}, (bgz_vec3){f[6], f[7], f[8]});
    out->status = BGZ_ANSWERED;
    out->values[0].f = r;
}

static void aabb3_is_possible_distance_to_aabb2_smaller_than_threshold(const struct arguments *in, struct answer *out) {
    const float *f = in->floats;
    bgz_bool_answer r = bgz_aabb3_is_possible_distance_to_aabb2_smaller_than_threshold(
        (bgz_aabb3){f[0], f[1], f[2], f[3], f[4], f[5]}, (bgz_aabb3){f[6], f[7], f[8], f[9], f[10], f[11]}, f[12]);
    out->status = r.status;
    out->values[0].u = r.value;
}

static void aabb3_count(const struct arguments *in, struct answer *out) {
    size_t r = bgz_aabb3_count(in->lists[0].start, in->lists[0].length);
    out->status = BGZ_ANSWERED;
    out->values[0].u = r;
}

static void aabb3_from_aabbs(const struct arguments *in, struct answer *out) {
    const uint64_t *u = in->wholes;
    bgz_box3_answer r = bgz_aabb3_from_aabbs(in->lists[0].start, in->lists[0].length, u[0]);
    out->status = r.status;
    out->values[0].f = r.value.min_x;
    out->values[1].f = r.value.min_y;
    out->values[2].f = r.value.min_z;
    out->values[3].f = r.value.max_x;
    out->values[4].f = r.value.max_y;
    out->values[5].f = r.value.max_z;
}

static void aabb3_from_slice(const struct arguments *in, struct answer *out) {
    bgz_box3_answer r = bgz_aabb3_from_slice(in->lists[0].start, in->lists[0].length);
    out->status = r.status;
    out->values[0].f = r.value.min_x;
    out->values[1].f = r.value.min_y;
    out->values[2].f = r.value.min_z;
    out->values[3].f = r.value.max_x;
    out->values[4].f = r.value.max_y;
    out->values[5].f = r.value.max_z;
}

static void obb3_corner_points(const struct arguments *in, struct answer *out) {
    const float *f = in->floats;
    bgz_corners3 r = bgz_obb3_corner_points(
        (bgz_obb3){f[0], f[1], f[2], f[3], f[4], f[5], f[6], f[7], f[8], f[9], f[10], f[11]});
    out->status = BGZ_ANSWERED;
    out->values[0].f = r.p0.x;
    out->values[1].f = r.p0.y;
    out->values[2].f = r.p0.z;
    out->values[3].f = r.p1.x;
    out->values[4].f = r.p1.y;
    out->values[5].f = r.p1.z;
    out->values[6].f = r.p2.x;
    out->values[7].f = r.p2.y;
    out->values[8].f = r.p2.z;
    out->values[9].f = r.p3.x;
    out->values[10].f = r.p3.y;
    out->values[11].f = r.p3.z;
    out->values[12].f = r.p4.x;
    out->values[13].f = r.p4.y;
    out->values[14].f = r.p4.z;
    out->values[15].f = r.p5.x;
    out->values[16].f = r.p5.y;
    out->values[17].f = r.p5.z;
    out->values[18].f = r.p6.x;
    out->values[19].f = r.p6.y;
    out->values[20].f = r.p6.z;
    out->values[21].f = r.p7.x;
    out->values[22].f = r.p7.y;
    out->values[23].f = r.p7.z;
}

static void obb3_is_include_point(const struct arguments *in, struct answer *out) {
    const float *f = in->floats;
    bool r = bgz_obb3_is_include_point(
        (bgz_obb3){f[0], f[1], f[2], f[3], f[4], f[5], f[6], f[7], f[8], f[9], f[10], f[11]},
        (bgz_vec3){f[12], f[13], f[14]}, f[15]);
    out->status = BGZ_ANSWERED;
    out->values[0].u = r;
}

static void obb3_is_intersect_to_obb3(const struct arguments *in, struct answer *out) {
    const float *f = in->floats;
    bgz_bool_answer r = bgz_obb3_is_intersect_to_obb3(
        (bgz_obb3){f[0], f[1], f[2], f[3], f[4], f[5], f[6], f[7], f[8], f[9], f[10], f[11]},
        (bgz_obb3){f[12], f[13], f[14], f[15], f[16], f[17], f[18], f[19], f[20], f[21], f[22], f[23]});
    out->status = r.status;
    out->values[0].u = r.value;
}

static void hatch_read_floats(const struct arguments *in, struct answer *out) {
    bgz_read_answer r = bgz_hatch_read_floats(
        in->lists[1].start, in->lists[1].length, in->lists[0].start, in->lists[0].length);
    out->status = r.status;
    out->place = r.place;
    out->values[0].u = r.version;
    out->values[1].u = r.count;
}

static void hatch_read_patterns(const struct arguments *in, struct answer *out) {
    bgz_read_answer r = bgz_hatch_read_patterns(
        in->lists[1].start, in->lists[1].length, in->lists[0].start, in->lists[0].length);
    out->status = r.status;
    out->place = r.place;
    out->values[0].u = r.version;
    out->values[1].u = r.count;
}

static void hatch_record_count(const struct arguments *in, struct answer *out) {
    size_t r = bgz_hatch_record_count(in->lists[0].start, in->lists[0].length);
    out->status = BGZ_ANSWERED;
    out->values[0].u = r;
}

static void hatch_write_patterns(const struct arguments *in, struct answer *out) {
    bgz_count_answer r = bgz_hatch_write_patterns(
        in->lists[1].start, in->lists[1].length, in->lists[0].start, in->lists[0].length);
    out->status = r.status;
    out->place = r.place;
    out->values[0].u = r.count;
}

static void hatch_write_floats(const struct arguments *in, struct answer *out) {
    bgz_count_answer r = bgz_hatch_write_floats(
        in->lists[1].start, in->lists[1].length, in->lists[0].start, in->lists[0].length);
    out->status = r.status;
    out->place = r.place;
    out->values[0].u = r.count;
}

static void hatch_merge(const struct arguments *in, struct answer *out) {
    bgz_merge_answer r = bgz_hatch_merge(
        in->lists[1].start, in->lists[1].length, in->lists[2].start, in->lists[2].length,
        in->lists[0].start, in->lists[0].length);
    out->status = r.status;
    out->list = r.list;
    out->place = r.place;
    out->values[0].u = r.count;
}

static void hatch_report(const struct arguments *in, struct answer *out) {
    size_t r = bgz_hatch_report(in->lists[1].start, in->lists[1].length, in->lists[0].start, in->lists[0].length);
    out->status = BGZ_ANSWERED;
    out->values[0].u = r;
}

#define CALL(name) "bgz_" #name, name
#define AT(name) (UINT32_C(1) << BGZ_REFUSED_##name)

const struct routine routines[] = {
    {"f32.abs", CALL(f32_abs), "f", "", "f",
     "x", 0, false},
    {"f32.min", CALL(f32_min), "ff", "", "f",
     "a b", 0, false},
    {"f32.max", CALL(f32_max), "ff", "", "f",
     "a b", 0, false},
    {"f32.clamp", CALL(f32_clamp), "fff", "", "f",
     "x low high", 0, false},
    {"f32.floor", CALL(f32_floor), "f", "", "f",
     "x", 0, false},
    {"f32.ceil", CALL(f32_ceil), "f", "", "f",
     "x", 0, false},
    {"f32.to_i32", CALL(f32_to_i32), "f", "", "i",
     "x", 0, false},
    {"f32.to_u32", CALL(f32_to_u32), "f", "", "u",
     "x", 0, false},
    {"f32.to_usize", CALL(f32_to_usize), "f", "", "u",
     "x", 0, false},
    {"f32.sqrt", CALL(f32_sqrt), "f", "", "f",
     "x", 0, false},
    {"f32.sqrt_digits", CALL(f32_sqrt_digits), "f", "", "fu",
     "x", 0, false},
    {"range.distance_to_range", CALL(range_distance_to_range), "ffff", "", "f",
     "a.low a.high b.low b.high", 0, false},
    {"range.intersection_length", CALL(range_intersection_length), "ffff", "", "f",
     "a.low a.high b.low b.high", 0, false},
    {"vec2.sub", CALL(vec2_sub), "ffff", "", "ff",
     "a.x a.y b.x b.y", 0, false},
    {"vec2.dot", CALL(vec2_dot), "ffff", "", "f",
     "a.x a.y b.x b.y", 0, false},
    {"vec2.squared_length", CALL(vec2_squared_length), "ff", "", "f",
     "p.x p.y", 0, false},
    {"vec2.length", CALL(vec2_length), "ff", "", "f",
     "p.x p.y", 0, false},
    {"mat3.transform_homogeneous", CALL(mat3_transform_homogeneous), "fffffffffff", "", "ff",
     "m.m00 m.m10 m.m20 m.m01 m.m11 m.m21 m.m02 m.m12 m.m22 p.x p.y", 0, false},
    {"edge2.length", CALL(edge2_length), "ffff", "", "f",
     "s.x s.y e.x e.y", 0, false},
    {"edge2.squared_length", CALL(edge2_squared_length), "ffff", "", "f",
     "s.x s.y e.x e.y", 0, false},
    {"edge2.unit_edge_vector", CALL(edge2_unit_edge_vector), "ffff", "", "ff",
     "s.x s.y e.x e.y", 0, false},
    {"edge2.position_from_ratio", CALL(edge2_position_from_ratio), "fffff", "", "ff",
     "p0.x p0.y p1.x p1.y ratio", 0, false},
    {"edge2.ratio_from_position", CALL(edge2_ratio_from_position), "ffffff", "", "f",
     "ps.x ps.y pe.x pe.y q.x q.y", 0, false},
    {"edge2.culling_intersection", CALL(edge2_culling_intersection), "ffffffff", "", "u",
     "s0.x s0.y e0.x e0.y s1.x s1.y e1.x e1.y", 0, false},
    {"edge2.nearest_origin", CALL(edge2_nearest_origin), "ffff", "", "fff",
     "s.x s.y e.x e.y", 0, false},
    {"edge2.nearest_to_point", CALL(edge2_nearest_to_point), "ffffff", "", "fff",
     "s.x s.y e.x e.y p.x p.y", 0, false},
    {"edge2.intersection_length_against_aabb2", CALL(edge2_intersection_length_against_aabb2), "ffffffff", "", "f",
     "s.x s.y e.x e.y b.min_x b.min_y b.max_x b.max_y", 0, false},
    {"edge2.ink", CALL(edge2_ink), "ffffffff", "", "f",
     "p0.x p0.y p1.x p1.y b.min_x b.min_y b.max_x b.max_y", AT(COORDINATE) | AT(NOT_FINITE), false},
    {"edge2.overlapping_pixels_dda", CALL(edge2_overlapping_pixels_dda), "uuffffr", "u", "l",
     "width height p0.x p0.y p1.x p1.y room", AT(COORDINATE) | AT(NOT_FINITE), false},
    {"edge2.pixels_inside", CALL(edge2_pixels_inside), "uuffffr", "u", "l",
     "width height p0.x p0.y p1.x p1.y room", AT(COORDINATE) | AT(NOT_FINITE), false},
    {"edge2.pixels_bound", CALL(edge2_pixels_bound), "uuffff", "", "u",
     "width height p0.x p0.y p1.x p1.y", AT(COORDINATE) | AT(NOT_FINITE), false},
    {"aabb.line", CALL(aabb_intersections_against_line), "ffffffff", "", "ffn",
     "b.min_x b.min_y b.max_x b.max_y origin.x origin.y direction.x direction.y", 0, false},
    {"aabb.ray", CALL(aabb_intersections_against_ray), "ffffffff", "", "ffn",
     "b.min_x b.min_y b.max_x b.max_y origin.x origin.y direction.x direction.y", 0, false},
    {"aabb.lines", CALL(aabb_intersections_against_lines), "ffffrF", "fF", "l",
     "b.min_x b.min_y b.max_x b.max_y room lines", 0, false},
    {"aabb.include", CALL(aabb_is_include_point), "ffffff", "", "u",
     "b.min_x b.min_y b.max_x b.max_y p.x p.y", 0, false},
    {"aabb.center", CALL(aabb_center), "ffff", "", "ff",
     "b.min_x b.min_y b.max_x b.max_y", 0, false},
    {"aabb2.from_point", CALL(aabb2_from_point), "fff", "", "ffff",
     "p.x p.y radius", 0, false},
    {"aabb2.from_two_points", CALL(aabb2_from_two_points), "fffff", "", "ffff",
     "p.x p.y q.x q.y radius", 0, false},
    {"aabb2.from_two_aabbs", CALL(aabb2_from_two_aabbs), "ffffffff", "", "ffff",
     "a.min_x a.min_y a.max_x a.max_y b.min_x b.min_y b.max_x b.max_y", 0, false},
    {"aabb2.add_point", CALL(aabb2_add_point), "fffffff", "", "ffff",
     "b.min_x b.min_y b.max_x b.max_y p.x p.y radius", 0, false},
    {"aabb2.rasterize", CALL(aabb2_rasterize), "ffffuu", "", "uuuu",
     "b.min_x b.min_y b.max_x b.max_y width height", 0, false},
    {"aabb2.center", CALL(aabb2_center), "ffff", "", "ff",
     "b.min_x b.min_y b.max_x b.max_y", 0, false},
    {"aabb2.max_edge_size", CALL(aabb2_max_edge_size), "ffff", "", "f",
     "b.min_x b.min_y b.max_x b.max_y", 0, false},
    {"aabb2.transform_homogeneous", CALL(aabb2_transform_homogeneous), "fffffffffffff", "", "ffff",
     "b.min_x b.min_y b.max_x b.max_y m.m00 m.m10 m.m20 m.m01 m.m11 m.m21 m.m02 m.m12 m.m22", 0, false},
    {"aabb2.to_transformation_world2unit_ortho_preserve_asp", CALL(aabb2_to_transformation_world2unit_ortho_preserve_asp), "ffff", "", "fffffffff",
     "b.min_x b.min_y b.max_x b.max_y", 0, false},
    {"aabb2.is_include_point2", CALL(aabb2_is_include_point2), "ffffff", "", "u",
     "b.min_x b.min_y b.max_x b.max_y p.x p.y", 0, false},
    {"aabb2.is_intersect_square", CALL(aabb2_is_intersect_square), "fffffff", "", "u",
     "b.min_x b.min_y b.max_x b.max_y p.x p.y radius", 0, false},
    {"aabb2.nearest_point2", CALL(aabb2_nearest_point2), "ffffff", "", "ff",
     "b.min_x b.min_y b.max_x b.max_y p.x p.y", 0, false},
    {"aabb2.sdf", CALL(aabb2_sdf), "ffffff", "", "f",
     "b.min_x b.min_y b.max_x b.max_y p.x p.y", 0, false},
    {"aabb2.scale", CALL(aabb2_scale), "fffff", "", "ffff",
     "b.min_x b.min_y b.max_x b.max_y s", 0, false},
    {"aabb2.translate", CALL(aabb2_translate), "ffffff", "", "ffff",
     "b.min_x b.min_y b.max_x b.max_y t.x t.y", 0, false},
    {"aabb2.overlapping_tiles", CALL(aabb2_overlapping_tiles), "ffffuuur", "u", "l",
     "b.min_x b.min_y b.max_x b.max_y size shape_width shape_height room", 0, false},
    {"aabb2.count", CALL(aabb2_count), "F", "F", "u",
     "all", 0, false},
    {"aabb2.from_aabbs", CALL(aabb2_from_aabbs), "uF", "F", "ffff",
     "index all", 0, false},
    {"aabb2.from_slice", CALL(aabb2_from_slice), "F", "F", "ffff",
     "s", 0, false},
    {"aabb2.add_point_lent", CALL(aabb2_add_point_lent), "fffffff", "", "ffff",
     "b.min_x b.min_y b.max_x b.max_y p.x p.y radius", 0, false},
    {"obb2.corner_points", CALL(obb2_corner_points), "ffffff", "", "ffffffff",
     "o.cx o.cy o.ux o.uy o.vx o.vy", 0, false},
    {"obb2.is_include_point2", CALL(obb2_is_include_point2), "ffffffff", "", "u",
     "o.cx o.cy o.ux o.uy o.vx o.vy p.x p.y", 0, false},
    {"obb2.nearest_point2", CALL(obb2_nearest_point2), "ffffffff", "", "ff",
     "o.cx o.cy o.ux o.uy o.vx o.vy p.x p.y", 0, false},
    {"obb2.is_intersect_obb2", CALL(obb2_is_intersect_obb2), "ffffffffffff", "", "u",
     "a.cx a.cy a.ux a.uy a.vx a.vy b.cx b.cy b.ux b.uy b.vx b.vy", 0, false},
    {"obb2.is_intersect_aabb2", CALL(obb2_is_intersect_aabb2), "ffffffffff", "", "u",
     "o.cx o.cy o.ux o.uy o.vx o.vy b.min_x b.min_y b.max_x b.max_y", 0, false},
    {"aabb_3.line", CALL(aabb_3_intersections_against_line), "ffffffffffff", "", "ffn",
     "b.min_x b.min_y b.min_z b.max_x b.max_y b.max_z origin.x origin.y origin.z direction.x direction.y direction.z", 0, false},
    {"aabb_3.include", CALL(aabb_3_is_include_point), "fffffffff", "", "u",
     "b.min_x b.min_y b.min_z b.max_x b.max_y b.max_z p.x p.y p.z", 0, false},
    {"aabb_3.center", CALL(aabb_3_center), "ffffff", "", "fff",
     "b.min_x b.min_y b.min_z b.max_x b.max_y b.max_z", 0, false},
    {"aabb_3.ray", CALL(aabb_3_intersections_against_ray), "ffffffffffff", "", "ffn",
     "b.min_x b.min_y b.min_z b.max_x b.max_y b.max_z origin.x origin.y origin.z direction.x direction.y direction.z", 0, false},
    {"aabb3.from_two_aabbs", CALL(aabb3_from_two_aabbs), "ffffffffffff", "", "ffffff",
     "a.min_x a.min_y a.min_z a.max_x a.max_y a.max_z b.min_x b.min_y b.min_z b.max_x b.max_y b.max_z", 0, false},
    {"aabb3.set_as_cube", CALL(aabb3_set_as_cube), "ffffffffff", "", "ffffff",
     "b.min_x b.min_y b.min_z b.max_x b.max_y b.max_z p.x p.y p.z eps", 0, false},
    {"aabb3.add_point", CALL(aabb3_add_point), "ffffffffff", "", "ffffff",
     "b.min_x b.min_y b.min_z b.max_x b.max_y b.max_z p.x p.y p.z eps", 0, false},
    {"aabb3.center", CALL(aabb3_center), "ffffff", "", "fff",
     "b.min_x b.min_y b.min_z b.max_x b.max_y b.max_z", 0, false},
    {"aabb3.size", CALL(aabb3_size), "ffffff", "", "fff",
     "b.min_x b.min_y b.min_z b.max_x b.max_y b.max_z", 0, false},
    {"aabb3.scale", CALL(aabb3_scale), "fffffff", "", "ffffff",
     "b.min_x b.min_y b.min_z b.max_x b.max_y b.max_z s", 0, false},
    {"aabb3.volume", CALL(aabb3_volume), "ffffff", "", "f",
     "b.min_x b.min_y b.min_z b.max_x b.max_y b.max_z", 0, false},
    {"aabb3.max_edge_size", CALL(aabb3_max_edge_size), "ffffff", "", "f",
     "b.min_x b.min_y b.min_z b.max_x b.max_y b.max_z", 0, false},
    {"aabb3.xyz_from_hex_index", CALL(aabb3_xyz_from_hex_index), "ffffffu", "", "fff",
     "b.min_x b.min_y b.min_z b.max_x b.max_y b.max_z index", 0, false},
    {"aabb3.is_active", CALL(aabb3_is_active), "ffffff", "", "u",
     "b.min_x b.min_y b.min_z b.max_x b.max_y b.max_z", 0, false},
    {"aabb3.is_contain", CALL(aabb3_is_contain), "fffffffff", "", "u",
     "b.min_x b.min_y b.min_z b.max_x b.max_y b.max_z p.x p.y p.z", 0, false},
    {"aabb3.is_intersect", CALL(aabb3_is_intersect), "ffffffffffff", "", "u",
     "a.min_x a.min_y a.min_z a.max_x a.max_y a.max_z b.min_x b.min_y b.min_z b.max_x b.max_y b.max_z", 0, false},
    {"aabb3.min_sq_dist_to_point3", CALL(aabb3_min_sq_dist_to_point3), "fffffffff", "", "f",
     "b.min_x b.min_y b.min_z b.max_x b.max_y b.max_z p.x p.y p.z", 0, false},
    {"aabb3.is_possible_distance", CALL(aabb3_is_possible_distance_to_aabb2_smaller_than_threshold), "fffffffffffff", "", "u",
     "a.min_x a.min_y a.min_z a.max_x a.max_y a.max_z b.min_x b.min_y b.min_z b.max_x b.max_y b.max_z threshold", 0, false},
    {"aabb3.count", CALL(aabb3_count), "F", "F", "u",
     "all", 0, false},
    {"aabb3.from_aabbs", CALL(aabb3_from_aabbs), "uF", "F", "ffffff",
     "index all", 0, false},
    {"aabb3.from_slice", CALL(aabb3_from_slice), "F", "F", "ffffff",
     "s", 0, false},
    {"obb3.corner_points", CALL(obb3_corner_points), "ffffffffffff", "", "ffffffffffffffffffffffff",
     "o.cx o.cy o.cz o.ux o.uy o.uz o.vx o.vy o.vz o.wx o.wy o.wz", 0, false},
    {"obb3.is_include_point", CALL(obb3_is_include_point), "ffffffffffffffff", "", "u",
     "o.cx o.cy o.cz o.ux o.uy o.uz o.vx o.vy o.vz o.wx o.wy o.wz p.x p.y p.z eps", 0, false},
    {"obb3.is_intersect_to_obb3", CALL(obb3_is_intersect_to_obb3), "ffffffffffffffffffffffff", "", "u",
     "a.cx a.cy a.cz a.ux a.uy a.uz a.vx a.vy a.vz a.wx a.wy a.wz b.cx b.cy b.cz b.ux b.uy b.uz b.vx b.vy b.vz b.wx b.wy b.wz", 0, false},
    {"hatch.read_floats", CALL(hatch_read_floats), "rB", "fB", "ue",
     "room bytes", AT(ROOM) | AT(MARK) | AT(VERSION) | AT(COUNT) | AT(LENGTH), false},
    {"hatch.read", CALL(hatch_read_patterns), "rB", "pB", "ue",
     "room bytes", AT(ROOM) | AT(MARK) | AT(VERSION) | AT(COUNT) | AT(LENGTH), false},
    {"hatch.record_count", CALL(hatch_record_count), "F", "F", "u",
     "floats", 0, false},
    {"hatch.write", CALL(hatch_write_patterns), "rP", "bP", "l",
     "room patterns", 0, false},
    {"hatch.write_floats", CALL(hatch_write_floats), "rF", "bF", "l",
     "room floats", 0, false},
    {"hatch.merge", CALL(hatch_merge), "rBB", "bBB", "l",
     "room first second", AT(MARK) | AT(VERSION) | AT(COUNT) | AT(LENGTH), true},
    {NULL, CALL(hatch_report), "rB", "bB", "u",
     "room bytes", 0, false},
};

const size_t routine_count = sizeof routines / sizeof routines[0];

const uint32_t last_refusal = 17;
