/*
 * A list of length 0 may be null, as an empty C++ vector hands it in: each function that takes lists is called so. Compiled as C and as C++
 * by tests/examples, which also tells whether the header is clean.
 */
#include <bagnoszyk.h>
#include <stdio.h>
#include <string.h>

static int failed = 0;

static void expect(const char *what, uint32_t status, uint32_t expected) {
    if (status != expected) {
        printf("%s: %s\n", what, bgz_refusal_text(status));
        failed = 1;
    }
}

int main(void) {
    const bgz_vec2 low = {0.5f, 0.5f}, high = {2.5f, 0.5f};
    const bgz_aabb2 box = {1, 1, 2, 2};
    const unsigned char none[] = {'H', 'S', 'L', 1, 0, 0, 0};
    const float line[BGZ_LINE_FLOATS] = {0, 0, 1, 1};

    expect("no lines", bgz_aabb_intersections_against_lines(box, NULL, 0, NULL, 0).status, BGZ_ANSWERED);
    expect("a line", bgz_aabb_intersections_against_lines(box, line, BGZ_LINE_FLOATS, NULL, 0).status, BGZ_REFUSED_ROOM);
    expect("part of a line", bgz_aabb_intersections_against_lines(box, line, 3, NULL, 0).status, BGZ_REFUSED_LINES);
    expect("count", (uint32_t)bgz_aabb2_count(NULL, 0), 0);
    expect("from_aabbs", bgz_aabb2_from_aabbs(NULL, 0, 0).status, BGZ_REFUSED_INDEX);
    expect("from_slice", bgz_aabb2_from_slice(NULL, 0).status, BGZ_REFUSED_INDEX);
    expect("tiles", bgz_aabb2_overlapping_tiles(box, 1, 4, 4, NULL, 0).status, BGZ_REFUSED_ROOM);
    expect("no tiles", bgz_aabb2_overlapping_tiles(box, 1, 0, 0, NULL, 0).status, BGZ_ANSWERED);
    expect("stroke", bgz_edge2_overlapping_pixels_dda(4, 4, low, high, NULL, 0).status, BGZ_REFUSED_ROOM);
    expect("stroke inside", bgz_edge2_pixels_inside(4, 4, low, high, NULL, 0).status, BGZ_REFUSED_ROOM);
    expect("stroke outside", bgz_edge2_pixels_inside(0, 0, low, high, NULL, 0).status, BGZ_ANSWERED);
    expect("no bytes", bgz_hatch_read_floats(NULL, 0, NULL, 0).status, BGZ_REFUSED_MARK);
    expect("floats", bgz_hatch_read_floats(none, sizeof none, NULL, 0).status, BGZ_ANSWERED);
    expect("patterns", bgz_hatch_read_patterns(none, sizeof none, NULL, 0).status, BGZ_ANSWERED);
    expect("records", (uint32_t)bgz_hatch_record_count(NULL, 0), 0);
    expect("no first", bgz_hatch_merge(NULL, 0, none, sizeof none, NULL, 0).status, BGZ_REFUSED_MARK);
    expect("no second", bgz_hatch_merge(none, sizeof none, NULL, 0, NULL, 0).status, BGZ_REFUSED_MARK);
    expect("merged", bgz_hatch_merge(none, sizeof none, none, sizeof none, NULL, 0).status, BGZ_REFUSED_ROOM);
    expect("report", (uint32_t)bgz_hatch_report(NULL, 0, NULL, 0), sizeof "refused 10 0\n" - 1);

    if (strcmp(bgz_refusal_text(BGZ_REFUSED_SAME_ENDS), "both ends of a stroke are equal") != 0)
        failed = 1;
    return failed;
}
