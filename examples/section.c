/*
 * Clips a hatch list line by line, with the section marks of two lines, and one of its faces in one call, makes the
 * bytes to save with a line corrected, and merges both lists. Then lists the pixels of pen strokes and the tiles of a
 * box, and shows two refusals.
 *
 *   ./install PREFIX
 *   cc -std=c99 -IPREFIX/include examples/section.c -LPREFIX/lib -lbagnoszyk -o section
 *   ./section examples/section.hsl
 */
#include <bagnoszyk.h>
#include <inttypes.h>
#include <math.h>
#include <stdio.h>
#include <string.h>

/* One byte more than the longest hatch list has: of a longer file that many are read, and they are refused. */
enum { BYTES = BGZ_HATCH_BYTES_MAX + 1, FLOATS = BGZ_HATCH_FLOATS_MAX };

/* The floats of a record: the box's first, then the line's, which are its point and its direction. */
enum { RECORD = BGZ_HATCH_RECORD_FLOATS, LINE = RECORD - BGZ_LINE_FLOATS, DIRECTION_X = LINE + 2 };

/* Room for the lines of any face of a hatch list, and for what they give. */
enum { LINES = BGZ_LINE_FLOATS * BGZ_HATCH_RECORDS_MAX, RESULTS = BGZ_LINE_RESULT_FLOATS * BGZ_HATCH_RECORDS_MAX };

/* A hatch line, and the box of the face that it fills. */
struct line {
    bgz_aabb2 face;
    bgz_vec2 origin;
    bgz_vec2 direction;
};

static struct line line_of(const float record[RECORD]) {
    return (struct line){
        .face = {record[0], record[1], record[2], record[3]},
        .origin = {record[4], record[5]},
        .direction = {record[6], record[7]},
    };
}

/* The sign of dy / dx, with no division: 1 for a line that rises, -1 for one that falls, 0 for the rest. */
static int slope(bgz_vec2 d) {
    int x = (d.x > 0) - (d.x < 0);
    int y = (d.y > 0) - (d.y < 0);
    return x * y;
}

static bgz_vec2 point_at(struct line line, float t) {
    return (bgz_vec2){line.origin.x + t * line.direction.x, line.origin.y + t * line.direction.y};
}

static bgz_interval_answer clip(struct line line) {
    return bgz_aabb_intersections_against_line(line.face, line.origin, line.direction);
}

/* The ends of a line in its box, and its section mark, which sits on the edge by which it comes in. */
static void print_ends(const char *kind, struct line line) {
    static const char *const EDGES[] = {
        [BGZ_EDGE_LEFT] = "left", [BGZ_EDGE_RIGHT] = "right", [BGZ_EDGE_LOWER] = "lower", [BGZ_EDGE_UPPER] = "upper"};
    bgz_interval_answer hit = clip(line);
    bgz_vec2 from = point_at(line, hit.tmin), to = point_at(line, hit.tmax);
    printf("first %s line: (%.3f, %.3f) to (%.3f, %.3f)\n", kind, from.x, from.y, to.x, to.y);
    if (hit.edge != BGZ_EDGE_NONE)
        printf("its section mark: on the %s edge at (%.3f, %.3f)\n", EDGES[hit.edge], from.x, from.y);
}

static void print_list(const char *what, const uint32_t *list, size_t count) {
    printf("%s:", what);
    for (size_t i = 0; i < count; i++)
        printf(" %" PRIu32, list[i]);
    printf("\n");
}

/* Counts the lines, and prints the ends of the first that rises and of the first that falls and does more than touch its box. */
static void print_section(const float *floats, size_t count) {
    size_t hits = 0, rising = 0, falling = 0;
    const float *first_rising = NULL, *first_falling = NULL;
    for (const float *record = floats; record < floats + RECORD * count; record += RECORD) {
        struct line line = line_of(record);
        bgz_interval_answer hit = clip(line);
        int sign = slope(line.direction);
        bool long_enough = hit.status == BGZ_ANSWERED && hit.tmin < hit.tmax;
        hits += hit.status == BGZ_ANSWERED;
        rising += sign > 0;
        falling += sign < 0;
        if (long_enough && sign > 0 && first_rising == NULL)
            first_rising = record;
        if (long_enough && sign < 0 && first_falling == NULL)
            first_falling = record;
    }
    printf("%zu lines: %zu hit, %zu rise, %zu fall\n", count, hits, rising, falling);
    if (first_rising != NULL)
        print_ends("rising", line_of(first_rising));
    if (first_falling != NULL)
        print_ends("falling", line_of(first_falling));
}

/* Clips all lines of the first record's face in one call. The list has a record. */
static void print_face(const float *floats, size_t count) {
    static float lines[LINES], results[RESULTS];
    size_t length = 0, hits = 0;
    for (const float *record = floats; record < floats + RECORD * count; record += RECORD) {
        if (memcmp(record, floats, LINE * sizeof *record) == 0) {
            memcpy(lines + length, record + LINE, BGZ_LINE_FLOATS * sizeof *record);
            length += BGZ_LINE_FLOATS;
        }
    }
    bgz_count_answer answer = bgz_aabb_intersections_against_lines(line_of(floats).face, lines, length, results, RESULTS);
    if (answer.status != BGZ_ANSWERED) {
        printf("first face: %s\n", bgz_refusal_text(answer.status));
        return;
    }
    for (size_t i = 0; i < answer.count; i += BGZ_LINE_RESULT_FLOATS)
        hits += results[i] == 1;
    printf("first face: %zu lines, %zu hit\n", length / BGZ_LINE_FLOATS, hits);
}

/*
 * Negates the direction's x of the first record, so that its line leans the other way, and makes the bytes to store.
 * Records are saved by their bits: what is not corrected stays as it was, byte for byte. The bytes are those of a list that
 * was read and has a record.
 */
static void print_saved(const uint8_t *bytes, size_t length) {
    static uint32_t patterns[FLOATS];
    static uint8_t saved[BGZ_HATCH_BYTES_MAX];
    bgz_read_answer read = bgz_hatch_read_patterns(bytes, length, patterns, FLOATS);
    float dx;
    memcpy(&dx, &patterns[DIRECTION_X], sizeof dx);
    dx = -dx;
    memcpy(&patterns[DIRECTION_X], &dx, sizeof dx);
    bgz_count_answer answer = bgz_hatch_write_patterns(patterns, RECORD * read.count, saved, sizeof saved);
    if (answer.status != BGZ_ANSWERED) {
        printf("to save: %s\n", bgz_refusal_text(answer.status));
        return;
    }
    size_t changed = 0;
    for (size_t i = 0; i < answer.count; i++)
        changed += saved[i] != bytes[i];
    printf("to save: %zu bytes, %zu changed\n", answer.count, changed);

    /* Another draftsman's list is still as it was read: the merged list has all its lines, and the corrected one. */
    static uint8_t merged[BGZ_HATCH_BYTES_MAX];
    bgz_merge_answer both = bgz_hatch_merge(bytes, length, saved, answer.count, merged, sizeof merged);
    if (both.status == BGZ_ANSWERED)
        printf("merged: %zu bytes\n", both.count);
    else
        printf("merged: %s\n", bgz_refusal_text(both.status));
}

int main(int argc, char **argv) {
    static uint8_t bytes[BYTES];
    static float floats[FLOATS];
    FILE *file = argc == 2 ? fopen(argv[1], "rb") : NULL;
    if (file == NULL) {
        fprintf(stderr, "usage: section FILE\n");
        return 2;
    }
    size_t length = fread(bytes, 1, BYTES, file);
    fclose(file);

    bgz_read_answer read = bgz_hatch_read_floats(bytes, length, floats, FLOATS);
    if (read.status != BGZ_ANSWERED) {
        const char *text = bgz_refusal_text(read.status);
        fprintf(stderr, "refused %" PRIu32 " at byte %zu: %s\n", read.status, read.place, text);
        return 1;
    }
    print_section(floats, read.count);
    if (read.count > 0) {
        print_face(floats, read.count);
        print_saved(bytes, length);
    }

    /* A stroke and its falling twin, in an image of 8 by 8 pixels. */
    uint32_t list[16];
    bgz_vec2 low_left = {0.5f, 0.5f}, low_right = {3.5f, 0.5f}, high_left = {0.5f, 3.5f}, high_right = {3.5f, 3.5f};
    bgz_count_answer pixels = bgz_edge2_overlapping_pixels_dda(8, 8, low_left, high_right, list, 16);
    print_list("rising stroke", list, pixels.count);
    pixels = bgz_edge2_overlapping_pixels_dda(8, 8, high_left, low_right, list, 16);
    print_list("falling stroke", list, pixels.count);

    /*
     * A stroke along a row to the right margin: the closing entry is the next row's first pixel, which the stroke does not
     * cross. Without it each entry is a pixel of the image. How many entries there are at most is known beforehand.
     */
    bgz_vec2 in_row = {4.5f, 2.5f}, at_margin = {7.5f, 2.5f};
    pixels = bgz_edge2_overlapping_pixels_dda(8, 8, in_row, at_margin, list, 16);
    print_list("stroke to the margin", list, pixels.count);
    pixels = bgz_edge2_pixels_inside(8, 8, in_row, at_margin, list, 16);
    print_list("its pixels inside", list, pixels.count);
    printf("entries at most: %zu\n", bgz_edge2_pixels_bound(8, 8, in_row, at_margin).count);

    /* A stroke to a point whose x is a NaN is refused, and the place tells which of the four coordinates it is. */
    bgz_vec2 nowhere = {NAN, 3.5f};
    pixels = bgz_edge2_overlapping_pixels_dda(8, 8, low_left, nowhere, list, 16);
    printf("stroke refused: %" PRIu32 " at %zu\n", pixels.status, pixels.place);

    /* A box on a sheet of 4 by 3 tiles of side 16. */
    bgz_aabb2 face = {10, 10, 40, 20};
    bgz_count_answer tiles = bgz_aabb2_overlapping_tiles(face, 16, 4, 3, list, 16);
    print_list("tiles", list, tiles.count);

    /* The same with a list that is an entry too short: the call is refused, and the list keeps its entries. */
    uint32_t kept[5] = {9, 9, 9, 9, 9};
    bgz_count_answer refused = bgz_aabb2_overlapping_tiles(face, 16, 4, 3, kept, 5);
    printf("refusal: %" PRIu32 "\n", refused.status);
    print_list("list", kept, 5);
    return 0;
}
