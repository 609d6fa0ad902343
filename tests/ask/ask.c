#include "ask.h"
#include "bagnoszyk.h"
#include <stdio.h>
#include <stdlib.h>
#include <string.h>

/* The bytes after a lent list that must stay as they are. */
enum { GUARD = 64 };

/* No routine lists more: every tile of the largest sheet. */
static const uint64_t MOST_ENTRIES = (uint64_t)BGZ_IMAGE_SIDE_MAX * BGZ_IMAGE_SIDE_MAX;

/* The bytes of a float in a hatch list, and of a hatch list those before its records. */
enum { FLOAT_BYTES = 4, HEADER_BYTES = BGZ_HATCH_BYTES_MAX - FLOAT_BYTES * BGZ_HATCH_FLOATS_MAX };

const size_t ask_sizes[4] = {
    sizeof(struct routine), sizeof(struct input), sizeof(struct reply), sizeof(struct request)};

const struct routine *routine_named(const char *name) {
    for (size_t i = 0; i < routine_count; i++)
        if (routines[i].name != NULL && strcmp(routines[i].name, name) == 0)
            return &routines[i];
    return NULL;
}

bool is_read(char letter) {
    return letter == 'F' || letter == 'P' || letter == 'B';
}

size_t entry_size(char letter) {
    return letter == 'b' || letter == 'B' ? 1 : 4;
}

/* What a byte of a list holds before the call, by its place. */
static uint8_t filling(size_t place) {
    return (uint8_t)(0x5a ^ place ^ place >> 8);
}

static uint8_t *lend(size_t bytes) {
    uint8_t *list = malloc(bytes + GUARD);
    if (list == NULL) {
        fprintf(stderr, "no memory for a list of %zu bytes\n", bytes);
        exit(1);
    }
    for (size_t i = 0; i < bytes + GUARD; i++)
        list[i] = filling(i);
    return list;
}

/*
 * Whether the routine tells of more entries than there was room for, or a byte was changed after the entries that it tells
 * of, in the list or in the guard behind it. An entry has `size` bytes.
 */
static bool is_damaged(const uint8_t *list, size_t size, size_t written, size_t room) {
    if (written > room)
        return true;
    for (size_t i = size * written; i < size * room + GUARD; i++)
        if (list[i] != filling(i))
            return true;
    return false;
}

bool is_empty(const struct routine *routine, const struct answer *answer) {
    for (size_t i = 0; routine->gives[i] != '\0'; i++)
        if (routine->gives[i] == 'f' ? answer->values[i].f != 0 : answer->values[i].u != 0)
            return false;
    return true;
}

bool tells_place(const struct routine *routine, uint32_t status) {
    return status <= last_refusal && (routine->places >> status & 1) != 0;
}

static size_t count_read(const struct routine *routine) {
    size_t count = 0;
    for (const char *letter = routine->lists; *letter != '\0'; letter++)
        count += is_read(*letter);
    return count;
}

bool tells_rightly(const struct routine *routine, const struct answer *answer) {
    if (!tells_place(routine, answer->status))
        return answer->list == 0 && answer->place == 0;
    if (!routine->tells_list)
        return answer->list == 0;
    return answer->list <= count_read(routine) && (answer->list != 0 || answer->place == 0);
}

const char *edge_name(uint64_t number) {
    static const char *const NAMES[] = {
        [BGZ_EDGE_NONE] = "none",   [BGZ_EDGE_LEFT] = "left", [BGZ_EDGE_RIGHT] = "right", [BGZ_EDGE_LOWER] = "lower",
        [BGZ_EDGE_UPPER] = "upper", [BGZ_EDGE_NEAR] = "near", [BGZ_EDGE_FAR] = "far",
    };
    return number < sizeof NAMES / sizeof NAMES[0] ? NAMES[number] : NULL;
}

bool tells_edges(const struct routine *routine, const struct answer *answer) {
    for (size_t i = 0; routine->gives[i] != '\0'; i++)
        if (routine->gives[i] == 'n' && edge_name(answer->values[i].u) == NULL)
            return false;
    return true;
}

size_t entries_written(const struct routine *routine, const struct answer *answer) {
    for (size_t i = 0; routine->gives[i] != '\0'; i++)
        if (routine->gives[i] == 'l' || routine->gives[i] == 'e')
            return answer->values[i].u * (routine->gives[i] == 'e' ? BGZ_HATCH_RECORD_FLOATS : 1);
    return 0;
}

/* How many floats are not of a list, and the place of the first room among the whole numbers. */
static size_t single_floats(const char *takes) {
    size_t count = 0;
    for (; *takes != '\0'; takes++)
        count += *takes == 'f';
    return count;
}

static size_t place_of_room(const char *takes) {
    size_t place = 0;
    for (; *takes != 'r'; takes++)
        place += *takes == 'u';
    return place;
}

/*
 * The length of the list to lend: the room, cut where it exceeds all that can be written. A routine that reads lists
 * writes at most four entries for each entry of those lists, and the bytes of a header; one entry more is lent.
 */
static size_t lent_length(const struct routine *routine, const struct input *input) {
    bool reads = strpbrk(routine->lists, "FPB") != NULL;
    uint64_t read = input->float_count + input->pattern_count;
    for (size_t i = 0; i < MOST_BYTE_LISTS; i++)
        read += input->bytes[i].length;
    uint64_t most = reads ? HEADER_BYTES + FLOAT_BYTES * read + 1 : MOST_ENTRIES;
    uint64_t room = input->wholes[place_of_room(routine->takes)];
    return room < most ? room : most;
}

/* The list that a routine reads, by its letter; of several lists of bytes the one at this place among them. */
static struct list read_list(const struct routine *routine, const struct input *input, char letter, size_t place) {
    size_t single = single_floats(routine->takes);
    if (letter == 'F')
        return (struct list){input->floats + single, input->float_count - single};
    if (letter == 'P')
        return (struct list){input->patterns, input->pattern_count};
    return input->bytes[place];
}

struct reply ask(const struct routine *routine, const struct input *input) {
    struct arguments in = {.floats = input->floats, .wholes = input->wholes};
    struct reply reply = {.list = NULL};
    size_t size = entry_size(routine->lists[0]), byte_lists = 0;
    for (size_t i = 0; routine->lists[i] != '\0'; i++) {
        if (is_read(routine->lists[i])) {
            in.lists[i] = read_list(routine, input, routine->lists[i], byte_lists);
            byte_lists += routine->lists[i] == 'B';
        } else {
            in.lists[i].length = lent_length(routine, input);
            in.lists[i].start = reply.list = lend(size * in.lists[i].length);
        }
    }
    routine->call(&in, &reply.answer);
    const struct answer *answer = &reply.answer;
    bool answered = answer->status == BGZ_ANSWERED;
    reply.damaged = !answered && !is_empty(routine, answer);
    reply.damaged |= !tells_rightly(routine, answer) || !tells_edges(routine, answer);
    if (reply.list != NULL) {
        size_t written = answered ? entries_written(routine, answer) : 0;
        reply.damaged |= is_damaged(reply.list, size, written, in.lists[0].length);
    }
    return reply;
}
