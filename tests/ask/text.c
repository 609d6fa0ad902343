#define _POSIX_C_SOURCE 200809L /* open_memstream */
#include "ask.h"
#include "bagnoszyk.h"
#include <errno.h>
#include <inttypes.h>
#include <math.h>
#include <stdio.h>
#include <stdlib.h>
#include <string.h>

#define DIGITS "0123456789"
#define HEX_DIGITS DIGITS "abcdefABCDEF"

static bool has_only(const char *field, const char *characters) {
    return field[0] != '\0' && field[strspn(field, characters)] == '\0';
}

/* ---- numbers */

static const char NO_FLOAT[] = "neither eight hexadecimal digits nor a decimal: past six digits it needs a point";

/*
 * Null, or what the field is instead of a float. Eight hexadecimal digits are a float's bits; anything else is a decimal.
 * Seven hexadecimal digits, or nine and more, are neither: more likely a digit of the bits was lost or added. A decimal of
 * so many digits can be written with a point.
 */
static const char *read_float(const char *field, float *x) {
    size_t length = strlen(field);
    if (has_only(field, HEX_DIGITS) && length >= 7) {
        uint32_t bits = (uint32_t)strtoul(field, NULL, 16);
        memcpy(x, &bits, sizeof bits);
        return length == 8 ? NULL : NO_FLOAT;
    }
    /* With these characters strtof reads decimals alone, and rounds them to the nearest float. */
    char *end;
    *x = strtof(field, &end);
    if (strpbrk(field, "nN") != NULL)
        return "no float: infinity and NaN are given as bits, 7f800000 and 7fc00000";
    if (!has_only(field, DIGITS ".eE+-") || field[0] == '+' || *end != '\0')
        return NO_FLOAT;
    return isfinite(*x) ? NULL : "too large for an f32";
}

/* Null, or what the field is instead of a whole number. */
static const char *read_whole(const char *field, uint64_t *n) {
    errno = 0;
    *n = strtoull(field, NULL, 10);
    return has_only(field, DIGITS) && errno == 0 ? NULL : "no whole number of 64 bits";
}

/* Null, or what the field is instead of the bits of a float. */
static const char *read_pattern(const char *field, uint32_t *bits) {
    *bits = (uint32_t)strtoul(field, NULL, 16);
    return has_only(field, HEX_DIGITS) && strlen(field) == 8 ? NULL : "not eight hexadecimal digits";
}

/* Null, or what the field is instead of bytes. */
static const char *read_bytes(const char *field, struct list *list) {
    if (strcmp(field, "-") == 0)
        return NULL;
    size_t length = strlen(field);
    uint8_t *bytes = list->start;
    if (!has_only(field, HEX_DIGITS))
        return "no bytes: they are hexadecimal digits, or - for none";
    if (length % 2 != 0)
        return "no bytes: they are two digits each, and these are odd in number";
    for (size_t i = 0; i < length / 2; i++) {
        char digits[] = {field[2 * i], field[2 * i + 1], '\0'};
        bytes[i] = (uint8_t)strtoul(digits, NULL, 16);
    }
    list->length = length / 2;
    return NULL;
}

/* The shortest decimal that reads back as the same float: nine digits tell every float from its neighbours. */
static void write_decimal(FILE *out, float x) {
    char text[32];
    int digits = 1;
    do
        snprintf(text, sizeof text, "%.*g", digits, (double)x);
    while (strtof(text, NULL) != x && digits++ < 9);
    fputs(text, out);
}

/* Any zero as +0, any NaN as nan. */
static void write_float(FILE *out, float x, bool decimal) {
    uint32_t bits;
    memcpy(&bits, &x, sizeof bits);
    if (isnan(x))
        fputs("nan", out);
    else if (decimal)
        write_decimal(out, x == 0 ? 0 : x);
    else
        fprintf(out, "%08" PRIx32, x == 0 ? 0 : bits);
}

/* ---- requests */

/* The next field, ended where it stands; null if there is none. */
static char *next_field(char **rest) {
    char *field = *rest;
    if (field != NULL) {
        char *space = strchr(field, ' ');
        if (space != NULL)
            *space++ = '\0';
        *rest = space;
    }
    return field;
}

static size_t count_fields(const char *rest) {
    size_t count = rest != NULL;
    for (; rest != NULL && *rest != '\0'; rest++)
        count += *rest == ' ';
    return count;
}

/* The name of the field at a place, and its length. */
static const char *field_name(const struct routine *routine, size_t place, int *length) {
    const char *name = routine->fields;
    for (; place > 0; place--)
        name = strchr(name, ' ') + 1;
    *length = (int)strcspn(name, " ");
    return name;
}

/* Whether there are as many fields as a routine takes; a list takes any number. */
static bool right_count(struct request *request, size_t given) {
    const struct routine *routine = request->routine;
    size_t single = strcspn(routine->takes, "FP");
    bool list = routine->takes[single] != '\0';
    if (given == single || (list && given > single))
        return true;
    snprintf(request->reason, sizeof request->reason, "%s takes %zu field%s%s, %zu given", routine->name, single,
             single == 1 ? "" : "s", list ? " and a list" : "", given);
    return false;
}

/* How many fields of the kinds of which an input does not tell it were read. */
struct counts {
    size_t wholes;
    size_t byte_lists;
};

/* Null, or what the field is instead of what it should be. */
static const char *read_field(struct input *input, char letter, const char *field, struct counts *counts) {
    if (letter == 'f' || letter == 'F')
        return read_float(field, &input->floats[input->float_count++]);
    if (letter == 'P')
        return read_pattern(field, &input->patterns[input->pattern_count++]);
    if (letter == 'B')
        return read_bytes(field, &input->bytes[counts->byte_lists++]);
    return read_whole(field, &input->wholes[counts->wholes++]);
}

static bool read_fields(struct request *request, char *rest) {
    const char *takes = request->routine->takes;
    size_t place = 0;
    struct counts counts = {0, 0};
    for (char *field; (field = next_field(&rest)) != NULL;) {
        const char *wrong = read_field(&request->input, takes[place], field, &counts);
        if (wrong != NULL) {
            int length;
            const char *name = field_name(request->routine, place, &length);
            const char *cut = strlen(field) > 40 ? ".." : "";
            snprintf(request->reason, sizeof request->reason, "%s: %.*s is '%.40s'%s, which is %s",
                     request->routine->name, length, name, field, cut, wrong);
            return false;
        }
        /* A list goes on to the end. */
        place += takes[place] != 'F' && takes[place] != 'P';
    }
    return true;
}

/* Null, or what is wrong with a line before its fields are looked at. */
static const char *wrong_line(const char *line, size_t length) {
    char last = length == 0 ? '\0' : line[length - 1];
    if (last == '\r')
        return "the line ends in a carriage return";
    return last == ' ' || strstr(line, "  ") != NULL ? "one space between fields, none at the end" : NULL;
}

static void *room_for(size_t count, size_t size) {
    void *start = calloc(count, size);
    if (start == NULL) {
        perror("no memory for a request");
        exit(1);
    }
    return start;
}

bool read_request(char *line, struct request *request) {
    size_t most = strlen(line);
    *request = (struct request){.routine = NULL};
    const char *wrong = wrong_line(line, most);
    if (wrong != NULL) {
        snprintf(request->reason, sizeof request->reason, "%s", wrong);
        return false;
    }
    char *rest = line;
    char *name = next_field(&rest);
    request->routine = routine_named(name);
    if (request->routine == NULL) {
        snprintf(request->reason, sizeof request->reason, "no routine is named '%.60s'", name);
        return false;
    }
    if (!right_count(request, count_fields(rest)))
        return false;
    struct input *input = &request->input;
    input->floats = room_for(most + 1, sizeof *input->floats);
    input->patterns = room_for(most + 1, sizeof *input->patterns);
    for (size_t i = 0; i < MOST_BYTE_LISTS; i++)
        input->bytes[i].start = room_for(most + 1, 1);
    return read_fields(request, rest);
}

void free_request(struct request *request) {
    free(request->input.floats);
    free(request->input.patterns);
    for (size_t i = 0; i < MOST_BYTE_LISTS; i++)
        free(request->input.bytes[i].start);
}

/* ---- as text */

/* A stream into memory; text and length are set when it is closed. */
static FILE *open_text(char **text, size_t *length) {
    FILE *out = open_memstream(text, length);
    if (out == NULL) {
        perror("no memory for a line");
        exit(1);
    }
    return out;
}

static void write_bytes(FILE *out, const uint8_t *bytes, size_t count) {
    fputs(count == 0 ? " -" : " ", out);
    for (size_t i = 0; i < count; i++)
        fprintf(out, "%02x", bytes[i]);
}

char *request_text(const struct routine *routine, const struct input *input) {
    char *text;
    size_t length;
    FILE *out = open_text(&text, &length);
    const float *floats = input->floats, *end = floats + input->float_count;
    const uint64_t *wholes = input->wholes;
    const struct list *bytes = input->bytes;
    fputs(routine->name, out);
    for (const char *letter = routine->takes; *letter != '\0'; letter++) {
        if (*letter == 'u' || *letter == 'r')
            fprintf(out, " %" PRIu64, *wholes++);
        else if (*letter == 'B') {
            write_bytes(out, bytes->start, bytes->length);
            bytes++;
        } else if (*letter == 'P')
            for (size_t i = 0; i < input->pattern_count; i++)
                fprintf(out, " %08" PRIx32, input->patterns[i]);
        for (bool more = *letter == 'f' || *letter == 'F'; more && floats < end; more = *letter == 'F') {
            uint32_t bits;
            memcpy(&bits, floats++, sizeof bits);
            fprintf(out, " %08" PRIx32, bits);
        }
    }
    fclose(out);
    return text;
}

static void write_value(FILE *out, char letter, union value value, bool decimal) {
    if (letter == 'f')
        write_float(out, value.f, decimal);
    else if (letter == 'i')
        fprintf(out, "%" PRId64, value.i);
    else if (letter == 'n')
        fputs(edge_name(value.u), out);
    else
        fprintf(out, "%" PRIu64, value.u);
}

/* Entries of a list by its letter, each after a space; bytes as one word. */
static void write_entries(FILE *out, char letter, const void *list, size_t count, bool decimal) {
    if (letter == 'b') {
        write_bytes(out, list, count);
        return;
    }
    for (size_t i = 0; i < count; i++) {
        fputs(" ", out);
        if (letter == 'f')
            write_float(out, ((const float *)list)[i], decimal);
        else
            fprintf(out, letter == 'p' ? "%08" PRIx32 : "%" PRIu32, ((const uint32_t *)list)[i]);
    }
}

static void write_answer(FILE *out, const struct routine *routine, const struct reply *reply, bool decimal) {
    for (size_t i = 0; routine->gives[i] != '\0'; i++) {
        fputs(i == 0 ? "" : " ", out);
        if (routine->gives[i] == 'l' || routine->gives[i] == 'e') {
            size_t count = entries_written(routine, &reply->answer);
            fprintf(out, "%zu", count);
            write_entries(out, routine->lists[0], reply->list, count, decimal);
        } else
            write_value(out, routine->gives[i], reply->answer.values[i], decimal);
    }
}

static void write_refusal(FILE *out, const struct routine *routine, const struct answer *answer) {
    fprintf(out, "refused %" PRIu32, answer->status);
    if (routine->tells_list)
        fprintf(out, " %" PRIu64 " %" PRIu64, answer->list, answer->place);
    else if (tells_place(routine, answer->status))
        fprintf(out, " %" PRIu64, answer->place);
}

char *reply_text(const struct routine *routine, const struct reply *reply, bool decimal) {
    char *text;
    size_t length;
    FILE *out = open_text(&text, &length);
    uint32_t status = reply->answer.status;
    if (reply->damaged)
        fputs("damaged", out);
    else if (status == BGZ_NONE)
        fputs("none", out);
    else if (status == BGZ_ANSWERED)
        write_answer(out, routine, reply, decimal);
    else
        write_refusal(out, routine, &reply->answer);
    fclose(out);
    return text;
}
