#define _POSIX_C_SOURCE 200809L /* getline */
#include "ask.h"
#include <errno.h>
#include <stdio.h>
#include <stdlib.h>
#include <string.h>

static const char HELP[] =
    "usage: ./ask [--decimal]               one request a line on standard input, one answer a line on standard output\n"
    "       ./ask [--decimal] NAME FIELD..  one request\n"
    "       ./ask --list                    the names, each with its fields\n"
    "       ./ask --help                    this text\n"
    "\n"
    "A request is a routine's name and its fields, one space apart. The name MODULE.ROUTINE stands for bgz_MODULE_ROUTINE\n"
    "of bagnoszyk.h, and every routine has one but bgz_hatch_report. These are shorter: aabb.line, aabb.ray, aabb_3.line\n"
    "and aabb_3.ray for intersections_against_line and .._ray, aabb.lines for intersections_against_lines, aabb.include\n"
    "and aabb_3.include for is_include_point, aabb3.is_possible_distance for\n"
    "is_possible_distance_to_aabb2_smaller_than_threshold, hatch.read and hatch.write for read_patterns and write_patterns.\n"
    "\n"
    "A field is one of these:\n"
    "  float         eight hexadecimal digits of its bits, 3fc00000, or a decimal: 1.5, -0.25, 1e9, 12. Digits alone\n"
    "                are a decimal if there are at most six, and bits if there are eight; 1048576 is written 1048576.0.\n"
    "                Infinity and NaN are given as bits: 7f800000, 7fc00000.\n"
    "  whole number  decimal; marked :u by --list. The one named room is the length of the list that the routine is lent\n"
    "                to write to, in entries: floats for hatch.read, bytes for hatch.write and hatch.merge. It may be any;\n"
    "                what exceeds all that can be written is cut.\n"
    "  list          any number of floats, marked :f* by --list; or of the bits of floats, eight digits each, which are\n"
    "                kept as they are: marked :p*.\n"
    "  bytes         one word, two hexadecimal digits a byte, - for none; marked :b by --list.\n"
    "A point is x y; a range low high; an upright box min_x min_y max_x max_y; a turned box its centre cx cy and two\n"
    "half edges ux uy vx vy; a matrix nine numbers, column by column. In space a point is x y z, an upright box\n"
    "min_x min_y min_z max_x max_y max_z, a turned box its centre and three half edges. aabb3.set_as_cube takes a box\n"
    "first, on which nothing depends.\n"
    "\n"
    "An answer is one of these:\n"
    "  numbers       a float as its bits, any zero as 00000000 and any NaN as nan, or with --decimal in decimal; whole\n"
    "                numbers in decimal; 1 for yes and 0 for no; an edge, after the two t of a line or a ray, as left, right,\n"
    "                lower, upper, near, far or none, and in the results of aabb.lines as its number.\n"
    "  a list        its count and its entries, bytes as one word. hatch.read and hatch.read_floats give the version first.\n"
    "  none          there is none of what was asked for.\n"
    "  refused N     by the numbers of bagnoszyk.h, with the place after it where the refusal tells one. After a refusal of\n"
    "                hatch.merge stand the list, 1 or 2, and its byte, or 0 0 if the merged list is refused.\n"
    "  bad request   the routine was not called, and standard error says why.\n"
    "  damaged       the routine changed an entry that it should not have, told of more entries than there was room for,\n"
    "                gave numbers beside a refusal, told a list or a place wrongly, or told an edge that is none of these: a\n"
    "                fault of the library.\n"
    "hatch.read, hatch.write and hatch.merge keep the bits of floats as they are, with --decimal too. hatch.read_floats\n"
    "gives floats, and hatch.write_floats writes any NaN as 7fc00000.\n"
    "\n"
    "Exit status: 0; 1 if a request given as arguments is bad, an option is unknown, or reading or writing fails.\n"
    "\n"
    "  ./ask --decimal aabb.line 0 0 4 2 6 -1 -1 1                        answers: 2 3 right\n"
    "  ./ask --decimal aabb.lines 0 0 4 2 8 6 -1 -1 1 6 -1 1 1            answers: 8 1 2 3 2 0 0 0 0, with room for eight\n"
    "  ./ask edge2.overlapping_pixels_dda 8 8 0.5 0.5 7fc00000 0.5 9      answers: refused 15 2\n"
    "  ./ask hatch.read 8 48534c02000000                                  answers: refused 11 3\n"
    "  ./ask hatch.write 7                                                answers: 7 48534c01000000, a list of no records\n"
    "  ./ask hatch.merge 7 48534c01000000 48534c02000000                  answers: refused 11 2 3\n";

/* Ends the program after a call that failed. */
static void fail(const char *what) {
    fprintf(stderr, "ask: cannot %s: %s\n", what, strerror(errno));
    exit(EXIT_FAILURE);
}

/* Writes a text to standard error, with \xNN for a byte that is no visible character of ASCII and no space. */
static void say(const char *text) {
    for (; *text != '\0'; text++) {
        unsigned char byte = (unsigned char)*text;
        fprintf(stderr, byte >= 0x20 && byte <= 0x7e ? "%c" : "\\x%02x", byte);
    }
}

/* What --list prints after a field's name. */
static const char *mark_of(char letter) {
    switch (letter) {
    case 'f': return "";
    case 'F': return ":f*";
    case 'P': return ":p*";
    case 'B': return ":b";
    default: return ":u";
    }
}

static void print_list(void) {
    for (const struct routine *r = routines; r < routines + routine_count; r++) {
        if (r->name == NULL)
            continue;
        printf("%s", r->name);
        const char *field = r->fields;
        for (const char *letter = r->takes; *letter != '\0'; letter++) {
            int length = (int)strcspn(field, " ");
            printf(" %.*s%s", length, field, mark_of(*letter));
            field += length + 1;
        }
        printf("\n");
    }
}

/* Each answer is written at once: whoever asks may wait for it before the next request. */
static void print_answer(const char *text) {
    if (puts(text) == EOF || fflush(stdout) == EOF)
        fail("write the answers");
}

/* Answers a line. False if it is a bad request. */
static bool answer(char *line, bool decimal) {
    struct request request;
    bool good = read_request(line, &request);
    if (good) {
        struct reply reply = ask(request.routine, &request.input);
        char *text = reply_text(request.routine, &reply, decimal);
        print_answer(text);
        free(text);
        free(reply.list);
    } else {
        print_answer("bad request");
        say("bad request: ");
        say(request.reason);
        fputs("\n", stderr);
    }
    free_request(&request);
    return good;
}

static void answer_lines(bool decimal) {
    char *line = NULL;
    size_t room = 0;
    for (ssize_t length; (length = getline(&line, &room, stdin)) > 0;) {
        if (line[length - 1] == '\n')
            line[--length] = '\0';
        /* A line that holds a zero byte has no routine's name. */
        if (strlen(line) != (size_t)length)
            line[0] = '\0';
        answer(line, decimal);
    }
    if (!feof(stdin))
        fail("read the requests");
    free(line);
}

/* The words as a line. */
static char *joined(char **words) {
    size_t length = 1;
    for (char **word = words; *word != NULL; word++)
        length += strlen(*word) + 1;
    char *line = calloc(length, 1);
    for (char **word = words; line != NULL && *word != NULL; word++) {
        strcat(line, word == words ? "" : " ");
        strcat(line, *word);
    }
    return line;
}

/* Serves an option that stands alone. */
static void obey(const char *option) {
    if (strcmp(option, "--help") == 0 || strcmp(option, "-h") == 0)
        fputs(HELP, stdout);
    else if (strcmp(option, "--list") == 0)
        print_list();
    else {
        say("ask: no option ");
        say(option);
        fputs("; see --help\n", stderr);
        exit(EXIT_FAILURE);
    }
    if (fflush(stdout) == EOF || ferror(stdout))
        fail("write the answers");
}

int main(int argc, char **argv) {
    (void)argc;
    /* A message on standard error is written line by line, not character by character. */
    setvbuf(stderr, NULL, _IOLBF, BUFSIZ);
    char **word = argv + 1;
    bool good = true, decimal = false;
    for (; *word != NULL && strcmp(*word, "--decimal") == 0; word++)
        decimal = true;
    if (*word == NULL)
        answer_lines(decimal);
    else if (**word == '-')
        obey(*word);
    else {
        char *line = joined(word);
        if (line == NULL)
            fail("read the requests");
        good = answer(line, decimal);
        free(line);
    }
    return good ? EXIT_SUCCESS : EXIT_FAILURE;
}
