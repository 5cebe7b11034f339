/*
 * Turns a grid of heights into a survey file: what the lister, panel.c and
 * lines.c read.
 *
 *     grid [along_row along_column] <plot.grid >plot.svy
 *
 * A line of input is a row of the plot: whole millimetres, parted by blanks. Lines
 * without a number are passed over. The posts stand so many centimetres apart along a
 * row and along a column, 100 if nothing is said. A fault of the input is told on
 * standard error with its line and column, in bytes and counted from 1; then nothing
 * is written, and the status is 1.
 */
#include "surface_network.h"

#include <stdarg.h>
#include <stdio.h>
#include <stdlib.h>

static uint32_t rows, columns, along_row = 100, along_column = 100;
static size_t posts;
static int32_t heights[SN_MAX_POSTS];
static uint8_t file[SN_MAX_FILE];

/* Standard input: the byte ahead, or EOF, and where it stands. */
static int ahead;
static unsigned long line = 1, column = 1;

static void fault(unsigned long at, const char *format, ...)
{
    va_list values;

    va_start(values, format);
    fprintf(stderr, "grid: line %lu, column %lu: ", line, at);
    vfprintf(stderr, format, values);
    fprintf(stderr, "\n");
    va_end(values);
    exit(EXIT_FAILURE);
}

static void failure(const char *what)
{
    fprintf(stderr, "grid: %s\n", what);
    exit(EXIT_FAILURE);
}

static void look_ahead(void)
{
    ahead = getchar();
    if (ahead == EOF && ferror(stdin))
        failure("standard input cannot be read");
}

static void advance(void)
{
    column++;
    if (ahead == '\n') {
        line++;
        column = 1;
    }
    look_ahead();
}

static int is_blank(void)
{
    return ahead == ' ' || ahead == '\t' || ahead == '\r';
}

static int is_digit(void)
{
    return ahead >= '0' && ahead <= '9';
}

static int is_line_end(void)
{
    return ahead == '\n' || ahead == EOF;
}

static void no_number(void)
{
    if (ahead > ' ' && ahead < 127)
        fault(column, "'%c' is no part of a whole number", ahead);
    fault(column, "byte %d is no part of a whole number", ahead);
}

/* A size beyond the bound grows no more, so that digits without end are read. */
static int32_t read_height(void)
{
    unsigned long start = column;
    int negative = ahead == '-', is_signed = negative || ahead == '+';
    int32_t size = 0;

    if (is_signed)
        advance();
    if (is_signed && (is_blank() || is_line_end()))
        fault(start, "a sign without a number");
    if (!is_digit())
        no_number();
    for (; is_digit(); advance())
        size = size > SN_MAX_HEIGHT ? size : 10 * size + (ahead - '0');
    if (!is_blank() && !is_line_end())
        no_number();
    if (size > SN_MAX_HEIGHT)
        fault(start, "a height outside %d to %d", SN_MIN_HEIGHT, SN_MAX_HEIGHT);
    return negative ? -size : size;
}

/* Reads the number at this place of the row. */
static void read_post(uint32_t place)
{
    if (rows == SN_MAX_SIDE)
        fault(column, "a row too many; a plot has %d at most", SN_MAX_SIDE);
    if (rows > 0 && place == columns)
        fault(column, "a number too many; the first row has %lu", (unsigned long)columns);
    if (place == SN_MAX_SIDE)
        fault(column, "a number too many; a row has %d at most", SN_MAX_SIDE);
    heights[posts++] = read_height();
}

/* Reads to the end of the line. */
static void read_row(void)
{
    uint32_t count = 0;

    while (is_blank())
        advance();
    if (is_line_end())
        return;
    while (!is_line_end()) {
        read_post(count++);
        while (is_blank())
            advance();
    }
    if (count < columns)
        fault(column, "the row ends after %lu; the first row has %lu", (unsigned long)count,
              (unsigned long)columns);
    if (count < SN_MIN_SIDE)
        fault(column, "the row ends after one number; a plot has 2 columns or more");
    columns = count;
    rows++;
}

static void read_grid(void)
{
    look_ahead();
    read_row();
    while (ahead != EOF) {
        advance();
        read_row();
    }
    if (rows == 0)
        fault(column, "the input ends without a number");
    if (rows < SN_MIN_SIDE)
        fault(column, "the input ends after one row; a plot has 2 or more");
}

/* A spacing as digits. Past the bound it grows no more. */
static uint32_t spacing_of(const char *text)
{
    const char *digit = text;
    uint32_t spacing = 0;

    for (; *digit >= '0' && *digit <= '9'; digit++)
        spacing = spacing > SN_MAX_SPACING ? spacing : 10 * spacing + (uint32_t)(*digit - '0');
    if (*digit != '\0' || spacing < SN_MIN_SPACING || spacing > SN_MAX_SPACING) {
        fprintf(stderr, "grid: no spacing of %d to %d: %s\n", SN_MIN_SPACING, SN_MAX_SPACING, text);
        exit(EXIT_FAILURE);
    }
    return spacing;
}

int main(int argc, char **argv)
{
    size_t size;
    sn_answer answer;

    if (argc != 1 && argc != 3) {
        fprintf(stderr, "usage: grid [along_row along_column] <plot.grid >plot.svy\n");
        return 2;
    }
    if (argc == 3) {
        along_row = spacing_of(argv[1]);
        along_column = spacing_of(argv[2]);
    }
    read_grid();
    size = SN_FILE_SIZE(rows, columns);
    answer = sn_write_survey(rows, columns, along_row, along_column, heights, posts, file, size);
    if (answer.code != SN_OK)
        failure(sn_code_text(answer.code));
    if (fwrite(file, 1, size, stdout) != size || fflush(stdout) != 0)
        failure("standard output cannot be written");
    return EXIT_SUCCESS;
}
