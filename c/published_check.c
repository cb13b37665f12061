/* Asks the gateway for every row of the published models: published_check BOOK CSV.
 * Every expected answer comes from the CSV alone: at a column its fuel, half-way between two columns the mean of
 * their fuels (every gap is even, so half-way is a whole measure), one past the row's last column refusal 23. */
#include "tefrill.h"

#include <stdio.h>
#include <stdlib.h>
#include <string.h>

#define ROWS 416
#define COLUMNS 17
#define LONGEST_BOOK 1048576
#define BEYOND (-23)

static const uint32_t distances[COLUMNS] = {0,    500,  1000, 1500, 2000, 2500, 3000, 3500, 4000,
                                            4500, 5000, 5500, 6000, 7000, 8000, 9000, 10000};
static const uint32_t times[COLUMNS] = {0,   60,  120, 180, 240, 300, 360, 420, 480,
                                        540, 600, 660, 720, 780, 840, 900, 960};

struct row {
    char type[5]; /* filled up with spaces */
    uint32_t kind;
    size_t count;
    int64_t fuels[COLUMNS];
};

static uint8_t book[LONGEST_BOOK + 1];
static size_t book_length;
static long disagreed;

static void expect(const struct row *row, uint32_t measure, int64_t expected)
{
    int64_t answered = tefrill_fuel(book, book_length, (const uint8_t *)row->type, 4, row->kind, measure);
    if (answered == expected)
        return;
    if (++disagreed <= 10)
        printf("%s %s: expected %lld, answered %lld at %lu\n", row->type,
               row->kind == TEFRILL_DISTANCE ? "distance" : "time", (long long)expected, (long long)answered,
               (unsigned long)measure);
}

/* A line `type,D or T,tier,fuels` with its newline; the fuels are whole numbers, one space between. */
static int parse(const char *line, struct row *row)
{
    size_t length = strcspn(line, ",");
    if (length < 2 || length > 4)
        return 0;
    memcpy(row->type, "    ", 5);
    memcpy(row->type, line, length);
    const char *at = line + length;
    if ((at[1] != 'D' && at[1] != 'T') || at[2] != ',' || at[3] < '1' || at[3] > '3' || at[4] != ',')
        return 0;
    row->kind = at[1] == 'D' ? TEFRILL_DISTANCE : TEFRILL_TIME;
    at += 5;
    for (row->count = 0; row->count < COLUMNS; at++) {
        char *end;
        if (*at < '0' || *at > '9')
            return 0;
        row->fuels[row->count++] = strtol(at, &end, 10);
        at = end;
        if (*at == '\n')
            return row->count >= 2;
        if (*at != ' ')
            return 0;
    }
    return 0;
}

static void compare(const struct row *row)
{
    const uint32_t *columns = row->kind == TEFRILL_DISTANCE ? distances : times;
    for (size_t i = 0; i < row->count; i++)
        expect(row, columns[i], 1000 * row->fuels[i]);
    for (size_t i = 0; i + 1 < row->count; i++)
        expect(row, (columns[i] + columns[i + 1]) / 2, 500 * (row->fuels[i] + row->fuels[i + 1]));
    expect(row, columns[row->count - 1] + 1, BEYOND);
}

int main(int argc, char **argv)
{
    FILE *file = argc == 3 ? fopen(argv[1], "rb") : NULL;
    FILE *table = argc == 3 ? fopen(argv[2], "r") : NULL;
    char line[256];
    if (file == NULL || table == NULL || fgets(line, sizeof line, table) == NULL ||
        strcmp(line, "type,kind,tier,fuels\n") != 0) {
        puts("usage: published_check BOOK CSV");
        return 1;
    }
    book_length = fread(book, 1, sizeof book, file);
    fclose(file);

    long rows = 0, at_columns = 0, half_way = 0;
    while (fgets(line, sizeof line, table) != NULL) {
        struct row row;
        if (!parse(line, &row)) {
            printf("not a row: %s\n", line);
            return 1;
        }
        compare(&row);
        rows++;
        at_columns += (long)row.count;
        half_way += (long)row.count - 1;
    }
    fclose(table);

    printf("published rows: %ld rows, %ld at columns, %ld half-way, %ld past the end, ", rows, at_columns, half_way,
           rows);
    if (disagreed == 0)
        puts("all agreed");
    else
        printf("%ld disagreed\n", disagreed);
    if (rows != ROWS)
        printf("expected %d rows\n", ROWS);
    return disagreed != 0 || rows != ROWS;
}
