/* Calls the gateway on the example book and on damaged copies of it. Every expected answer is worked out by hand
 * from the book's row (759 kg at 0 km, 1588 at 500, 2416 at 1000, .. 10701 at 6000, 12358 at 7000, .. 17329 at
 * 10000) and from the order of the checks. */
#include "tefrill.h"

#include <stdio.h>
#include <string.h>

#define BOOK_LENGTH 192

static uint8_t book[BOOK_LENGTH + 1];
static int failed;
static int called;

static void expect(int64_t expected, int64_t answered, const char *what)
{
    called++;
    if (expected != answered) {
        printf("%s: expected %lld, answered %lld\n", what, (long long)expected, (long long)answered);
        failed = 1;
    }
}

static int64_t ask(const char *type, uint32_t kind, uint32_t measure)
{
    return tefrill_fuel(book, BOOK_LENGTH, (const uint8_t *)type, strlen(type), kind, measure);
}

/* The answer for GL7T at 750 km with one byte of the book changed. */
static int64_t damaged(size_t at, uint8_t byte)
{
    uint8_t kept = book[at];
    book[at] = byte;
    int64_t answer = ask("GL7T", TEFRILL_DISTANCE, 750);
    book[at] = kept;
    return answer;
}

static void fuels(void)
{
    expect(759000, ask("GL7T", 1, 0), "0 km");
    expect(760658, ask("GL7T", 1, 1), "1 km");
    expect(1588000, ask("GL7T", 1, 500), "500 km");
    expect(2002000, ask("GL7T", 1, 750), "750 km");
    expect(11115250, ask("GL7T", 1, 6250), "6,250 km");
    expect(17329000, ask("GL7T", 1, 10000), "10,000 km");
}

static void refusals_of_the_book(void)
{
    const uint8_t *type = (const uint8_t *)"GL7T";
    expect(-1, tefrill_fuel(book, 0, type, 4, 1, 750), "no bytes");
    expect(-1, tefrill_fuel(book, 35, type, 4, 1, 750), "35 bytes");
    expect(-2, damaged(0, 226), "year 2018");
    expect(-3, damaged(12, 35), "first offset");
    expect(-3, tefrill_fuel(book, BOOK_LENGTH - 1, type, 4, 1, 750), "one byte short");
    expect(-3, tefrill_fuel(book, BOOK_LENGTH + 1, type, 4, 1, 750), "one byte long");
    expect(-4, damaged(36, 1), "first column");
    expect(-5, damaged(75, 4), "tier 4");
    expect(-6, damaged(178, 0), "State 0");
    expect(-7, damaged(191, 2), "mark 2");
    /* the book comes first, whatever else is wrong */
    expect(-1, tefrill_fuel(book, 35, type, 3, 9, 99999), "35 bytes and a short type");
}

static void refusals_of_the_flight(void)
{
    expect(-18, ask("", 1, 750), "type of 0 bytes");
    expect(-18, ask("GL7", 1, 750), "type of 3 bytes");
    expect(-18, ask("GL7T ", 1, 750), "type of 5 bytes");
    expect(-18, ask("GL7TT", 1, 750), "type of 5 characters");
    expect(-18, ask("gl7t", 1, 750), "small letters");
    expect(-18, ask("G   ", 1, 750), "one character");
    expect(-18, ask("G L7", 1, 750), "space inside");
    expect(-18, ask("GL7T", 0, 750), "kind 0");
    expect(-22, ask("GL7T", 2, 750), "kind 2 without a row");
    expect(-18, ask("GL7T", 3, 750), "kind 3");
    expect(-18, ask("GL7T", 4294967295u, 750), "the greatest kind");
    expect(-23, ask("GL7T", 1, 10001), "10,001 km");
    expect(-23, ask("GL7T", 1, 20020), "20,020 km");
    expect(-18, ask("GL7T", 1, 20021), "20,021 km");
    expect(-18, ask("GL7T", 1, 4294967295u), "the greatest distance");
    expect(-22, ask("GL7T", 2, 1500), "1,500 minutes");
    expect(-18, ask("GL7T", 2, 1501), "1,501 minutes");
    expect(-22, ask("C525", 1, 750), "another type");
    expect(-22, ask("GL7 ", 1, 750), "a type of three characters");
    expect(-22, ask("C525", 1, 20020), "another type, far");
}

int main(int argc, char **argv)
{
    FILE *file = argc == 2 ? fopen(argv[1], "rb") : NULL;
    if (file == NULL || fread(book, 1, sizeof book, file) != BOOK_LENGTH) {
        puts("usage: gateway_check BOOK, of 192 bytes");
        return 1;
    }
    fclose(file);
    fuels();
    refusals_of_the_book();
    refusals_of_the_flight();
    printf("gateway: %d calls compared\n", called);
    return failed;
}
