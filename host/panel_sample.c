// Lists the sets of a sample sheet through the panel's two calls, and prints them.
#include "ravenbureau_panel.h"

#include <inttypes.h>
#include <stdbool.h>
#include <stdio.h>
#include <stdlib.h>
#include <string.h>

enum { WIDTH = 5, SUPPORT = 2, MOST = 5, CHARGES = 6, SETS = 5 };

// An empty line is no charge, and a 0 alone on its line a charge without marks.
static const char sheet[] = "1 2 4\n1 2\n\n2 3\n1 2 4\n0\n3 5\n";

// Ends the program unless a fact holds.
static void expect(bool holds, const char *fact)
{
    if (!holds) {
        fprintf(stderr, "not so: %s\n", fact);
        exit(1);
    }
}

// Fresh memory of exactly this size.
static uint8_t *memory_of(size_t size)
{
    uint8_t *memory = calloc(size, 1);
    expect(memory != NULL, "there is memory");
    return memory;
}

// The number in so many bytes, low byte first.
static uint64_t number_at(const uint8_t *bytes, size_t length)
{
    uint64_t number = 0;
    while (length > 0) {
        length -= 1;
        number = number << 8 | bytes[length];
    }
    return number;
}

// Prints the marks of a record, and its support in brackets.
static void print_record(const uint8_t *record)
{
    uint64_t set = number_at(record, 4);
    for (int mark = 1; mark <= 32; mark += 1) {
        if (set >> (mark - 1) & 1) {
            printf("%d ", mark);
        }
    }
    printf("(%" PRIu64 ")\n", number_at(record + 4, 4));
}

// Prints the list, and at its end how many sets there are and how many nodes were opened. With no set, the one node is the root.
static void print_list(const uint8_t *records, uint64_t count)
{
    uint64_t opened = 1;
    for (uint64_t place = 0; place < count; place += 1) {
        const uint8_t *record = records + PANEL_RECORD_BYTES * place;
        print_record(record);
        opened = number_at(record + 16, 8);
    }
    printf("sets %" PRIu64 " opened %" PRIu64 "\n", count, opened);
}

// What is promised where memory is short, where it is none, and where a number is out of range.
static void expect_edges(const uint8_t *charges, const uint8_t *records)
{
    size_t charge_bytes = PANEL_CHARGE_BYTES * CHARGES;
    // The last record has one byte too few.
    size_t size = PANEL_RECORD_BYTES * SETS - 1;
    size_t written = PANEL_RECORD_BYTES * (SETS - 1);
    uint8_t *memory = memory_of(size);
    memset(memory, '*', size);
    expect(host_list(charges, charge_bytes, WIDTH + (UINT64_C(1) << 32), SUPPORT, MOST, memory, size) == PANEL_REFUSED + PANEL_RANGE, "a width is judged in 64 bits");
    expect(host_list(charges, charge_bytes - 1, WIDTH, SUPPORT, MOST, memory, size) == PANEL_REFUSED + PANEL_RAGGED, "charges have four bytes");
    expect(host_list(charges, charge_bytes, WIDTH - 1, SUPPORT, MOST, memory, size) == PANEL_REFUSED + PANEL_STRAY, "mark 5 is above the width 4");
    for (size_t place = 0; place < size; place += 1) {
        expect(memory[place] == '*', "these refusals write nothing");
    }
    expect(host_list(charges, charge_bytes, WIDTH, SUPPORT, UINT64_C(1) << 32, memory, size) == PANEL_REFUSED + PANEL_NO_PLACE, "one record is left over");
    expect(memcmp(memory, records, written) == 0, "as many records as have place are written");
    for (size_t place = written; place < size; place += 1) {
        expect(memory[place] == '*', "a tail that is shorter than a record keeps its bytes");
    }
    free(memory);
    expect(host_list(charges, charge_bytes, WIDTH, SUPPORT, MOST, NULL, 0) == PANEL_REFUSED + PANEL_NO_PLACE, "no record has place in no memory");
    expect(host_list(charges, charge_bytes, WIDTH, CHARGES + 1, MOST, NULL, 0) == 0, "an empty list needs no memory");
    expect(host_list(NULL, 0, WIDTH, SUPPORT, MOST, NULL, 0) == 0, "of no charges nothing is listed");
    expect(host_read(NULL, 0, WIDTH, NULL, 0) == 0, "an empty text is a sheet of no charges");
    static const uint8_t lines[] = {'\n', '0', '\n', '\n'};
    uint8_t charge[PANEL_CHARGE_BYTES] = {1, 1, 1, 1};
    expect(host_read(lines, sizeof lines, WIDTH, charge, sizeof charge) == 1, "empty lines are no charges, and take no memory");
    expect(number_at(charge, sizeof charge) == 0, "a 0 alone is a charge without marks");
}

int main(void)
{
    size_t text_length = sizeof sheet - 1;
    size_t charge_bytes = PANEL_CHARGE_BYTES * CHARGES;
    size_t record_bytes = PANEL_RECORD_BYTES * SETS;
    // The text without the zero byte that ends it in C, so that all that is handed in is of the exact size.
    uint8_t *text = memory_of(text_length);
    memcpy(text, sheet, text_length);
    uint8_t *charges = memory_of(charge_bytes);
    uint8_t *records = memory_of(record_bytes);

    expect(host_read(text, text_length, WIDTH, charges, charge_bytes) == CHARGES, "the sheet is read");
    expect(host_list(charges, charge_bytes, WIDTH, SUPPORT, MOST, records, record_bytes) == SETS, "the list fills its memory exactly");
    print_list(records, SETS);
    expect_edges(charges, records);

    free(records);
    free(charges);
    free(text);
    return 0;
}
