// The panel's two calls: reading a sheet, and listing the sets that come together.
#ifndef RAVENBUREAU_PANEL_H
#define RAVENBUREAU_PANEL_H

#include <stddef.h>
#include <stdint.h>

// What both calls ask and promise:
//
// - Each answers one number: a count, which is below PANEL_REFUSED, or PANEL_REFUSED plus the number of a refusal.
// - Where several refusals are due, the first in the order that is given for the call comes.
// - Numbers are judged as numbers of 64 bits: 2^32 + 5 is no width.
// - A pointer and its length are bytes that the call may use until it returns. It keeps no pointer, allocates nothing and remembers nothing.
// - A pointer whose length is 0 may be any pointer, also NULL: nothing is read or written there. With any other length it points to so many bytes.
// - Bytes that a call reads are not its memory: the two do not overlap, and nobody else writes to either, or reads the memory, until the call returns.
// - Each byte of the memory has a value before the call, as after calloc. No alignment is asked.
// - Bytes of the memory that a call is not said to write keep their values.

// A refusal is answered as this plus its number.
#define PANEL_REFUSED (UINT64_C(1) << 40)

// The numbers of the refusals that the two calls give.
enum {
    PANEL_RANGE = 2,
    PANEL_BAD_BYTE = 3,
    PANEL_BAD_NUMBER = 4,
    PANEL_BAD_RISE = 5,
    PANEL_BAD_BLANK = 6,
    PANEL_NO_LINE_END = 7,
    PANEL_TOO_MANY = 8,
    PANEL_NO_PLACE = 9,
    PANEL_LONG = 10,
    PANEL_RAGGED = 11,
    PANEL_STRAY = 12,
};

// A packed charge: its set of marks, mark i being bit i - 1, in four bytes, low byte first.
#define PANEL_CHARGE_BYTES 4

// A found record: a set (4 bytes), its support (4), its ordinal in the list, from 1 (8), and how many nodes were opened up to it (8), each low byte first.
#define PANEL_RECORD_BYTES 24

#ifdef __cplusplus
extern "C" {
#endif

// Reads a sheet of this width, and packs each of its charges into PANEL_CHARGE_BYTES of memory, one after another. Answers how many it packed.
// Each line but an empty one is a charge; a charge without marks is the line `0`. An empty line is no fault where charges or memory have run out.
// Refused: RANGE unless the width is 1 to 32, and nothing is written; LONG above 1,048,576 bytes of text, and nothing is written; then for the first fault from the
// left to the right: BAD BYTE, BAD NUMBER, BAD RISE, BAD BLANK, NO LINE END, and at a line end TOO MANY (charge 65,537), then NO PLACE (under 4 bytes of memory free).
// The charges of the lines before the faulty one stay packed.
uint64_t host_read(const uint8_t *text, size_t text_length, uint64_t width, uint8_t *memory, size_t memory_length);

// Writes the list of packed charges of this width as found records, one after another: every closed set of at most `most` marks that at least `support` charges hold,
// in list order. Answers how many records it wrote, which is the whole list.
// Refused: RANGE unless the width is 1 to 32; RANGE unless the support is 1 to 65,536; RAGGED unless the length of the bytes is a multiple of 4; TOO MANY above
// 65,536 charges; STRAY if a charge has a mark above the width: in all of these cases nothing is written. NO PLACE if records are left over, after as many as have place.
// A `most` of 32 or more limits nothing. Memory that the list fills exactly is enough, and an empty list needs none. Bytes at the end in which no record has place keep their values.
uint64_t host_list(const uint8_t *bytes, size_t bytes_length, uint64_t width, uint64_t support, uint64_t most, uint8_t *memory, size_t memory_length);

#ifdef __cplusplus
}
#endif

#endif
