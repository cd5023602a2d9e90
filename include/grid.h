/* The grid library from C: seven calls, proved (crates/face, crates/face_c). Link target/staticlib/libface.a, for x86-64 Linux, which `tools/archive` writes.
 *
 * A grid is lent to every call but grid_count: the header, a table of 14 * (capacity + 1) words, capacity + 1 values, and the capacity, 5 to 4,095.
 * Build, tape and check are also lent the counts, 39 numbers beside the table: how many leaves of level l have status s stands at place 3 * l + s. A
 * build and every accepted request leave a full count there, and a refused one changes none. Scan, lookup and page are not lent the counts and do not
 * ask about them; grid_count is lent nothing else. The lists may have any length and any contents: what is wrong with them is refused. Only this is
 * asked of a caller: every pointer is aligned and not null, also beside a length of 0; a list has as many places as its length says; and nothing that
 * a call writes overlaps anything else that it is lent.
 *
 * Every call returns the number of a refusal, or 0. What its last pointers name is always written: 0, or +0 for the value, when it is refused (of a
 * tape: what was done). The refused step changes nothing else. docs/FORMAT.md says what a tape, a table, a page and the flags are.
 *
 * The refusals, each given exactly when:
 *    1  table_len is not 14 * (capacity + 1), values_len is not capacity + 1, the capacity is not 5 to 4,095, or counts_len is not 39
 *    2  the columns or the rows are not 1 to 32, the mode is neither, or a ring has fewer than 3 rows
 *    3  header, table and values are not sound: they do not picture a grid; or the counts are not those of the grid's leaves
 *    4  the tape ends inside a request
 *    5  the kind of a request is none of 1 to 5
 *    6  the number is 0, above the capacity, or free
 *    7  the patch is no cell
 *    8  the cell has kids
 *    9  the cell's level is 12
 *   10  the cell is sentenced
 *   11  fewer numbers are free than needed
 *   12  a level-0 cell is to be sentenced, or a cell above level 0 to be killed
 *   13  the cell has no kids
 *   14  not all four kids are sentenced
 *   15  it is the only level-0 cell
 *   16  the value is infinite or not a number
 *   17  the order is no permutation of the four kid winds, the kind of scan is none of 1 to 6, from_level is below the start's level, or to_level
 *       is below from_level
 *   18  the output is too short
 *   19  no leaf holds the point, nor the points it is tried again at; or it lies past the rows of a ring
 *   21  the cell to be refined is above level 0, and one of the four places beside it on its level lies in the remaining area and is no cell
 *   22  beside one of the four kids to be removed, across an edge, lies a cell of their level that is none of them and has kids
 *   23  the level asked for is above 12, or the status above 2
 * (20 is the program's own.) Of a request the first of its list is given: refine 6, 7, 8, 9, 10, 21, 11; sentence 6, 7, 8, 12; remove 6, 7, 13, 14,
 * 22; kill 6, 7, 12, 8, 15; set value 6, 7, 8, 16. */
#ifndef GRID_H
#define GRID_H

#include <stddef.h>
#include <stdint.h>

#ifdef __cplusplus
extern "C" {
#endif

/* The mode of a grid. In a ring the load goes round: north of the highest row lies the lowest. */
enum { GRID_OPEN = 0, GRID_RING = 1 };

/* The rectangle of level-0 cells, its mode, and the edit mark: each accepted request adds 1, and 65,535 is followed by 0. The two bytes behind mark
 * are padding, and what they hold after a call is unspecified: compare headers field by field, not by memcmp. */
typedef struct {
    uint32_t columns, rows, mode;
    uint16_t mark;
} grid_header;

/* Builds the rectangle, blank: the header, all rows, all values and all counts, whatever they held. in_use: the numbers in use. Refuses 1, 2, 11. */
uint32_t grid_build(grid_header *header, int32_t *table, size_t table_len, double *values, size_t values_len, uint32_t *counts, size_t counts_len,
                    uint32_t capacity, uint32_t columns, uint32_t rows, uint32_t mode, uint32_t *in_use);

/* Runs requests end to end, up to the first that is refused. done: those carried out. offset: the refused request's first byte, or tape_len.
 * Refuses 1 to 16, 21 and 22. */
uint32_t grid_tape(grid_header *header, int32_t *table, size_t table_len, double *values, size_t values_len, uint32_t *counts, size_t counts_len,
                   uint32_t capacity, const uint8_t *tape, size_t tape_len, size_t *done, size_t *offset);

/* Whether the table, the values and the header are sound, and the counts those of the leaves: 0 for yes, or 1, 2, 3. */
uint32_t grid_check(const grid_header *header, const int32_t *table, size_t table_len, const double *values, size_t values_len,
                    const uint32_t *counts, size_t counts_len, uint32_t capacity);

/* How many leaves of a level have a status: 0 blank, 1 measured, 2 carried. The answer is the number that stands in the counts; they are held against
 * nothing. Refuses 1, 23. */
uint32_t grid_count(const uint32_t *counts, size_t counts_len, uint32_t level, uint32_t status, uint32_t *count);

/* Writes the numbers that a walk down from start meets, a patch before its kids, on the levels from_level to to_level. order: the four kid winds,
 * NE 1, SE 2, SW 3, NW 4. kind: 1 patches, 2 cells, 3 leaves, 4 H-walls, 5 V-walls, 6 points. count: how many were written; places past them stay.
 * Refuses 1, 2, 3, 6, 17, 18; an order of another length than 4 is 17. */
uint32_t grid_scan(const grid_header *header, const int32_t *table, size_t table_len, const double *values, size_t values_len, uint32_t capacity,
                   uint32_t start, const uint8_t *order, size_t order_len, uint32_t kind, int32_t from_level, int32_t to_level,
                   uint16_t *out, size_t out_len, uint32_t *count);

/* The leaf that holds a point, given in 1/4096 of a level-0 cell. A leaf holds its lower and left edges; a point that none holds is tried again one
 * unit to the left, one unit down, then both, never below 0, so that the upper and right edges of the area belong to the leaves that end there.
 * In a ring a load of rows * 4096 or more is 19 at once, and no try goes round. status: 0 blank, 1 measured, 2 carried down from the parent; value: +0
 * if blank. The stack that a lookup takes does not grow with the levels. Refuses 1, 2, 3, 19. */
uint32_t grid_lookup(const grid_header *header, const int32_t *table, size_t table_len, const double *values, size_t values_len, uint32_t capacity,
                     uint32_t speed, uint32_t load, uint32_t *number, uint32_t *status, double *value);

/* Writes the dossier page. count: its bytes; places past them stay. Refuses 1, 2, 3, 18. */
uint32_t grid_page(const grid_header *header, const int32_t *table, size_t table_len, const double *values, size_t values_len, uint32_t capacity,
                   uint8_t *out, size_t out_len, size_t *count);

#ifdef __cplusplus
}
#endif

#endif
