/* list < STREAM: the sheets and cells of a workbook stream, a line each, by the proved library.
 *
 *     tools/archive
 *     cc -std=c11 -Iinclude examples/list.c target/staticlib/libstation_c.a -o list
 *
 * or, where the library is installed,
 *
 *     cc -std=c11 list.c $(pkg-config --cflags --libs station) -o list
 */
#include <inttypes.h>
#include <stdio.h>
#include <stdlib.h>

#include "station.h"

/* One byte more than a stream may have is enough for the library to refuse it. */
enum { ENOUGH = STATION_LONGEST_STREAM + 1, BATCH = 128 };

struct place { size_t at; uint16_t part; uint8_t level; };

static const char *const kinds[] = {"blank", "number", "text", "truth", "error", "formula number", "formula text", "formula truth", "formula error", "formula empty"};

static void print_cell(const uint64_t *words) {
    unsigned row = words[0] & 0xFFFF, column = words[0] >> 16 & 0xFFFF, kind = words[0] >> 48 & 0xFFFF;
    printf("%u %u %s", row, column, kinds[kind]);
    switch (kind) {
    case 1: case 5: printf(" %016" PRIX64, words[1]); break;
    case 2: case 3: case 7: printf(" %" PRIu64, words[1]); break;
    case 4: case 8: printf(" %02" PRIX64, words[1]); break;
    }
    putchar('\n');
}

/* Goes through the cells from a place on, prints them if asked to, and counts them. */
static size_t go_through(const uint8_t *stream, size_t length, struct place from, bool print) {
    uint64_t words[STATION_CELL_WORDS * BATCH];
    size_t count = 0;
    for (;;) {
        struct station_filled batch = station_next_cells(stream, length, from.at, from.part, from.level, words, STATION_CELL_WORDS * BATCH);
        for (size_t i = 0; print && i < batch.cells; i++) print_cell(words + STATION_CELL_WORDS * i);
        count += batch.cells;
        if (batch.ended) return count;
        from = (struct place){batch.at, batch.part, batch.level};
    }
}

/* Goes through the sheets, and prints them with their cells if asked to; gives the number of cells. */
static size_t all_sheets(const uint8_t *stream, size_t length, size_t first, bool print) {
    size_t number = 0, cells = 0;
    for (size_t next = first;;) {
        struct station_sheet sheet = station_next_sheet(stream, length, next);
        if (sheet.ended) return cells;
        struct place start = {sheet.at, sheet.part, sheet.level};
        if (print) printf("sheet %zu rows %" PRIu32 "\n", number, station_rows(stream, length, sheet.at, sheet.part, sheet.level));
        cells += go_through(stream, length, start, print);
        next = sheet.next;
        number++;
    }
}

/* Lists a stream, or says why not. */
static int list(const uint8_t *stream, size_t length) {
    struct station_check check = station_check(stream, length);
    if (check.number != 0) {
        printf("refused %u at %zu\n", (unsigned)check.number, check.offset);
        return 1;
    }
    printf("sheets %zu strings %" PRIu32 " cells %zu\n", check.sheets, check.strings, all_sheets(stream, length, check.sheet, false));
    all_sheets(stream, length, check.sheet, true);
    return 0;
}

int main(void) {
    uint8_t *stream = malloc(ENOUGH);
    if (stream == NULL) return 2;
    size_t length = fread(stream, 1, ENOUGH, stdin);
    int status = ferror(stdin) ? 2 : list(stream, length);
    free(stream);
    return fflush(stdout) == 0 ? status : 2;
}
