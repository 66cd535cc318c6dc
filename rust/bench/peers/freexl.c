/* Reads the cells of a workbook's first sheet with libfreexl and tells how many have a value. */
#include <freexl.h>
#include <stdio.h>

int main(int count, char **words) {
    const void *book = NULL;
    unsigned int rows = 0, row, cells = 0;
    unsigned short columns = 0, column;
    if (count != 2 || freexl_open(words[1], &book) != FREEXL_OK) return 1;
    if (freexl_select_active_worksheet(book, 0) != FREEXL_OK) return 1;
    if (freexl_worksheet_dimensions(book, &rows, &columns) != FREEXL_OK) return 1;
    for (row = 0; row < rows; row++) {
        for (column = 0; column < columns; column++) {
            FreeXL_CellValue cell;
            if (freexl_get_cell_value(book, row, column, &cell) != FREEXL_OK) return 1;
            cells += cell.type != FREEXL_CELL_NULL;
        }
    }
    printf("%u\n", cells);
    return freexl_close(book) == FREEXL_OK ? 0 : 1;
}
