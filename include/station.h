/* The questions about a workbook stream, for C. Link libstation (make install; pkg-config station), or the archive itself,
 * target/staticlib/libstation_c.a (tools/archive).
 *
 * Answers. Every function is defined for every argument: any bytes, any place, any number. A refusal's number is 0 where there is
 * none; what isn't answered is 0. After a refusal all lent memory holds what it held, but for a replay that an entry stopped.
 *
 * Lent memory. A slice is a pointer and a length, counted in what the pointer points to: bytes for a stream and for tokens, 16-bit
 * units for the room of a string, 32-bit numbers for a table, 64-bit words for the room of cells and differences. It must be valid for its length;
 * the pointer of an empty one must not be null, and all must be aligned. A stream and what is written must not overlap. Nothing is
 * kept after a call.
 *
 * Places (sheet, segment, at, end, part, level, next) are plain numbers, good for the stream that gave them until it is changed. A
 * granted correction moves none. With other numbers, or over other bytes, a function still ends, with some answer.
 *
 * Threads. There is no state beside the arguments, no allocation and no lock: any number of threads may ask at the same time, each
 * with its own buffers. A stream that is lent as const may be lent to many at once, but not while station_correct has it.
 *
 * Stack. No question needs more than 64 KB, whatever the stream.
 *
 * The longest stream has 16,777,216 bytes; a longer one is refused without a look at its bytes. */
#ifndef VAIGUNTHE_STATION_H
#define VAIGUNTHE_STATION_H

#include <stdbool.h>
#include <stddef.h>
#include <stdint.h>

#ifdef __cplusplus
extern "C" {
#endif

/* The version of this header, and of the library that is linked: major * 1,000,000 + minor * 1,000 + patch, here 0.1.0. Before
 * version 1 each minor version may change the layout of an answer: where the two differ in more than the patch, don't ask on. */
#define STATION_VERSION 1000
uint32_t station_version(void);

#define STATION_LONGEST_STREAM 16777216 /* bytes */
#define STATION_LONGEST_STRING 65535    /* units: a buffer of so many takes any string */
#define STATION_CELL_WORDS 4            /* words: the room that one cell takes */
#define STATION_STACK 65536             /* bytes: enough for any question */

/* The refusals. Where nothing else is said the offset is that of the header of the record being read. */
enum station_refusal {
    STATION_TOO_LONG = 1,         /* the stream, or the new one without its unused strings, is longer than 16,777,216 bytes; offset 0 */
    STATION_CUT_RECORD = 2,       /* a record's header or body passes the end of the stream, or its body is over 8,224 bytes */
    STATION_NO_GLOBALS = 3,       /* the stream is empty, or its first record is not the BOF of the globals; offset 0 */
    STATION_BAD_SUBSTREAMS = 4,   /* the rules of how substreams start, nest, follow each other and end are broken; where the stream ends, its length */
    STATION_ENCRYPTED = 5,        /* the workbook is encrypted: FILEPASS among the globals */
    STATION_BAD_RECORD = 6,       /* a record that is read has a wrong size or field, or a formula's text result is missing or broken */
    STATION_BAD_CONTINUE = 7,     /* a CONTINUE record has no parent to continue */
    STATION_BAD_STRINGS = 8,      /* the shared string table is broken; the offset is that of the segment being read */
    STATION_BAD_INDEX = 9,        /* a text cell's index is not below the number of shared strings */
    STATION_BAD_SHEETS = 10,      /* the sheet list and the substreams disagree; at the BOUNDSHEET, or the BOF that none names */
    STATION_ABSENT = 11,          /* the sheet, string or cell asked for is absent, or has no text result; offset 0 */
    STATION_NO_ROOM = 12,         /* the buffer has fewer units than the string or bytes than the new stream, the table under two numbers for each string, the journal no room; offset 0 */
    STATION_BAD_TOKEN = 13,       /* the formula has an unknown, cut or misplaced token, or a bad length; the offset is the token's */
    STATION_BAD_STACK = 14,       /* the formula's stack runs short, or does not end with one operand; at the token, or the formula's end */
    STATION_BAD_FUNCTION = 15,    /* the formula has no such function, or uses it wrongly; the offset is the token's */
    STATION_AMBIGUOUS = 16,       /* correction: two or more cells have the address; comparison: in some sheet an address has; offset 0 */
    STATION_WRONG_KIND = 17,      /* correction: the cell's kind does not take this kind of value, or the sheet is the template's; offset 0 */
    STATION_DOES_NOT_FIT = 18,    /* correction: the value does not fit the cell; offset 0 */
    STATION_MISMATCH = 19,        /* replay: the cell's value field is not what the entry says it was, or backwards what it wrote; offset 0 */
    STATION_NOT_A_SESSION = 20,   /* the stream is outside the profile of a sensor's session; offset 0 where no cell is at fault */
    STATION_BAD_JOURNAL = 21,     /* the journal is cut, malformed or for a stream of another length or number of strings; offset 0 */
};

struct station_check { uint8_t number; size_t offset; size_t sheets; uint32_t strings; size_t sheet; size_t segment; size_t at; size_t end; };
struct station_answer { uint8_t number; size_t offset; };
struct station_units { uint8_t number; size_t offset; size_t units; };

/* check: how many sheets and shared strings, or the first fault; and the places from which both are read one after the other
 * without another check: sheet for station_next_sheet; segment, at and end for station_next_string */
struct station_check station_check(const uint8_t *stream, size_t length);

/* judge: a formula's token bytes, and the bytes after them, whose offsets are counted on from the tokens' end */
struct station_answer station_judge(const uint8_t *tokens, size_t length, const uint8_t *trailing, size_t trailing_length);

/* fetch: the units of a shared string at the front of the buffer; later units stay. room is the buffer's length in units. */
struct station_units station_fetch(const uint8_t *stream, size_t length, uint32_t index, uint16_t *units, size_t room);

/* the same for the next string from a place on, and the place after it. It is refused as 12 at 0 where the buffer has fewer units
 * than the string (65,535 are enough for any); ended says that no whole string follows. The place then stays. */
struct station_string { bool ended; uint8_t number; size_t offset; size_t units; size_t segment; size_t at; size_t end; };
struct station_string station_next_string(const uint8_t *stream, size_t length, size_t segment, size_t at, size_t end,
                                          uint16_t *units, size_t room);

/* fetch by cell: the units of the text result of a formula, the first listed cell of the address in a sheet; 11 where there is no such
 * cell, or it has no text result; 12 as for a string */
struct station_units station_text(const uint8_t *stream, size_t length, uint32_t sheet, uint32_t row, uint32_t column, uint16_t *units,
                                  size_t room);

/* the same for a listed cell, without another check: field is the offset of its value field; 11 where no text result stands there */
struct station_units station_text_at(const uint8_t *stream, size_t length, size_t field, uint16_t *units, size_t room);

/* fill: the place of each shared string into a lent table of 32-bit numbers, two for each string: the offset of its head, then that of the
 * header of the record it stands in; all further numbers become 4,294,967,295. After the check's refusals 12 where the table has under
 * two numbers for each string. numbers is the table's length. */
struct station_filled_table { uint8_t number; size_t offset; uint32_t strings; };
struct station_filled_table station_fill(const uint8_t *stream, size_t length, uint32_t *table, size_t numbers);

/* fetch through a table that was filled for the stream: as station_fetch, without another check. A granted correction leaves a table
 * good. With another table or stream: what reads as a string at the entry's place, or 11. */
struct station_units station_fetch_through(const uint8_t *stream, size_t length, const uint32_t *table, size_t numbers, uint32_t index,
                                           uint16_t *units, size_t room);

/* list: the sheets one after the other, from the place that station_check gives.
 * The name lies 12 bytes after header, size bytes long, width bytes a character; kind is 0 worksheet, 1 macro, 2 chart;
 * at, part and level are the place of the sheet's first cell. */
struct station_sheet { bool ended; size_t header; size_t size; size_t width; uint8_t kind; size_t at; uint16_t part; uint8_t level; size_t next; };
struct station_sheet station_next_sheet(const uint8_t *stream, size_t length, size_t place);

/* the row count of the cells from a place on, up to 65,536 */
uint32_t station_rows(const uint8_t *stream, size_t length, size_t at, uint16_t part, uint8_t level);

/* list: the cells of a sheet, as many at a time as the buffer has room for, four words each:
 *   row, column, format and the value's kind, 16 bits each from the lowest;
 *   the value: a number's 64 bits, a text's index, a truth or an error code, else 0;
 *   the offset of the value field (of a blank, of its format);
 *   the number of a formula's token bytes, which start 16 bytes after the value field, and of the bytes after them to the
 *   record's end, 16 bits each from the lowest.
 * Kinds: 0 blank, 1 number, 2 text, 3 truth, 4 error; a formula's result: 5 number, 6 text, 7 truth, 8 error, 9 empty.
 * room is the buffer's length in words; words after the cells that were written stay. The list ended, or goes on at the place at,
 * part, level. With room for less than one cell (under four words) it neither moves nor ends: a loop would go on for ever. */
struct station_cells { uint8_t number; size_t offset; size_t at; uint16_t part; uint8_t level; };
struct station_filled { size_t cells; bool ended; size_t at; uint16_t part; uint8_t level; };
struct station_cells station_cells(const uint8_t *stream, size_t length, uint32_t sheet);
struct station_filled station_next_cells(const uint8_t *stream, size_t length, size_t at, uint16_t part, uint8_t level,
                                         uint64_t *words, size_t room);

/* compare: where two streams differ, by sheet, row and column, a word each. From the lowest bit on a word has
 *   2 bits: 0 the names of a sheet in both differ, 1 the address is only in the first stream, 2 only in the second, 3 in both with
 *   unequal values;
 *   16 bits column, 16 bits row, 1 bit that is set for a cell and not for a name, and the sheet's number.
 * Names and text are compared by characters, numbers by their 64 bits, formulas by their results and not by their tokens; a formula
 * never equals a plain value. A sheet that is in one stream only has all its cells there, and nothing is said of its name.
 * The words from the key `from` on (a word without its 2 lowest bits, word / 4), as many as the buffer has room for; words after them
 * stay. They ascend. Where more is set, go on from the last word's key + 1. A call checks both streams: lend room for thousands.
 * which is 1 where the first stream is refused, 2 where it is the second, else 0: the first's refusal by the check, then the second's,
 * then 16 for an address that has two cells in a sheet of the first, then of the second. */
struct station_compared { uint8_t number; uint8_t which; size_t offset; size_t words; bool more; };
struct station_compared station_compare(const uint8_t *first, size_t first_length, const uint8_t *second, size_t second_length,
                                        uint64_t from, uint64_t *words, size_t room);

/* correct: one cell's value field. kind 0 takes number, 1 index (a text), 2 byte (a truth), any other byte (an error code) */
struct station_answer station_correct(uint8_t *stream, size_t length, uint32_t sheet, uint32_t row, uint32_t column,
                                      uint8_t kind, double number, uint32_t index, uint8_t byte);

/* One template, many sessions: the questions over a template and a session, each with at most two checks. A sheet comes whole from the
 * session, or from the template where the session has no sheet of that number. whose is 1 for the template, 2 for the session, 0 for
 * neither: in an answer it says whose stream is meant, in a refusal of the check which stream is refused (the template's refusals come
 * first); the refusals 11, 12, 16, 17 and 18 are the question's, with 0. */

/* check: how many sheets and strings each has. The session's text indices resolve in its own table if it has one (even an empty one), else in
 * the template's: table is whose. sheet is the place of the first sheet in either stream (the pair's sheets are the session's, then the
 * template's from that number on); segment, at and end are the places of the first string, for station_next_string on that stream. */
struct station_pair_check {
    uint8_t whose;
    uint8_t number;
    size_t offset;
    uint8_t table;
    size_t sheet;
    size_t template_sheets;
    uint32_t template_strings;
    size_t template_segment;
    size_t template_at;
    size_t template_end;
    size_t session_sheets;
    uint32_t session_strings;
    size_t session_segment;
    size_t session_at;
    size_t session_end;
};
struct station_pair_check station_pair_check(const uint8_t *template_stream, size_t template_length, const uint8_t *session, size_t session_length);

/* list: a sheet by its number. Its name lies 12 bytes after header in the stream that whose names, size bytes long, width bytes a character;
 * kind as for station_next_sheet */
struct station_pair_sheet { uint8_t whose; uint8_t number; size_t offset; size_t header; size_t size; size_t width; uint8_t kind; uint32_t rows; };
struct station_pair_sheet station_pair_sheet(const uint8_t *template_stream, size_t template_length, const uint8_t *session, size_t session_length,
                                             uint32_t sheet);

/* list: the place of a sheet's first cell, for station_next_cells on the stream that whose names */
struct station_pair_cells { uint8_t whose; uint8_t number; size_t offset; size_t at; uint16_t part; uint8_t level; };
struct station_pair_cells station_pair_cells(const uint8_t *template_stream, size_t template_length, const uint8_t *session, size_t session_length,
                                             uint32_t sheet);

/* fetch: a string by the template's index where asked is 1, else by the session's; whose is the table it was found in */
struct station_pair_units { uint8_t whose; uint8_t number; size_t offset; size_t units; };
struct station_pair_units station_pair_fetch(const uint8_t *template_stream, size_t template_length, const uint8_t *session, size_t session_length,
                                             uint8_t asked, uint32_t index, uint16_t *units, size_t room);

/* fetch by cell: the text result of a formula, as station_text, in the stream that has the sheet */
struct station_pair_units station_pair_text(const uint8_t *template_stream, size_t template_length, const uint8_t *session, size_t session_length,
                                            uint32_t sheet, uint32_t row, uint32_t column, uint16_t *units, size_t room);

/* correct: one cell of the session; 17 for a sheet that only the template has, ahead of 11, 12 and 16. whose is 2 where it is granted. */
struct station_pair_answer { uint8_t whose; uint8_t number; size_t offset; };
struct station_pair_answer station_pair_correct(const uint8_t *template_stream, size_t template_length, uint8_t *session, size_t session_length,
                                                uint32_t sheet, uint32_t row, uint32_t column, uint8_t kind, double number, uint32_t index,
                                                uint8_t byte);

/* fill: a table of string places for each stream; 12 where either has under two numbers for each of its strings, and then neither changes.
 * station_fetch_through then fetches from a stream by its table; a session without a string table gives 11. */
struct station_pair_filled { uint8_t whose; uint8_t number; size_t offset; uint32_t template_strings; uint32_t session_strings; };
struct station_pair_filled station_pair_fill(const uint8_t *template_stream, size_t template_length, const uint8_t *session, size_t session_length,
                                             uint32_t *template_table, size_t template_numbers, uint32_t *session_table,
                                             size_t session_numbers);

/* A journal of granted corrections: 16 bytes (u32 each, lower byte first: how many entries, 16, the stream's length, its number of shared
 * strings), then entries of 28 bytes. It is lent whole, with room for as many entries as are wanted; nothing is kept beside it.
 * start: writes the 16 bytes, count 0; 12 if fewer are lent. */
struct station_answer station_journal_start(const uint8_t *stream, size_t length, uint8_t *journal, size_t journal_length);

/* correct: as station_correct, and a granted correction writes its entry and the count. 21 right after the check's refusals; 12 where there
 * is no room for an entry, after 11 and before 16. */
struct station_answer station_journal_correct(uint8_t *stream, size_t length, uint8_t *journal, size_t journal_length, uint32_t sheet, uint32_t row,
                                              uint32_t column, uint8_t kind, double number, uint32_t index, uint8_t byte);

/* replay: all entries in order, or backwards undone from the last to the first. 21 right after the check's refusals. entries is how many were
 * replayed; where one was refused (11, 16, 17, 19 or 18) stopped is true, entries is that one's number, counted from 0 in the journal's
 * order, and those replayed before it stay. The journal is not written. */
struct station_replayed { uint8_t number; size_t offset; bool stopped; uint32_t entries; };
struct station_replayed station_replay(uint8_t *stream, size_t length, const uint8_t *journal, size_t journal_length, bool backwards);

/* the same for a session over a template: the journal has the session's length, and the number of strings of the table that the session's
 * text indices resolve in. An entry for a sheet that only the template has is 17. whose as for station_pair_correct; 0 for an entry. */
struct station_pair_answer station_pair_journal_start(const uint8_t *template_stream, size_t template_length, const uint8_t *session,
                                                      size_t session_length, uint8_t *journal, size_t journal_length);
struct station_pair_answer station_pair_journal_correct(const uint8_t *template_stream, size_t template_length, uint8_t *session,
                                                        size_t session_length, uint8_t *journal, size_t journal_length, uint32_t sheet,
                                                        uint32_t row, uint32_t column, uint8_t kind, double number, uint32_t index, uint8_t byte);
struct station_pair_replayed { uint8_t whose; uint8_t number; size_t offset; bool stopped; uint32_t entries; };
struct station_pair_replayed station_pair_replay(const uint8_t *template_stream, size_t template_length, uint8_t *session, size_t session_length,
                                                 const uint8_t *journal, size_t journal_length, bool backwards);

/* compact: the stream without its unused strings, at the front of a buffer of room bytes; later bytes stay. 1 where the new stream would be too long,
 * then 12 where the buffer has fewer bytes. written is its length; it may be more than the old one's */
struct station_compacted { uint8_t number; size_t offset; size_t written; };
struct station_compacted station_compact(const uint8_t *stream, size_t length, uint8_t *new_stream, size_t room);

/* the same for a session over a template: the session without the strings of its own table that it doesn't use. Without a table of its own it gets
 * none, and its indices stay. whose is 2 where it is written; the 1 of the new stream and 12 are the question's, with 0. */
struct station_pair_compacted { uint8_t whose; uint8_t number; size_t offset; size_t written; };
struct station_pair_compacted station_pair_compact(const uint8_t *template_stream, size_t template_length, const uint8_t *session,
                                                   size_t session_length, uint8_t *new_stream, size_t room);

/* profile: whether a stream is of the kind that the sensors write, with how many rows and columns (2, or 3 with the host's seconds); else
 * 20 after any refusal of the check, at the record of the first cell at fault */
struct station_profile { uint8_t number; size_t offset; uint32_t rows; uint32_t columns; };
struct station_profile station_profile(const uint8_t *stream, size_t length);

/* cadence: what lies between a row and the next; 11 if either is missing.
 * kind is 0 refused, 1 a pause, 2 ticks and turns that elapsed and no cadence, 3 with a cadence, turns per minute rounded down */
struct station_pair { uint8_t number; size_t offset; uint8_t kind; uint16_t ticks; uint16_t turns; uint32_t cadence; };
struct station_pair station_cadence(const uint8_t *stream, size_t length, uint32_t row);

/* the same for all rows, one pair after the other, with one check: where they start, then a step for each pair.
 * A step takes the earlier row (ticks, turns, seconds), the place of the cells after it (at, part, level) and the columns; it gives the
 * pair (kind, elapsed and turned, cadence; kind is 0 where the pairs have ended), its later row and the place after that. */
struct station_pairs { uint8_t number; size_t offset; uint16_t ticks; uint16_t turns; uint32_t seconds; size_t at; uint16_t part; uint8_t level; uint32_t columns; };
struct station_step { uint8_t kind; uint16_t elapsed; uint16_t turned; uint32_t cadence; uint16_t ticks; uint16_t turns; uint32_t seconds; size_t at; uint16_t part; uint8_t level; };
struct station_pairs station_pairs(const uint8_t *stream, size_t length);
struct station_step station_next_pair(const uint8_t *stream, size_t length, uint16_t ticks, uint16_t turns, uint32_t seconds, size_t at, uint16_t part,
                                      uint8_t level, uint32_t columns);

#ifdef __cplusplus
}
#endif

#endif
