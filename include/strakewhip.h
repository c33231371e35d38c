/* libstrakewhip: the calls of documents 01 and 02, over numbers and lent bytes.
 *
 * A network, an edit, a list of edits and a timetable are the bytes of their files (document 01, "Files"). In a
 * network's file each line has two least running times (document 02, W3), that of passenger trains and then that of
 * freight trains, which are those numbered 5000 and up; before them stand number, first station, second station and
 * kind, behind them the capacity. The file ends with its closures (W1): their count (0..32), then line (1..32), start
 * (0..2879) and end (1..2880) of each, rising by line and start; a line is closed from its start up to but not
 * including its end. Behind the track of an edit 1, 2, 3 or 6 and of a timetable's visit stands the stop mark (W6), 1
 * for a request stop, else 0. The last field of a report, edit 7 or 8, is the present minute (W7), 0..2879. Files of
 * edits and of timetables that have neither marks nor minutes are in the earlier form, document 01's, which calls of
 * their own read. A sheet is 8,192 bytes and a division 49,152, six sheets by area: the sheet of area a begins at byte
 * 8192 * (a - 1). Bytes that are all zero are an empty sheet or division.
 *
 * A lent slice is a pointer and its length in ELEMENTS, not in bytes. The pointer is never NULL, also where the length
 * is 0, and it is aligned for its type. A slice that is written overlaps no other slice of the same call; slices that
 * are only read may overlap. No call keeps a pointer, allocates, blocks or uses global state: calls on different slices
 * may run at the same time.
 *
 * Every call answers on every input, and tests all that it is lent. A refusal leaves every lent element as it was. What
 * is longer than needed keeps its rest. The refusals of a call stand here in the order in which they are tested; the
 * first that holds is answered:
 *
 *    1  a file ends early or goes on
 *    2  a number isn't shortest, or its third byte has the top bit set
 *    3  a value or an order is outside the ranges
 *    4  a line's ends aren't two different listed stations, or a closure's line isn't listed
 *    5  a wrong buffer length, or a tally field above 1,000,000
 *    6  a sheet that the call reads isn't good
 *    7  station, track or line unknown, or the line doesn't run that way
 *    8  visit or relation there already
 *    9  visit or relation missing
 *   10  a link stands otherwise than the edit needs
 *   11  an amendment alters an occurred time, or the track after an occurred arrival
 *   12  a station limit is reached
 *   13  the output is too short
 *   14  a closure's end is not after its start
 *   15  a report from the future: its time is later than the minute that it carries
 *
 * "The network's file" below is 1, 2 or 3 by place, else 14, else 4, lines before closures, with `file` 1 and its
 * place, which of 4 and 14 is the first byte of the line or closure. */
#ifndef STRAKEWHIP_H
#define STRAKEWHIP_H

#include <stddef.h>
#include <stdint.h>

#ifdef __cplusplus
extern "C" {
#endif

#define STRAKEWHIP_SHEET 8192
#define STRAKEWHIP_DIVISION 49152
/* Room for any list of findings, any projection, any answers of a list, any timetable's file, any network's file. */
#define STRAKEWHIP_MOST_FINDINGS 369024
#define STRAKEWHIP_MOST_ROWS 64
#define STRAKEWHIP_MOST_ANSWERS 2000
#define STRAKEWHIP_MOST_TIMETABLE 7779
#define STRAKEWHIP_MOST_NETWORK 500

typedef struct {
    uint8_t refusal; /* the number of one of the refusals above, or 0 */
    uint8_t removed; /* of `_edit` and `_edit_sheet`: how many visits the edit removed; else 0 */
    uint8_t file;    /* which file is refused: 1 the network, 2 the edit, edits or timetable; 0 where none is */
    size_t place;    /* with `file`: the byte of that file that is refused, counted from 0; else 0 */
    size_t length;   /* how many elements were written, or bytes of a file read; with 13 how many are needed; of
                        `_names` the areas; else 0 */
} strakewhip_reply;

/* A network's file. Refuses: the network's file. `length`: the bytes read, that is all. */
strakewhip_reply strakewhip_network(const uint8_t *network, size_t network_length);

/* A network's file of an earlier form, turned into the newest, its closures kept. Form 1 is W1's, with one least
 * running time a line, which becomes both. Refuses: 3 (a form that there is not); the old file, as the network's file,
 * with `file` 1 and the place in the old file; 13. `length`: bytes. */
strakewhip_reply strakewhip_turn(uint8_t form, const uint8_t *file, size_t file_length, uint8_t *out,
                                 size_t out_length);

/* Which areas an edit names, so that their sheets can be locked before it runs: area a is the bit 1 << (a - 1) of
 * `length`. The edit is the bytes that it has in a file, kind and fields, and nothing behind them.
 * Refuses: the network's file; the edit's file (1, 2, 3 with `file` 2); 15, 7. A refused edit names none. */
strakewhip_reply strakewhip_names(const uint8_t *network, size_t network_length, const uint8_t *edit,
                                  size_t edit_length);

/* One edit on a division: reads and changes only the sheets of the areas that it names.
 * Refuses: 5 (the division); the network's file; the edit's file; 15, 7, 6, 8, 9, 10, 11, 12. */
strakewhip_reply strakewhip_edit(const uint8_t *network, size_t network_length, const uint8_t *edit, size_t edit_length,
                                 uint8_t *division, size_t division_length);

/* The same on one sheet of all stations. Refuses: as `strakewhip_edit`, 5 of the sheet. */
strakewhip_reply strakewhip_edit_sheet(const uint8_t *network, size_t network_length, const uint8_t *edit,
                                       size_t edit_length, uint8_t *sheet, size_t sheet_length);

/* The edits of a file, each on what the one before left, as if `strakewhip_edit` were called for each. Two bytes an
 * edit go into `answers`: its refusal and its removed count. An edit that is refused does not stop the list.
 * Refuses: 5 (the division); the network's file; the edits' file (1, 2, 3 with `file` 2); 13. `length`: bytes of
 * answers. */
strakewhip_reply strakewhip_run(const uint8_t *network, size_t network_length, const uint8_t *edits,
                                size_t edits_length, uint8_t *division, size_t division_length, uint8_t *answers,
                                size_t answers_length);

/* The same of a file in the earlier form: its edits have no mark, and carry 0; an amendment among them sets it. Its
 * reports have no minute, and carry 2879. Refuses: as `strakewhip_run`, with the place in the earlier file. */
strakewhip_reply strakewhip_run_early(const uint8_t *network, size_t network_length, const uint8_t *edits,
                                      size_t edits_length, uint8_t *division, size_t division_length, uint8_t *answers,
                                      size_t answers_length);

/* Each station's entries into its area's sheet. Refuses: 5 (sheet, division); the network's file; 6. */
strakewhip_reply strakewhip_divide(const uint8_t *network, size_t network_length, const uint8_t *sheet,
                                   size_t sheet_length, uint8_t *division, size_t division_length);

/* The six sheets collected into one. Refuses: 5 (division, sheet); the network's file; 6. */
strakewhip_reply strakewhip_merge(const uint8_t *network, size_t network_length, const uint8_t *division,
                                  size_t division_length, uint8_t *sheet, size_t sheet_length);

/* The findings of a whole timetable, rising, four numbers each: station, rule, first, second.
 * Refuses: 5 (the sheet); the network's file; 6; 13. `length`: numbers, four a finding. */
strakewhip_reply strakewhip_findings(const uint8_t *network, size_t network_length, const uint8_t *sheet,
                                     size_t sheet_length, uint16_t *out, size_t out_length);

/* The findings of one area, from its sheet. Refuses: 5; the network's file; 3 (the area); 6; 13. */
strakewhip_reply strakewhip_area_findings(const uint8_t *network, size_t network_length, const uint8_t *sheet,
                                          size_t sheet_length, uint8_t area, uint16_t *out, size_t out_length);

/* The findings across two areas, from the sheet of area `one`, which comes first, and that of `other`; the same list
 * where both are exchanged. Refuses: 5; the network's file; 3 (an area, or one area twice); 6; 13. */
strakewhip_reply strakewhip_pair_findings(const uint8_t *network, size_t network_length, const uint8_t *first,
                                          size_t first_length, const uint8_t *second, size_t second_length, uint8_t one,
                                          uint8_t other, uint16_t *out, size_t out_length);

/* The list of findings after one edit, from the list before it (document 02, W5): entries of `list` that the edit does
 * not make stale, together with the findings redone at the stations that it names, and by rules 7 to 10 at those joined
 * to them by a line; deleting a train redoes all. `sheet` is that of all stations after the edit, `list` four numbers a
 * finding, rising strictly; entries elsewhere are kept as they are. Given the list of the sheet before, `out` is that
 * of the sheet after. Refuses: 5 (the sheet); the network's file; the edit's file (1, 2, 3 with `file` 2); 15; 7; 6; 3
 * (the list does not rise, or its length is no multiple of four); 13. `length`: numbers, four a finding. */
strakewhip_reply strakewhip_recheck(const uint8_t *network, size_t network_length, const uint8_t *sheet,
                                    size_t sheet_length, const uint8_t *edit, size_t edit_length, const uint16_t *list,
                                    size_t list_length, uint16_t *out, size_t out_length);

/* The same for one area, from its sheet, also where the edit names other areas alone. Refuses: as `strakewhip_recheck`,
 * 3 of the area before 15. */
strakewhip_reply strakewhip_recheck_area(const uint8_t *network, size_t network_length, const uint8_t *sheet,
                                         size_t sheet_length, const uint8_t *edit, size_t edit_length, uint8_t area,
                                         const uint16_t *list, size_t list_length, uint16_t *out, size_t out_length);

/* A timetable's file into a sheet. Refuses: 5 (the sheet); the network's file; the timetable's file (1, 2, 3, then 7
 * and 12 entry by entry, with `file` 2). `length`: the bytes read, that is all. */
strakewhip_reply strakewhip_read(const uint8_t *network, size_t network_length, const uint8_t *timetable,
                                 size_t timetable_length, uint8_t *sheet, size_t sheet_length);

/* The same of a file in the earlier form: its visits have no mark, and get 0. Refuses: as `strakewhip_read`, with the
 * place in the earlier file. */
strakewhip_reply strakewhip_read_early(const uint8_t *network, size_t network_length, const uint8_t *timetable,
                                       size_t timetable_length, uint8_t *sheet, size_t sheet_length);

/* A sheet as a timetable's file, in the newest form. Refuses: 5 (the sheet); the network's file; 6; 13. `length`:
 * bytes. */
strakewhip_reply strakewhip_write(const uint8_t *network, size_t network_length, const uint8_t *sheet,
                                  size_t sheet_length, uint8_t *out, size_t out_length);

/* The expected times of a train from one visit on, four numbers a row: station, expected arrival, expected departure,
 * lateness (negative if early). Refuses: 5 (the sheet); the network's file; 3 (station, train, arrival), 7, 6, 9, 13.
 * `length`: numbers, four a row. */
strakewhip_reply strakewhip_project(const uint8_t *network, size_t network_length, const uint8_t *sheet,
                                    size_t sheet_length, uint8_t station, uint16_t train, uint16_t arrival,
                                    int32_t *out, size_t out_length);

/* The tally, raised by an edit and its answer: four counts, of edits accepted and refused, of visits added and removed.
 * An answer of 5 leaves it, and is accepted. Refuses: 5 (a count above 1,000,000); the edit's file (1, 2, 3 with `file`
 * 2); 3 (more than 16 removed, or any by a refusal). */
strakewhip_reply strakewhip_raise(const uint8_t *edit, size_t edit_length, uint8_t refusal, uint8_t removed,
                                  uint32_t counts[4]);

#ifdef __cplusplus
}
#endif

#endif
