/* Start values of declaration files: the functions of libstart_values.a (`rt staticlib start_values`), each proved to answer what crates/definition says.
 *
 * A slice is a pointer and a number of words or bytes; a pointer of an empty slice must not be null. Slices must not overlap. Every function reads and
 * writes only the slices that it is lent. `lines` and `room` are work words: any words before a call, all 0 after it. A refusal writes nothing else.
 *
 * A node is six words: a name, a kind, and a constant's sign, low and high word and width. The last word of a string is its width plus 2 times the
 * characters that were cut where the literal met its place.
 *
 * Where an answer is a uint64_t, a refusal's number stands in the high 32 bits, and the value in the low ones. The refusals, in checking order:
 *   1  the words end before or after the last section does          8  a tree has more than 2,048 nodes
 *   2  a section has too many records, or Settings not one          9  the uses of types run in a circle
 *   3  a word has a value that its record does not allow           10  a lent slice is too short
 *   4  a number, link or run points where it must not              11  a sheet's words are not the three sections of this file
 *   5  two shapes are alike                                        12  a rank is not above that of a used type
 *   6  an array shape has more than 65,536 elements                13  a line is not what the file gives
 *   7  the asked type or variable is not in the file               14  a node that its place cannot hold, or bytes that no tree is written as
 *                                                                  15  a character too wide
 * Too short work slices are refused before 8, 9 and 11 to 15, too short slices for bytes, nodes and characters after 14 and 15.
 */
#ifndef WIRKESU_H
#define WIRKESU_H

#include <stddef.h>
#include <stdint.h>

#ifdef __cplusplus
extern "C" {
#endif

/* 0 for an accepted file, or its first refusal of 1 to 6. */
uint32_t wirkesu_accept(const uint32_t *file, size_t file_words);

/* How many words `lines` must have for this file; of the sheet writer no more than `out` has.
   Refusals 1 to 6. */
uint64_t wirkesu_line_words(const uint32_t *file, size_t file_words);

/* How many words `room` must have for this file.
   Refusals 1 to 6. */
uint64_t wirkesu_room_words(const uint32_t *file, size_t file_words);

/* The node that constant `constant` gives a place of shape `shape`: 1, and its six words at the front of out, or 0 for none.
   Refusals 1 to 7, and 10 where out is shorter. */
uint64_t wirkesu_convert(const uint32_t *file, size_t file_words, uint32_t shape, uint32_t constant, uint32_t *out, size_t out_words);

/* How many nodes, of six words each, the default of type `number` has, which stands at the front of out, or 0 for none.
   Refusals 1 to 7, 8 for too large, 10 where a slice is too short. */
uint64_t wirkesu_type_tree(const uint32_t *file, size_t file_words, uint32_t number, uint32_t *out, size_t out_words, uint32_t *lines,
                           size_t lines_words, uint32_t *room, size_t room_words);

/* The same for the start value of variable `number`. */
uint64_t wirkesu_variable_tree(const uint32_t *file, size_t file_words, uint32_t number, uint32_t *out, size_t out_words, uint32_t *lines,
                               size_t lines_words, uint32_t *room, size_t room_words);

/* The kind of the completed initializer of variable `number` times 65,536, and how many nodes stand in its value's slot and at the front of out; 0
   where it is left. Refusals as above. */
uint64_t wirkesu_completed(const uint32_t *file, size_t file_words, uint32_t number, uint32_t *out, size_t out_words, uint32_t *lines,
                           size_t lines_words, uint32_t *room, size_t room_words);

/* How many words the start sheet of the file has, which stands at the front of out.
   Refusals 1 to 6, 9 for uses in a circle, 10 where a slice is too short. */
uint64_t wirkesu_write_sheet(const uint32_t *file, size_t file_words, uint32_t *out, size_t out_words, uint32_t *lines, size_t lines_words,
                             uint32_t *room, size_t room_words);

/* 0 for a sheet that passes, which is one that is right (README.md, Demand 3), or a refusal:
   1 to 6, 10 where room is too short, 11, 12 or 13. */
uint32_t wirkesu_check_sheet(const uint32_t *file, size_t file_words, const uint32_t *sheet, size_t sheet_words, uint32_t *room,
                             size_t room_words);

/* How many bytes the start value of variable `variable` has in the controller's memory, which stand at the front of bytes; 4294967295 for none.
   Refusals 1 to 7, 8 for too large, 14, 15, 10 where a slice is too short. */
uint64_t wirkesu_write_memory(const uint32_t *file, size_t file_words, uint32_t variable, uint8_t *bytes, size_t bytes_count, uint32_t *lines,
                              size_t lines_words, uint32_t *room, size_t room_words);

/* How many nodes, of six words each, exactly these bytes are read as by the parts of that start value, or 0 for none. The nodes stand at the front of
   nodes, nameless; the characters of all strings stand at the front of characters, where a string's low word is the place of its first one.
   Refusals 1 to 7, 8 for too large, 14, 10 where a slice is too short. */
uint64_t wirkesu_read_memory(const uint32_t *file, size_t file_words, uint32_t variable, const uint8_t *bytes, size_t bytes_count, uint32_t *nodes,
                             size_t nodes_words, uint32_t *characters, size_t characters_words, uint32_t *lines, size_t lines_words,
                             uint32_t *room, size_t room_words);

#ifdef __cplusplus
}
#endif

#endif
