/* Document 01's printed example through every function of include/wirkesu.h: exit status 0 where all answers are right. */
#include <stdio.h>
#include <stdlib.h>

#include "../../include/wirkesu.h"

/* One Bool type and one plain Simple variable. */
static const uint32_t file[] = {1, 254, 1, 0, 0, 0, 0, 0, 0, 0, 0, 1, 0, 0, 0, 0, 0, 0, 0, 0, 0, 4294967295u, 0, 0, 0, 1, 0, 4, 1, 0, 1, 3, 1, 0, 0, 0, 0, 0, 0, 0, 0, 0, 0};
/* Its sheet: the type's line, the variable's, the completed initializer's. */
static const uint32_t sheet[] = {1, 0, 0, 1, 0, 0, 0, 0, 0, 0, 1, 0, 1, 0, 0, 0, 0, 0, 0, 1, 0, 3, 1, 0, 0, 0, 0, 0, 0};
#define WORDS(a) (sizeof(a) / sizeof(a)[0])
#define MUST(what) do { if (!(what)) { fprintf(stderr, "not so: %s\n", #what); return 1; } } while (0)

int main(void) {
    uint32_t out[100] = {0};
    size_t lines = wirkesu_line_words(file, WORDS(file)), room = wirkesu_room_words(file, WORDS(file));
    uint32_t *l = calloc(lines, 4), *r = calloc(room, 4);
    MUST(l && r && wirkesu_accept(file, WORDS(file)) == 0);
    MUST(wirkesu_accept(file, WORDS(file) - 1) == 1);
    MUST(wirkesu_type_tree(file, WORDS(file), 0, out, 100, l, lines, r, room) == 1);
    MUST(wirkesu_variable_tree(file, WORDS(file), 0, out, 100, l, lines, r, room) == 1);
    MUST(wirkesu_variable_tree(file, WORDS(file), 1, out, 100, l, lines, r, room) == 7ull << 32);
    MUST(wirkesu_completed(file, WORDS(file), 0, out, 100, l, lines, r, room) == 3 * 65536 + 1);
    MUST(wirkesu_convert(file, WORDS(file), 0, 0, out, 100) == 7ull << 32);
    MUST(wirkesu_write_sheet(file, WORDS(file), out, 100, l, lines, r, room) == WORDS(sheet));
    for (size_t i = 0; i < WORDS(sheet); i++) MUST(out[i] == sheet[i]);
    MUST(wirkesu_check_sheet(file, WORDS(file), sheet, WORDS(sheet), r, room) == 0);
    MUST(wirkesu_check_sheet(file, WORDS(file), sheet, WORDS(sheet) - 1, r, room) == 11);
    MUST(wirkesu_write_sheet(file, WORDS(file), out, WORDS(sheet) - 1, l, lines, r, room) == 10ull << 32);
    uint8_t bytes[] = {9, 9};
    MUST(wirkesu_write_memory(file, WORDS(file), 0, bytes, 2, l, lines, r, room) == 1);
    MUST(bytes[0] == 0 && bytes[1] == 9);
    MUST(wirkesu_write_memory(file, WORDS(file), 0, bytes, 0, l, lines, r, room) == 10ull << 32);
    MUST(wirkesu_write_memory(file, WORDS(file), 1, bytes, 2, l, lines, r, room) == 7ull << 32);
    static const uint32_t node[] = {0, 0, 0, 1, 0, 0};
    uint32_t characters[1] = {9};
    bytes[0] = 1;
    MUST(wirkesu_read_memory(file, WORDS(file), 0, bytes, 1, out, 6, characters, 1, l, lines, r, room) == 1);
    for (size_t i = 0; i < WORDS(node); i++) MUST(out[i] == node[i]);
    MUST(characters[0] == 9);
    MUST(wirkesu_read_memory(file, WORDS(file), 0, bytes, 1, out, 5, characters, 1, l, lines, r, room) == 10ull << 32);
    MUST(wirkesu_read_memory(file, WORDS(file), 0, bytes, 2, out, 6, characters, 1, l, lines, r, room) == 14ull << 32);
    bytes[0] = 2;
    MUST(wirkesu_read_memory(file, WORDS(file), 0, bytes, 1, out, 6, characters, 1, l, lines, r, room) == 14ull << 32);
    puts("every answer is right");
    return 0;
}
