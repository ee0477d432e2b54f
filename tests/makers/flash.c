/* flash bench|titrator set|serial: writes what firmware/sets.c has to standard output. */
#include <stdio.h>
#include <string.h>

/* tools/cc compiles one source */
#include "../../firmware/sets.c"

int main(int count, char **words) {
    if (count != 3)
        return 2;
    const hk_board *board = strcmp(words[1], "bench") == 0 ? &bench_board : &titrator_board;
    if (strcmp(words[2], "set") == 0)
        return fwrite(board->set, 1, board->set_length, stdout) != board->set_length;
    return fwrite(board->serial, 1, board->serial_length, stdout) != board->serial_length;
}
