/* What the example asks of its machine: words on the debugger's console (semihosting), and an end. */
#ifndef START_H
#define START_H

void board_say(const char *words);
_Noreturn void board_end(int status);

#endif
