/* What the programs of this folder write, on the host and on the board. */
#ifndef PORT_H
#define PORT_H

#include <stdint.h>

void put_text(const char *text);
void put_number(const char *before, uint32_t number);

/* How many instructions were run so far, in steps of 40. On the host it stands still. */
uint32_t instructions(void);

#endif
