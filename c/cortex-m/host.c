#include "port.h"

#include <inttypes.h>
#include <stdio.h>

void put_text(const char *text) { fputs(text, stdout); }
void put_number(const char *before, uint32_t number) { printf("%s%" PRIu32, before, number); }
uint32_t instructions(void) { return 0; }
