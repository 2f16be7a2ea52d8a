/* The start of a program on the emulated board mps2-an385, with semihosting for its output and SysTick for its time. */
#include "port.h"

extern uint32_t stack_top[], data_from[], data_to[], data_end[], bss_to[], bss_end[];
int main(void);

static uint32_t host(uint32_t operation, const void *argument) {
    register uint32_t number __asm("r0") = operation;
    register const void *block __asm("r1") = argument;
    __asm volatile("bkpt 0xab" : "+r"(number) : "r"(block) : "memory");
    return number;
}

enum { SYS_WRITE0 = 0x04, SYS_EXIT = 0x18, STOPPED_BY_EXIT = 0x20026 };

void put_text(const char *text) { host(SYS_WRITE0, text); }

void put_number(const char *before, uint32_t number) {
    char digits[11], *at = digits + 10;
    *at = 0;
    do *--at = (char)('0' + number % 10);
    while (number /= 10);
    put_text(before), put_text(at);
}

/* A tick of SysTick is 40 ns, in which the emulator runs 40 instructions. */
#define SYSTICK ((volatile uint32_t *)0xe000e010)

uint32_t instructions(void) { return (0xffffffu - SYSTICK[2]) * 40u; }

void *memset(void *to, int byte, unsigned count) {
    for (unsigned char *at = to; count; count--) *at++ = (unsigned char)byte;
    return to;
}

void *memcpy(void *to, const void *from, unsigned count) {
    const unsigned char *byte = from;
    for (unsigned char *at = to; count; count--) *at++ = *byte++;
    return to;
}

static void reset(void) {
    for (uint32_t *to = data_to, *from = data_from; to < data_end;) *to++ = *from++;
    for (uint32_t *to = bss_to; to < bss_end;) *to++ = 0;
    SYSTICK[1] = 0xffffffu, SYSTICK[2] = 0, SYSTICK[0] = 5;
    while (SYSTICK[2] == 0) {
    }
    main();
    host(SYS_EXIT, (const void *)STOPPED_BY_EXIT);
    for (;;) {
    }
}

__attribute__((section(".vectors"), used)) static const void *const vectors[2] = {stack_top, reset};
