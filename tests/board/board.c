#include "board.h"
#define REG(address) (*(volatile uint32_t *)(address))

int main(int argc, char **argv);
extern uint32_t data_from[], data_low[], data_top[], bss_low[], bss_top[], stack_low[], stack_top[];

#ifdef MICROBIT
enum { UART_INTERRUPT = 1 << 2 };
#else
enum { UART_INTERRUPT = 1 << 0 };
#endif
enum { OPEN = 1, WRITE0 = 4, READ = 6, REPORT = 0x18, ENDED = 0x20026, FAILED = 0x20023 };

static int host(int operation, uintptr_t parameter) {
    register int r0 __asm__("r0") = operation;
    register uintptr_t r1 __asm__("r1") = parameter;
    __asm__ volatile("bkpt 0xab" : "+r"(r0) : "r"(r1) : "memory");
    return r0;
}

void say(const char *text) { host(WRITE0, (uintptr_t)text); }

int open_file(const char *name) {
    uint32_t n = 0;
    while (name[n] != 0) n++;
    return host(OPEN, (uintptr_t)(uint32_t[]){(uint32_t)name, 1, n}); /* 1: to be read, as bytes */
}

size_t read_file(int file, void *to, size_t most) {
    /* the host says how much is left */
    return most - (size_t)host(READ, (uintptr_t)(uint32_t[]){(uint32_t)file, (uint32_t)to, most});
}

_Noreturn void stop(int status) {
    for (;;) host(REPORT, status == 0 ? ENDED : FAILED);
}

void start(void);
void start(void) {
    for (uint32_t *to = data_low, *from = data_from; to < data_top;) *to++ = *from++;
    for (uint32_t *to = bss_low; to < bss_top;) *to++ = 0;
#ifdef MICROBIT
    REG(0x40002500) = 4; /* the UART is on; it receives and sends, and a byte is an interrupt */
    REG(0x40002000) = REG(0x40002008) = 1;
    REG(0x40002304) = 4;
#else
    REG(0x40004010) = 25000000 / 19200;
    REG(0x40004008) = 1 | 2 | 8;
#endif
    /* No interrupt is taken: one that is pending ends a wait, and idle takes it back. */
    __asm__ volatile("cpsid i");
    REG(0xE000E100) = UART_INTERRUPT;
    stop(main(1, (char *[]){"", 0}));
}

static void fault(void) {
    say("fault: memory was touched that is not the program's\n");
    stop(1);
}

__attribute__((section(".vectors"), used)) static const void *const vectors[16] = {
    stack_top, (void *)start, (void *)fault, (void *)fault, (void *)fault, (void *)fault, (void *)fault};

#ifdef MICROBIT
int uart_get(void) {
    if (REG(0x40002108) == 0) return -1;
    REG(0x40002108) = 0;
    return (uint8_t)REG(0x40002518);
}

void uart_put(uint8_t byte) {
    REG(0x4000211C) = 0;
    REG(0x4000251C) = byte;
    while (REG(0x4000211C) == 0) {}
}
#else
int uart_get(void) {
    if ((REG(0x40004004) & 2) == 0) return -1;
    REG(0x4000400C) = 2; /* its interrupt is over */
    return (uint8_t)REG(0x40004000);
}

void uart_put(uint8_t byte) {
    while (REG(0x40004004) & 1) {}
    REG(0x40004000) = byte;
}
#endif

/* SysTick, by the processor's clock; running out is an interrupt. */
static uint32_t timer_length;

void start_timer(uint32_t ticks) {
    REG(0xE000E010) = 0;
    REG(0xE000E014) = timer_length = ticks;
    REG(0xE000E018) = 0;
    REG(0xE000E010) = 7;
}

uint32_t timer_ran(void) { return timer_length - REG(0xE000E018); }

int timer_over(void) {
    if ((REG(0xE000E010) & 1 << 16) == 0) return 0;
    REG(0xE000E010) = 0;
    return 1;
}

void idle(void) {
    __asm__ volatile("wfi");
    REG(0xE000ED04) = 1 << 25; /* SysTick's is no longer pending */
    REG(0xE000E280) = UART_INTERRUPT;
}

#ifdef MICROBIT /* it has no memory protection */
void border(uint32_t number, const void *from) { (void)number, (void)from; }
void close_borders(void) {}
void open_borders(void) {}
#else
void border(uint32_t number, const void *from) {
    REG(0xE000ED98) = number;
    REG(0xE000ED9C) = (uint32_t)from;
    REG(0xE000EDA0) = 4 << 1 | 1; /* 2 to the power of 4 + 1 bytes, no access */
}
void close_borders(void) { REG(0xE000ED94) = 5; } /* all else is as without it */
void open_borders(void) { REG(0xE000ED94) = 0; }
#endif

enum { PAINT = 0x5AFE57AC };

static uint32_t *painted_to;

__attribute__((noinline)) void paint_stack(void) {
    uint32_t *p = stack_low;
    __asm__ volatile("mov %0, sp" : "=r"(painted_to));
    while (p < painted_to) *p++ = PAINT;
}

__attribute__((noinline)) uint32_t stack_used(void) {
    uint32_t *p = stack_low;
    while (p < painted_to && *p == PAINT) p++;
    return (uint32_t)((uint8_t *)painted_to - (uint8_t *)p);
}
