/* The start of a program on a bare Cortex-M4: the vectors, the data, and main by way of newlib's semihosting. */
#include <stdint.h>
#include <stdlib.h>

extern uint32_t stored[], begin_data[], end_data[], __bss_start__[], __bss_end__[], __stack[];
int main(int argc, char **argv);
void initialise_monitor_handles(void);

void reset(void) {
    for (uint32_t *to = begin_data, *from = stored; to < end_data;) *to++ = *from++;
    for (uint32_t *to = __bss_start__; to < __bss_end__;) *to++ = 0;
    initialise_monitor_handles();
    exit(main(0, NULL));
}

/* newlib calls these at the beginning and the end; there is nothing to do. */
void _init(void) {}
void _fini(void) {}

static void fault(void) { abort(); }

/* The first words of memory: the stack pointer, then where to go at reset and at each fault. */
const struct {
    uint32_t *stack;
    void (*go[15])(void);
} vectors __attribute__((section(".vectors"), used)) = {
    __stack, {reset, fault, fault, fault, fault, fault, NULL, NULL, NULL, NULL, fault, fault, NULL, fault, fault}};
