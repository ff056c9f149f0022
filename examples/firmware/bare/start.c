/* From reset to main() on an ARM board without a system, with newlib's semihosting. */
#include <stdint.h>
#include <stdlib.h>
#include <string.h>

extern char stack_top[], data_begin[], data_end[], data_load[], bss_begin[], bss_end[];
int main(void);
void initialise_monitor_handles(void);

/* newlib calls these around main(). */
void _init(void) {}
void _fini(void) {}

#ifdef __ARM_FP
/* Coprocessors 10 and 11, the floating point unit, are open to all code. */
static void begin_processor(void) { *(volatile uint32_t *)0xE000ED88 |= 0xFu << 20; }
#else
static void begin_processor(void) {}
#endif

void reset(void) {
  begin_processor();
  memcpy(data_begin, data_load, (size_t)(data_end - data_begin));
  memset(bss_begin, 0, (size_t)(bss_end - bss_begin));
  initialise_monitor_handles();
  exit(main());
}

static void stop(void) {
  for (;;)
    ;
}

__attribute__((section(".vectors"), used)) static const void *const vectors[16] = {
    stack_top, reset, stop, stop, stop, stop, stop, 0, 0, 0, 0, stop, stop, 0, stop, stop};
