/* How deep the stack goes in a call: it runs on a stack of its own that was painted before, and the paint that is left tells. For x86-64. */
#ifndef PAINTED_H
#define PAINTED_H

#include <stddef.h>
#include <stdint.h>

#define SIZE (256 * 1024)
#define PAINT 0xA5

static uint8_t area[SIZE] __attribute__((aligned(4096)));

/* Goes over to the painted stack, calls, and comes back. */
static size_t depth_of(void (*call)(void)) {
  uint8_t *top = area + SIZE - 64;
  size_t low = 0;
  for (size_t i = 0; i < SIZE; i++)
    ((volatile uint8_t *)area)[i] = PAINT;
  __asm__ volatile("movq %%rsp, %%rbx\n\tmovq %0, %%rsp\n\tcall *%1\n\tmovq %%rbx, %%rsp\n\t"
                   :
                   : "r"(top), "r"(call)
                   : "rbx", "rax", "rcx", "rdx", "rsi", "rdi", "r8", "r9", "r10", "r11", "memory", "cc", "xmm0", "xmm1", "xmm2", "xmm3",
                     "xmm4", "xmm5", "xmm6", "xmm7", "xmm8", "xmm9", "xmm10", "xmm11", "xmm12", "xmm13", "xmm14", "xmm15");
  while (low < SIZE && ((volatile uint8_t *)area)[low] == PAINT)
    low++;
  return (size_t)(top - (area + low));
}

#endif
