/* The benchmark's instruments, see meter.h. */
#define _GNU_SOURCE
#include "meter.h"
#include <limits.h>
#include <signal.h>
#include <string.h>
#include <time.h>
#include <ucontext.h>

static volatile unsigned long steps;
static volatile uintptr_t lowest;
static volatile uintptr_t entered;
static uintptr_t entry_at;
static unsigned long empty_steps;
static char signal_stack[1 << 16];
static unsigned char own_stack[1 << 16] __attribute__((aligned(64)));

static void on_step(int number, siginfo_t *info, void *context) {
  const greg_t *registers = ((ucontext_t *)context)->uc_mcontext.gregs;
  uintptr_t pointer = (uintptr_t)registers[REG_RSP];
  (void)number;
  (void)info;
  steps++;
  if ((uintptr_t)registers[REG_RIP] == entry_at) entered = pointer;
  if (pointer < lowest) lowest = pointer;
}

/* Runs the call on a stack of the meter's own, with the trap flag set or not. */
static __attribute__((noinline)) void run_apart(call run, int traced) {
  unsigned char *top = own_stack + sizeof own_stack - 64;
  if (traced)
    __asm__ volatile(
        "movq %%rsp, %%rbx\n\t"
        "movq %[top], %%rsp\n\t"
        "pushfq\n\t"
        "orq $0x100, (%%rsp)\n\t"
        "popfq\n\t"
        "call *%[run]\n\t"
        "pushfq\n\t"
        "andq $~0x100, (%%rsp)\n\t"
        "popfq\n\t"
        "movq %%rbx, %%rsp\n\t"
        :
        : [top] "r"(top), [run] "r"(run)
        : "rbx", "rax", "rcx", "rdx", "rsi", "rdi", "r8", "r9", "r10", "r11", "xmm0", "xmm1", "xmm2", "xmm3", "xmm4", "xmm5",
          "xmm6", "xmm7", "xmm8", "xmm9", "xmm10", "xmm11", "xmm12", "xmm13", "xmm14", "xmm15", "memory", "cc");
  else
    __asm__ volatile(
        "movq %%rsp, %%rbx\n\t"
        "movq %[top], %%rsp\n\t"
        "call *%[run]\n\t"
        "movq %%rbx, %%rsp\n\t"
        :
        : [top] "r"(top), [run] "r"(run)
        : "rbx", "rax", "rcx", "rdx", "rsi", "rdi", "r8", "r9", "r10", "r11", "xmm0", "xmm1", "xmm2", "xmm3", "xmm4", "xmm5",
          "xmm6", "xmm7", "xmm8", "xmm9", "xmm10", "xmm11", "xmm12", "xmm13", "xmm14", "xmm15", "memory", "cc");
}

static __attribute__((noinline)) void empty(void) { __asm__ volatile(""); }

unsigned long meter_instructions(call run) {
  steps = 0;
  lowest = UINTPTR_MAX;
  run_apart(run, 1);
  return steps - empty_steps;
}

unsigned long meter_stack(call run, call entry) {
  unsigned long by_pointer, by_pattern = 0;
  entry_at = (uintptr_t)entry;
  entered = 0;
  meter_instructions(run);
  entry_at = 0;
  if (entered == 0) return ULONG_MAX;
  by_pointer = lowest < entered ? entered - lowest : 0;
  /* Two patterns, so that an octet that happens to hold one of them shows with the other. */
  for (int round = 0; round < 2; round++) {
    unsigned char pattern = round == 0 ? 0xA5 : 0x5A;
    size_t at = 0;
    memset(own_stack, pattern, sizeof own_stack);
    run_apart(run, 0);
    while (at < sizeof own_stack && own_stack[at] == pattern) at++;
    uintptr_t touched = (uintptr_t)(own_stack + at);
    if (touched < entered && entered - touched > by_pattern) by_pattern = entered - touched;
  }
  return by_pointer > by_pattern ? by_pointer : by_pattern;
}

double meter_time(call run, unsigned long times) {
  struct timespec from, to;
  clock_gettime(CLOCK_MONOTONIC, &from);
  for (unsigned long i = 0; i < times; i++) run();
  clock_gettime(CLOCK_MONOTONIC, &to);
  return ((double)(to.tv_sec - from.tv_sec) * 1e9 + (double)(to.tv_nsec - from.tv_nsec)) / (double)times;
}

/* 1 + 2 * 1000 + 1 instructions, and no stack. */
static __attribute__((naked, noinline)) void known_loop(void) {
  __asm__ volatile("movl $1000, %eax\n1:\tdecl %eax\n\tjnz 1b\n\tret");
}

/* 5 instructions, 776 octets of stack reserved and the lowest of them not touched. */
static __attribute__((naked, noinline)) void known_stack(void) {
  __asm__ volatile("pushq %rbp\n\tsubq $768, %rsp\n\taddq $768, %rsp\n\tpopq %rbp\n\tret");
}

/* 2 instructions, an octet 100 below the stack pointer touched. */
static __attribute__((naked, noinline)) void known_touch(void) {
  __asm__ volatile("movb $1, -100(%rsp)\n\tret");
}

/* Takes 200 octets of stack and a return address, and calls the one above. */
static __attribute__((naked, noinline)) void known_caller(void) {
  __asm__ volatile("subq $200, %%rsp\n\tcall %P0\n\taddq $200, %%rsp\n\tret" ::"i"(known_touch));
}

int meter_start(void) {
  stack_t apart = { .ss_sp = signal_stack, .ss_flags = 0, .ss_size = sizeof signal_stack };
  struct sigaction action;
  memset(&action, 0, sizeof action);
  action.sa_sigaction = on_step;
  action.sa_flags = SA_SIGINFO | SA_ONSTACK;
  if (sigaltstack(&apart, NULL) != 0 || sigaction(SIGTRAP, &action, NULL) != 0) return 0;
  empty_steps = meter_instructions(empty) - 1;
  return meter_instructions(known_loop) == 2002 && meter_instructions(known_stack) == 5 && meter_instructions(known_touch) == 2 &&
         meter_stack(known_loop, known_loop) == 0 && meter_stack(known_stack, known_stack) == 776 &&
         meter_stack(known_touch, known_touch) == 100 && meter_stack(known_caller, known_touch) == 100 &&
         meter_stack(known_caller, known_caller) == 308 && meter_stack(known_loop, known_touch) == ULONG_MAX;
}
