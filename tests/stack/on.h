/* on() calls `make` with the stack at `top`, a multiple of 16: the return address goes right below it. For x86-64. */
#ifndef ON_H
#define ON_H

void on(void (*make)(void), void *top);
__asm__(".text\n"
        "on: pushq %rbx\n movq %rsp, %rbx\n movq %rsi, %rsp\n call *%rdi\n movq %rbx, %rsp\n popq %rbx\n ret\n");

#endif
