/* A stack of 2,048 bytes with a guard right below it, and calls on it. Define _GNU_SOURCE before all else. */
#ifndef GUARD_H
#define GUARD_H

#include "on.h"

#include <signal.h>
#include <stdint.h>
#include <stdio.h>
#include <stdlib.h>
#include <string.h>
#include <sys/mman.h>
#include <unistd.h>

/* the guard is a multiple of every processor's page */
enum { STACK = 2048, GUARD = 65536 };

static uint8_t *bottom; /* of the stack, and right above the guard */
static const char *doing;

/* An emulator may hand the signal over with the stack off by 8 bytes, so it is aligned here. */
__attribute__((force_align_arg_pointer)) static void touched(int signal, siginfo_t *info, void *context)
{
    static char text[200];
    const uintptr_t end = (uintptr_t)bottom, at = (uintptr_t)info->si_addr;

    (void)signal, (void)context;
    if (at < end && end - at <= GUARD)
        snprintf(text, sizeof text, "FAILED: %s touches a byte %zu below a stack of %d\n", doing, (size_t)(end - at), STACK);
    else
        snprintf(text, sizeof text, "FAILED: %s touches memory that it was not lent\n", doing);
    _exit(write(1, text, strlen(text)) < 0 ? 2 : 1);
}

static void guard(void)
{
    static uint8_t spare[65536]; /* what the signal is taken on */
    const stack_t other = {.ss_sp = spare, .ss_size = sizeof spare};
    const struct sigaction action = {.sa_sigaction = touched, .sa_flags = SA_SIGINFO | SA_ONSTACK};
    uint8_t *room = mmap(NULL, 3 * GUARD, PROT_READ | PROT_WRITE, MAP_PRIVATE | MAP_ANONYMOUS, -1, 0);

    if (room != MAP_FAILED) {
        bottom = room + 2 * GUARD - (uintptr_t)room % GUARD;
        if (mprotect(bottom - GUARD, GUARD, PROT_NONE) == 0 && sigaltstack(&other, NULL) == 0
            && sigaction(SIGSEGV, &action, NULL) == 0)
            return;
    }
    puts("FAILED: no guarded stack here");
    exit(1);
}

/* A call, and how much of the stack it used at most. */
struct way { const char *name; void (*make)(void); size_t most; };

/* The stack is painted before each call, and all is done with two paints: what is written with the one is seen with the other. */
static uint8_t paint;
static void guarded(struct way *way)
{
    size_t low = 0;

    memset(bottom, paint, STACK);
    doing = way->name;
    on(way->make, bottom + STACK);
    while (low < STACK && bottom[low] == paint)
        low++;
    if (STACK - low > way->most)
        way->most = STACK - low;
}

#endif
