/* A program of its own start, memcpy and memset, with nothing of an operating system's library. It ends with what
 * `failures` gives. */
#ifndef BARE_H
#define BARE_H
#include <stddef.h>
#include <stdint.h>

#define TEXT(string) (const uint8_t *)(string), sizeof(string) - 1

static const char sheet[] = "(accepted 2)\n"
                            "(machine 0 (places 2) (start 0) (move ready 0 1) (move home 1 0))\n"
                            "(machine 1 (places 2) (start 0) (move brake 0 1) (move home 1 0))\n";

static int failures(void);

void begin(void);

/* Where a process starts the stack is aligned for a call, and not for a function that was called. */
__asm__(".text\n.globl _start\n_start:\n\txor %ebp, %ebp\n\tcall begin\n\thlt\n");

void *memset(void *to, int byte, size_t size)
{
    for (size_t i = 0; i < size; i++)
        ((uint8_t *)to)[i] = (uint8_t)byte;
    return to;
}

void *memcpy(void *to, const void *from, size_t size)
{
    for (size_t i = 0; i < size; i++)
        ((uint8_t *)to)[i] = ((const uint8_t *)from)[i];
    return to;
}

static int same(const void *one, const void *other, size_t size)
{
    for (size_t i = 0; i < size; i++)
        if (((const uint8_t *)one)[i] != ((const uint8_t *)other)[i])
            return 0;
    return 1;
}

void begin(void)
{
    __asm__ volatile("syscall" : : "a"(60), "D"(failures()) : "rcx", "r11", "memory");
}

#endif
