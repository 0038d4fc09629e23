/* The stack that a call needs: how many bytes below its caller's frame it touches, on a stack that was painted before. The call is made once
   before that, so that no symbol is looked up on the painted stack. x86-64 only.
   usage: stack FILE -- of each call, on the crest and the first point of FILE (bench/walk_crests.py): its name and the bytes, the most of all last */
#define _GNU_SOURCE
#include <pthread.h>
#include <sys/mman.h>

#include "calls.h"

enum { SIZE = 256 * 1024, PAINT = 0xA5, LIMIT = 2000 };

static uint8_t *frame;

static __attribute__((noinline)) void *called(void *call)
{
    uint32_t (*const *of)(void) = call;
    __asm__ volatile("mov %%rsp, %0" : "=r"(frame));
    return (void *)(uintptr_t)(*of)();
}

static long stack_of(uint32_t (*const *call)(void))
{
    uint8_t *stack = mmap(0, SIZE, PROT_READ | PROT_WRITE, MAP_PRIVATE | MAP_ANONYMOUS, -1, 0);
    long lowest = 0;
    void *refused;
    pthread_attr_t how;
    pthread_t thread;
    if (stack == MAP_FAILED || (*call)() != 0)
        return -1;
    memset(stack, PAINT, SIZE);
    pthread_attr_init(&how);
    pthread_attr_setstack(&how, stack, SIZE);
    if (pthread_create(&thread, &how, called, (void *)call) != 0 || pthread_join(thread, &refused) != 0 || refused != 0)
        return -1;
    while (stack[lowest] == PAINT)
        lowest++;
    munmap(stack, SIZE);
    return frame - (stack + lowest);
}

int main(int argc, char **argv)
{
    long most = 0;
    if (argc != 2 || !take(argv[1]))
        return 2;
    for (int i = 0; i < CALLS; i++) {
        long bytes = stack_of(&calls[i].call);
        if (bytes < 0) {
            printf("%s is refused\n", calls[i].name);
            return 1;
        }
        printf("%s %ld\n", calls[i].name, bytes);
        if (bytes > most)
            most = bytes;
    }
    printf("most %ld\n", most);
    return most < LIMIT ? 0 : 1;
}
