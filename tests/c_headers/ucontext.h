#ifndef UCONTEXT_H
#define UCONTEXT_H
#include <stddef.h>
typedef struct {
    void *ss_sp;
    int ss_flags;
    size_t ss_size;
} stack_t;
/* The rest, registers and more, is the C library's own: 968 bytes with what stands before it. */
typedef struct ucontext_t {
    unsigned long uc_flags;
    struct ucontext_t *uc_link;
    stack_t uc_stack;
    _Alignas(16) unsigned char rest[960];
} ucontext_t;
int getcontext(ucontext_t *context);
int swapcontext(ucontext_t *from, const ucontext_t *to);
void makecontext(ucontext_t *context, void (*call)(void), int count, ...);
#endif
