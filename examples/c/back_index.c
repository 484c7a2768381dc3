// Indexes from the end of tables: differences of places, and a length that is not zero.
#include "bpf.h"

struct stack {
    u32 depth;
    u32 back;
    u64 frames[16];
    u32 marks[8];
};

CONTEXT(struct stack);

u64 top(const struct stack *stack)
{
    u32 depth = stack->depth;
    u32 back = stack->back & 7;
    u64 sum = 0;

    if (depth > 16 || depth == 0)
        return 0;
    sum = stack->frames[depth - 1] + stack->frames[15 - back];
    return sum + stack->marks[7 - back] + *(&stack->marks[7] - back);
}
