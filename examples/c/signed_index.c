// Indexes that are signed: tested below and above, and moved below zero and back.
#include "bpf.h"

struct step {
    u32 board;
    s32 x;
    s32 y;
    s32 dx;
};

struct board {
    u8 cells[8][8];
};

CONTEXT(struct step);
MAP(boards, u32, struct board, 16, 4, 4294967295);

u64 step(const struct step *step)
{
    u32 name = step->board;
    s32 x = step->x, y = step->y;
    u64 seen = 0;

    if (x < 0 || x >= 8 || y < 0 || y > 7)
        return 0;
    s32 next = x + (step->dx > 0 ? 1 : -1);
    bpf_rcu_read_lock();
    struct board *board = bpf_map_lookup_elem(&boards, &name);
    if (board) {
        seen = board->cells[y][x];
        if (next >= 0 && next < 8)
            board->cells[y][next] = seen + 1;
    }
    bpf_rcu_read_unlock();
    return seen;
}
