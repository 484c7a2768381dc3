// More values are live over calls than registers are kept: addresses of elements and of the context
// are spilled to the stack frame and read back.
#include "bpf.h"

struct transfer {
    u32 from;
    u32 to;
    u32 bank;
    u32 fee;
    u64 amount;
    u64 limit;
};

struct account {
    u64 balance;
    u64 moved;
};

CONTEXT(struct transfer);
MAP(accounts, u32, struct account, 1000, 100, 4294967295);
MAP(banks, u32, struct account, 10, 10, 4294967295);

u64 transfer(const struct transfer *transfer)
{
    u32 from = transfer->from, to = transfer->to, fee = transfer->fee, bank = transfer->bank;
    u64 amount = transfer->amount, limit = transfer->limit, left = 0;

    bpf_rcu_read_lock();
    struct account *payer = bpf_map_lookup_elem(&accounts, &from);
    struct account *payee = bpf_map_lookup_elem(&accounts, &to);
    struct account *taker = bpf_map_lookup_elem(&banks, &bank);
    struct account *keeper = bpf_map_lookup_elem(&banks, &fee);
    if (payer && payee && taker && keeper) {
        if (amount <= limit && payer->balance >= amount) {
            payer->balance -= amount;
            payer->moved += amount;
            payee->balance += amount - fee;
            taker->balance += fee / 2;
            keeper->balance += fee - fee / 2;
            keeper->moved += transfer->amount;
        }
        left = payer->balance;
    }
    bpf_rcu_read_unlock();
    return left;
}
