// Indexes that are compared before they are used, the same one twice: in the context and in an
// element.
#include "bpf.h"

struct order {
    u64 count;
    u32 customer;
    u32 first;
    u32 prices[10];
    u64 last;
};

struct account {
    u64 spent;
    u64 bought[10];
};

CONTEXT(struct order);
MAP(accounts, u32, struct account, 1000, 100, 4294967295);

u64 buy(const struct order *order)
{
    u32 customer = order->customer;
    u32 first = order->first;
    u64 last = order->last;
    u64 spent = 0;

    if (first > 9 || last >= 10)
        return 0;
    bpf_rcu_read_lock();
    struct account *account = bpf_map_lookup_elem(&accounts, &customer);
    if (account) {
        account->bought[first] += order->count;
        account->bought[last] += 1;
        account->spent += order->prices[first] * order->count + order->prices[last];
        spent = account->spent;
    }
    bpf_rcu_read_unlock();
    return spent;
}
