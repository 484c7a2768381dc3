// Indexes by quotients: the seconds of a day in hours, and what is left in quarters of an hour.
#include "bpf.h"

struct visit {
    u32 place;
    u32 second;
    u32 left;
    u32 guests;
};

struct day {
    u32 hours[24];
    u16 quarters[4];
};

CONTEXT(struct visit);
MAP(days, u32, struct day, 100, 10, 4294967295);

u64 visit(const struct visit *visit)
{
    u32 place = visit->place;
    u32 second = visit->second;
    u32 left = visit->left;
    u64 guests = visit->guests;
    u64 total = 0;

    if (second >= 86400 || left > 3599)
        return 0;
    bpf_rcu_read_lock();
    struct day *day = bpf_map_lookup_elem(&days, &place);
    if (day) {
        u32 hour = second / 3600;

        day->hours[hour] += guests;
        day->quarters[left / 900] += guests;
        total = day->hours[hour];
    }
    bpf_rcu_read_unlock();
    return total;
}
