// A lookup by what another lookup found: a session's user, and the user's group and rights.
#include "bpf.h"

struct asked {
    u64 session;
    u32 right;
    u32 flags;
};

struct session {
    u32 user;
    u32 uses;
};

struct user {
    u32 group;
    u32 rights[7];
};

CONTEXT(struct asked);
MAP(sessions, u64, struct session, 512, 64, 4294967295);
MAP(users, u32, struct user, 256, 16, 4294967295);

u64 may(const struct asked *asked)
{
    u64 key = asked->session;
    u32 right = asked->right;
    u64 answer = 0;

    bpf_rcu_read_lock();
    struct session *session = bpf_map_lookup_elem(&sessions, &key);
    if (session) {
        u32 name = session->user;
        struct user *user = bpf_map_lookup_elem(&users, &name);

        if (user) {
            u32 group = user->group;

            if (right < 7)
                answer = user->rights[right];
            if (asked->flags & 1 && group < 7)
                answer |= user->rights[group];
            session->uses += 1;
        }
    }
    bpf_rcu_read_unlock();
    return answer;
}
