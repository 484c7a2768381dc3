/* The calls on tables: a part of edges.c. */
#include "edges.h"

/* Adds 1 to the number under the key that the context's first 8 bytes are, and exits with it; with 0 where there is none. */
#define COUNTS(store)                                                                                                        \
	{                                                                                                                    \
		0xb7, 6, 0, 0, 0, 0, 0, 0, 0x79, 0x13, 0, 0, 0, 0, 0, 0, 0x7b, 0x3a, 0xf8, 0xff, 0, 0, 0, 0, 0x85, 0x20, 0, 0, 1, 0, 0, 0, \
		0xbf, 0xa2, 0, 0, 0, 0, 0, 0, 7, 2, 0, 0, 0xf8, 0xff, 0xff, 0xff, 0x18, 0x51, 0, 0, 0, 0, 0, 0, 0, 0, 0, 0, 0, 0, 0, 0, \
		0x85, 0, 0, 0, 1, 0, 0, 0, 0x15, 0, 3, 0, 0, 0, 0, 0, 0x79, 6, 0, 0, 0, 0, 0, 0, 7, 6, 0, 0, 1, 0, 0, 0, \
		store, 0x60, 0, 0, 0, 0, 0, 0, 0x85, 0x20, 0, 0, 2, 0, 0, 0, 0xbf, 0x60, 0, 0, 0, 0, 0, 0, 0x95, 0, 0, 0, 0, 0, 0, 0 \
	}
static const unsigned char counts[] = COUNTS(0x7b), counts_in_byte[] = COUNTS(0x73);
/* Deletes the key that the context is, and exits with what the call answers. */
static const unsigned char deletes[] = {
	0x79, 0x13, 0, 0, 0, 0, 0, 0, 0x7b, 0x3a, 0xf8, 0xff, 0, 0, 0, 0, 0xbf, 0xa2, 0, 0, 0, 0, 0, 0, 7, 2, 0, 0, 0xf8, 0xff, 0xff, 0xff,
	0x18, 0x51, 0, 0, 0, 0, 0, 0, 0, 0, 0, 0, 0, 0, 0, 0, 0x85, 0, 0, 0, 3, 0, 0, 0, 0x95, 0, 0, 0, 0, 0, 0, 0};
static void has(struct bpfrt_table *table, uint64_t free, uint64_t waiting, uint64_t seats)
{
	struct bpfrt_table_stat stat = {9, 9, 9};
	IS(bpfrt_table_stat(table, &stat), 0);
	IS(stat.free, free);
	IS(stat.waiting, waiting);
	IS(stat.seats, seats);
}

static void closed_table(void)
{
	struct bpfrt_table table = {0}, other = {0};
	struct bpfrt_reader reader = {0};
	struct bpfrt_prog prog = {0};
	struct bpfrt_table_stat stat = {7, 7, 7};
	uint64_t key = 5, value = 6;
	IS(bpfrt_table_close(&table), -EBADF);
	IS(bpfrt_reader_close(&reader), -EBADF);
	IS(bpfrt_table_reader(&reader, &table), -EBADF);
	IS(bpfrt_table_update_elem(&table, &key, 1, &value, 1, 0), -EBADF);
	IS(bpfrt_table_update_elem(&table, NULL, 0, NULL, 0, 9), -EBADF);
	IS(bpfrt_table_lookup_elem(&table, &key, 1, &value, 1), -EBADF);
	IS(bpfrt_table_delete_elem(&table, &key, 1), -EBADF);
	IS(bpfrt_table_get_next_key(&table, NULL, 1, &key), -EBADF);
	IS(bpfrt_table_reclaim(&table), -EBADF);
	IS(bpfrt_table_copy(&table, &other), -EBADF);
	IS(bpfrt_table_stat(&table, &stat), -EBADF);
	IS(bpfrt_reader_run(&reader, &prog, NULL, 0, &value), -EBADF);
	IS(bpfrt_reader_run_packet(&reader, &prog, NULL, 0, 0, &value), -EBADF);
	IS(bpfrt_table_serves(&table, &prog), -EBADF);
	open_prog(&prog, exit_one, sizeof exit_one, 0, NULL, 0);
	IS(bpfrt_reader_run(&reader, &prog, NULL, 0, &value), -EBADF);
	IS(bpfrt_reader_run_packet(&reader, &prog, NULL, 0, 0, &value), -EBADF);
	IS(bpfrt_table_serves(&table, &prog), -EBADF);
	IS(value == 6 && stat.free == 7 && stat.seats == 7, true);
	IS(bpfrt_prog_run(&prog, NULL, 0, &value), 0);
	IS(bpfrt_prog_close(&prog), 0);
	open_table(&table, table_shape(1, 1, 1));
	IS(bpfrt_table_reader(&reader, &table), 0);
	IS(bpfrt_reader_run(&reader, &prog, NULL, 0, &value), -EBADF);
	IS(bpfrt_reader_run_packet(&reader, &prog, NULL, 0, 0, &value), -EBADF);
	IS(is_closed(&prog), true);
	IS(bpfrt_reader_close(&reader), 0);
	IS(bpfrt_table_close(&table), 0);
}

/* Handles of one kind in the place of another's, and open ones that are to be opened. */
static void kinds_of_tables(void)
{
	const struct bpfrt_table_shape shape = table_shape(2, 1, 1);
	struct bpfrt_table table = {0}, before;
	struct bpfrt_reader reader = {0}, other = {0};
	struct bpfrt_prog prog = {0}, none = {0};
	struct bpfrt_table_stat stat = {7, 7, 7};
	uint64_t key = 5, value = 6;
	open_prog(&prog, exit_one, sizeof exit_one, 0, NULL, 0);
	open_table(&table, shape);
	IS(bpfrt_table_reader(&reader, &table), 0);
	before = table;
	IS(bpfrt_table_open(&table, &shape), -EBUSY);
	IS(bpfrt0_table_open((struct bpfrt_table *)&reader, &shape), -EBUSY);
	IS(bpfrt0_table_open((struct bpfrt_table *)&prog, &shape), -EBUSY);
	IS(bpfrt0_prog_open((struct bpfrt_prog *)&table, exit_one, sizeof exit_one, 0, &hash, 0, &why), -EBUSY);
	IS(bpfrt_table_reader(&reader, &table), -EBUSY);
	IS(bpfrt0_table_reader((struct bpfrt_reader *)&prog, &table), -EBUSY);
	IS(bpfrt0_table_reader((struct bpfrt_reader *)&table, &table), -EBUSY);
	IS(bpfrt0_table_reader(&other, (struct bpfrt_table *)&prog), -EBADF);
	IS(bpfrt0_table_reader(&other, (struct bpfrt_table *)&reader), -EBADF);
	IS(bpfrt0_table_reader(&other, (struct bpfrt_table *)&other), -EBADF);
	IS(bpfrt0_table_update_elem((struct bpfrt_table *)&reader, &key, 1, &value, 1, 0), -EBADF);
	IS(bpfrt0_table_lookup_elem((struct bpfrt_table *)&prog, &key, 1, &value, 1), -EBADF);
	IS(bpfrt0_table_delete_elem((struct bpfrt_table *)&prog, &key, 1), -EBADF);
	IS(bpfrt0_table_get_next_key((struct bpfrt_table *)&reader, 0, &key, 0, &value, 1), -EBADF);
	IS(bpfrt0_table_reclaim((struct bpfrt_table *)&reader), -EBADF);
	IS(bpfrt0_table_copy((struct bpfrt_table *)&prog, &table), -EBADF);
	IS(bpfrt0_table_copy(&table, (struct bpfrt_table *)&reader), -EBADF);
	IS(bpfrt0_table_stat((struct bpfrt_table *)&prog, &stat), -EBADF);
	IS(bpfrt0_reader_run((struct bpfrt_reader *)&table, &prog, "", 0, &value), -EBADF);
	IS(bpfrt0_reader_run((struct bpfrt_reader *)&prog, &prog, "", 0, &value), -EBADF);
	IS(bpfrt0_reader_run(&reader, (struct bpfrt_prog *)&table, "", 0, &value), -EBADF);
	IS(bpfrt0_reader_run(&reader, (struct bpfrt_prog *)&reader, "", 0, &value), -EBADF);
	IS(bpfrt0_reader_run_packet((struct bpfrt_reader *)&prog, (struct bpfrt_prog *)&reader, "", 0, 0, &value), -EBADF);
	IS(bpfrt0_prog_run((struct bpfrt_prog *)&table, "", 0, &value), -EBADF);
	IS(bpfrt0_prog_run_packet((struct bpfrt_prog *)&reader, "", 0, 0, &value), -EBADF);
	IS(bpfrt0_prog_ctx_len((struct bpfrt_prog *)&reader), -EBADF);
	IS(bpfrt0_prog_share(&none, (struct bpfrt_prog *)&table), -EBADF);
	IS(memcmp(&before, &table, sizeof table), 0);
	IS(value == 6 && stat.free == 7 && is_closed(&none) && other.state == 0, true);
	has(&table, 1, 0, 1);
	IS(bpfrt_reader_run(&reader, &prog, NULL, 0, &value), 0);
	IS(value, 1);
	IS(bpfrt_prog_close(&prog), 0);
	IS(bpfrt_reader_close(&reader), 0);
	IS(bpfrt_reader_close(&reader), -EBADF);
	IS(bpfrt_table_close(&table), 0);
	IS(bpfrt_table_close(&table), -EBADF);
}

static void table_shapes(void)
{
	static const struct bpfrt_table_shape none[] = {
		{65, 1, 1, 1, 1, 0, 1, 2}, {1, 0, 1, 1, 1, 0, 1, 2}, {1, 16777217, 1, 1, 1, 0, 1, 2}, {1, 1, 16777217, 1, 1, 0, 1, 2},
		{1, 1, 1, 9, 1, 0, 1, 2}, {1, 1, 1, 1, 9, 0, 1, 2}, {1, 1, 1, 1, 1, 2, 1, 2}, {UINT32_MAX, 1, 1, 1, 1, 1, 1, 2},
		{1, UINT32_MAX, 1, 1, 1, 1, 1, 2}, {1, 1, UINT32_MAX, 1, 1, 1, 1, 2}, {1, 1, 1, UINT32_MAX, 1, 1, 1, 2},
		{1, 1, 1, 1, UINT32_MAX, 1, 1, 2}, {1, 1, 1, 1, 1, UINT32_MAX, 1, 2}};
	static const struct bpfrt_table_shape some[] = {
		{0, 1, 0, 0, 0, 0, 0, 0}, {0, 1, 0, 0, 0, 1, 0, 0}, {64, 1, 1, 8, 8, 1, UINT64_MAX, UINT64_MAX}, {8, 3, 5, 8, 0, 0, 1, 2},
		{1, 1, 1, 0, 8, 1, 1, 2}};
	struct bpfrt_table table = {0};
	struct bpfrt_reader reader = {0};
	for (size_t number = 0; number < sizeof none / sizeof *none; number++)
		IS(bpfrt_table_open(&table, &none[number]), -EINVAL);
	IS(table.at == NULL && table.state == 0, true);
	for (size_t number = 0; number < sizeof some / sizeof *some; number++) {
		open_table(&table, some[number]);
		has(&table, some[number].elements, 0, some[number].readers);
		IS(bpfrt_table_reclaim(&table), 0);
		IS(bpfrt_table_reader(&reader, &table), some[number].readers ? 0 : -ENOSPC);
		IS(bpfrt_reader_close(&reader), some[number].readers ? 0 : -EBADF);
		IS(bpfrt_table_close(&table), 0);
	}
	IS(bpfrt_table_buckets(0) >= 1 && bpfrt_table_buckets(1) >= 1 && bpfrt_table_buckets(16777216) <= 16777216, true);
	IS(bpfrt_table_buckets(48000) * 8 >= 48000 && bpfrt_table_buckets(48000) * 8 <= 2 * 48000 + 8, true);
}

static void elements_of_table(void)
{
	struct bpfrt_table table = {0};
	uint64_t keys[] = {1, 2, 3}, value = 7, other = 8, both[2] = {9, 9};
	open_table(&table, table_shape(2, 4, 3));
	IS(bpfrt_table_update_elem(&table, keys, 0, &value, 1, 0), -EINVAL);
	IS(bpfrt_table_update_elem(&table, keys, 2, &value, 1, 0), -EINVAL);
	IS(bpfrt_table_update_elem(&table, keys, 1, both, 0, 0), -EINVAL);
	IS(bpfrt_table_update_elem(&table, keys, 1, both, 2, 0), -EINVAL);
	IS(bpfrt_table_update_elem(&table, keys, 1, &value, 1, 3), -EINVAL);
	IS(bpfrt_table_update_elem(&table, keys, 1, &value, 1, UINT64_MAX), -EINVAL);
	IS(bpfrt_table_update_elem(&table, NULL, 1, &value, 1, 0), -EINVAL);
	IS(bpfrt_table_update_elem(&table, keys, 1, NULL, 1, 0), -EINVAL);
	IS(bpfrt_table_update_elem(&table, NULL, 0, NULL, 0, 0), -EINVAL);
	IS(bpfrt_table_lookup_elem(&table, keys, 1, &value, 1), -ENOENT);
	IS(bpfrt_table_delete_elem(&table, keys, 1), -ENOENT);
	IS(bpfrt_table_update_elem(&table, keys, 1, &value, 1, 2), -ENOENT);
	has(&table, 3, 0, 2);
	IS(bpfrt_table_update_elem(&table, keys, 1, &value, 1, 1), 0);
	IS(bpfrt_table_update_elem(&table, keys, 1, &other, 1, 1), -EEXIST);
	IS(bpfrt_table_lookup_elem(&table, keys, 0, both, 1), -EINVAL);
	IS(bpfrt_table_lookup_elem(&table, keys, 2, both, 1), -EINVAL);
	IS(bpfrt_table_lookup_elem(&table, keys, 1, both, 0), -EINVAL);
	IS(bpfrt_table_lookup_elem(&table, keys, 1, both, 2), -EINVAL);
	IS(bpfrt_table_lookup_elem(&table, NULL, 1, both, 1), -EINVAL);
	IS(bpfrt_table_lookup_elem(&table, keys, 1, NULL, 1), -EINVAL);
	IS(bpfrt_table_lookup_elem(&table, keys + 1, 1, both, 1), -ENOENT);
	IS(bpfrt_table_delete_elem(&table, keys, 0), -EINVAL);
	IS(bpfrt_table_delete_elem(&table, keys, 2), -EINVAL);
	IS(bpfrt_table_delete_elem(&table, NULL, 1), -EINVAL);
	IS(both[0] == 9 && both[1] == 9, true);
	IS(bpfrt_table_lookup_elem(&table, keys, 1, both, 1), 0);
	IS(both[0] == 7 && both[1] == 9, true);
	has(&table, 2, 0, 2);
	IS(bpfrt_table_update_elem(&table, keys, 1, &other, 1, 2), 0);
	IS(bpfrt_table_lookup_elem(&table, keys, 1, both, 1), 0);
	IS(both[0], 8);
	has(&table, 1, 1, 2);
	IS(bpfrt_table_reclaim(&table), 1);
	IS(bpfrt_table_reclaim(&table), 0);
	has(&table, 2, 0, 2);
	IS(bpfrt_table_close(&table), 0);
}

/* Of three elements two are linked. The third is for values of keys that are there. */
static void full_table(void)
{
	struct bpfrt_table table = {0};
	uint64_t keys[] = {1, 2, 3, 4}, value = 7, other = 8, read = 9;
	open_table(&table, table_shape(2, 4, 3));
	IS(bpfrt_table_update_elem(&table, keys, 1, &value, 1, 0), 0);
	IS(bpfrt_table_update_elem(&table, keys + 1, 1, &value, 1, 1), 0);
	has(&table, 1, 0, 2);
	IS(bpfrt_table_update_elem(&table, keys + 2, 1, &value, 1, 0), -ENOSPC);
	IS(bpfrt_table_update_elem(&table, keys + 2, 1, &value, 1, 1), -ENOSPC);
	has(&table, 1, 0, 2);
	IS(bpfrt_table_update_elem(&table, keys, 1, &other, 1, 0), 0);
	has(&table, 0, 1, 2);
	IS(bpfrt_table_update_elem(&table, keys + 2, 1, &value, 1, 2), -ENOENT);
	IS(bpfrt_table_update_elem(&table, keys, 1, &value, 1, 1), -EEXIST);
	has(&table, 0, 1, 2);
	IS(bpfrt_table_update_elem(&table, keys + 1, 1, &other, 1, 2), 0);
	has(&table, 0, 1, 2);
	IS(bpfrt_table_lookup_elem(&table, keys + 1, 1, &read, 1), 0);
	IS(read, 8);
	IS(bpfrt_table_update_elem(&table, keys + 2, 1, &value, 1, 0), -ENOSPC);
	has(&table, 1, 0, 2);
	IS(bpfrt_table_delete_elem(&table, keys + 1, 1), 0);
	IS(bpfrt_table_delete_elem(&table, keys + 1, 1), -ENOENT);
	IS(bpfrt_table_lookup_elem(&table, keys + 1, 1, &read, 1), -ENOENT);
	has(&table, 1, 1, 2);
	IS(bpfrt_table_update_elem(&table, keys + 3, 1, &value, 1, 0), 0);
	has(&table, 1, 0, 2);
	IS(bpfrt_table_close(&table), 0);
	open_table(&table, table_shape(0, 1, 1));
	IS(bpfrt_table_update_elem(&table, keys, 1, &value, 1, 0), -ENOSPC);
	IS(bpfrt_table_update_elem(&table, keys, 1, &value, 1, 2), -ENOENT);
	has(&table, 1, 0, 0);
	IS(bpfrt_table_close(&table), 0);
}

/* How often a walk meets each key, and how many it meets. */
static uint64_t walk(struct bpfrt_table *table, unsigned char *times, uint64_t most)
{
	uint64_t key, next, met = 0;
	int32_t status = bpfrt_table_get_next_key(table, NULL, 1, &next);
	memset(times, 0, most);
	while (status == 0 && next < most && met <= most) {
		times[next]++;
		met++;
		key = next;
		status = bpfrt_table_get_next_key(table, &key, 1, &next);
	}
	IS(status, -ENOENT);
	return met;
}

/* What the calls on keys answer where none, or one, is there. */
static void one_key(void)
{
	struct bpfrt_table table = {0};
	uint64_t keys[] = {5, 6}, value = 7, next[2] = {9, 9};
	open_table(&table, table_shape(0, 4, 3));
	IS(bpfrt_table_get_next_key(&table, NULL, 1, next), -ENOENT);
	IS(bpfrt_table_get_next_key(&table, keys, 1, next), -ENOENT);
	IS(bpfrt_table_update_elem(&table, keys, 1, &value, 1, 0), 0);
	IS(bpfrt_table_get_next_key(&table, keys, 1, next), -ENOENT);
	IS(bpfrt_table_get_next_key(&table, NULL, 0, next), -EINVAL);
	IS(bpfrt_table_get_next_key(&table, NULL, 2, next), -EINVAL);
	IS(bpfrt_table_get_next_key(&table, keys, 0, next), -EINVAL);
	IS(bpfrt_table_get_next_key(&table, keys, 2, next), -EINVAL);
	IS(bpfrt_table_get_next_key(&table, NULL, 1, NULL), -EINVAL);
	IS(bpfrt_table_get_next_key(&table, NULL, 0, NULL), -EINVAL);
	IS(bpfrt0_table_get_next_key(&table, 1, keys, 2, next, 1), -EINVAL);
	IS(bpfrt0_table_get_next_key(&table, 1, keys, 1, next, 2), -EINVAL);
	IS(next[0] == 9 && next[1] == 9, true);
	IS(bpfrt_table_get_next_key(&table, NULL, 1, next), 0);
	IS(next[0] == 5 && next[1] == 9, true);
	next[0] = 9;
	IS(bpfrt_table_get_next_key(&table, keys + 1, 1, next), 0);
	IS(next[0] == 5 && next[1] == 9, true);
	IS(bpfrt_table_close(&table), 0);
}

/* Keys that are removed, replaced and linked at random, beside what the host knows to be there. */
static void walks(void)
{
	enum { KEYS = 96, ROUNDS = 200 };
	unsigned char there[KEYS] = {0}, times[KEYS];
	struct bpfrt_table table = {0};
	uint64_t key, value = 7, state = 88172645463325252, count = 0;
	open_table(&table, table_shape(0, 16, 100));
	for (int round = 0; round < ROUNDS; round++) {
		for (int change = 0; change < 16; change++) {
			state ^= state << 13;
			state ^= state >> 7;
			state ^= state << 17;
			key = state % KEYS;
			if (there[key] && state >> 63) {
				IS(bpfrt_table_delete_elem(&table, &key, 1), 0);
				there[key] = 0;
				count--;
			} else {
				IS(bpfrt_table_update_elem(&table, &key, 1, &value, 1, there[key] ? 2 : 1), 0);
				count += !there[key];
				there[key] = 1;
			}
		}
		IS(walk(&table, times, KEYS), count);
		IS(memcmp(there, times, KEYS), 0);
	}
	IS(bpfrt_table_close(&table), 0);
}

/* A bucket has eight places, and here each key is of the same two. */
static void full_bucket(void)
{
	struct bpfrt_table table = {0};
	unsigned char times[9];
	uint64_t key, value = 7;
	open_table(&table, table_shape(0, 1, 10));
	for (key = 0; key < 8; key++)
		IS(bpfrt_table_update_elem(&table, &key, 1, &value, 1, 0), 0);
	IS(bpfrt_table_update_elem(&table, &key, 1, &value, 1, 0), -E2BIG);
	IS(bpfrt_table_update_elem(&table, &key, 1, &value, 1, 2), -ENOENT);
	has(&table, 2, 0, 0);
	key = 3;
	IS(bpfrt_table_update_elem(&table, &key, 1, &value, 1, 0), 0);
	IS(bpfrt_table_update_elem(&table, &key, 1, &value, 1, 1), -EEXIST);
	IS(bpfrt_table_delete_elem(&table, &key, 1), 0);
	key = 8;
	IS(bpfrt_table_update_elem(&table, &key, 1, &value, 1, 1), 0);
	IS(walk(&table, times, sizeof times), 8);
	IS(memcmp(times, "\1\1\1\0\1\1\1\1\1", sizeof times), 0);
	IS(bpfrt_table_close(&table), 0);
}

/* A table that is full is copied into a larger one, beside a reader of each. The second table is not large enough, at first. */
static void copied_table(void)
{
	struct bpfrt_table table = {0}, larger = {0}, other = {0};
	struct bpfrt_reader old = {0}, reader = {0};
	struct bpfrt_prog prog = {0};
	unsigned char times[9];
	uint64_t key, value = 30, found;
	open_prog(&prog, counts, sizeof counts, 8, &words, 1);
	open_table(&table, table_shape(1, 1, 10));
	open_table(&larger, table_shape(1, 2, 5));
	IS(bpfrt_table_reader(&old, &table), 0);
	IS(bpfrt_table_reader(&reader, &larger), 0);
	IS(bpfrt_table_copy(&table, &larger), 0);
	IS(walk(&larger, times, sizeof times), 0);
	for (key = 0; key < 8; key++)
		IS(bpfrt_table_update_elem(&table, &key, 1, &value, 1, 1), 0);
	key = 5;
	IS(bpfrt_reader_run(&old, &prog, &key, 8, &found), 0);
	IS(found, 31);
	IS(bpfrt_table_copy(&table, &table), -EINVAL);
	IS(bpfrt_table_copy(&table, &larger), -ENOSPC);
	IS(walk(&larger, times, sizeof times), 4);
	IS(walk(&table, times, sizeof times), 8);
	IS(bpfrt_table_close(&larger), 0);
	IS(bpfrt_table_copy(&table, &larger), -EBADF);
	IS(bpfrt_reader_close(&reader), 0);
	open_table(&larger, table_shape(1, 4, 17));
	IS(bpfrt_table_reader(&reader, &larger), 0);
	key = 8;
	IS(bpfrt_table_update_elem(&table, &key, 1, &value, 1, 1), -E2BIG);
	IS(bpfrt_table_update_elem(&larger, &key, 1, &value, 1, 1), 0);
	IS(bpfrt_table_copy(&table, &larger), 0);
	IS(walk(&larger, times, sizeof times), 9);
	IS(memcmp(times, "\1\1\1\1\1\1\1\1\1", sizeof times), 0);
	for (key = 0; key < 9; key++) {
		IS(bpfrt_table_lookup_elem(&larger, &key, 1, &found, 1), 0);
		IS(found, key == 5 ? 31 : 30);
	}
	key = 5;
	IS(bpfrt_reader_run(&old, &prog, &key, 8, &found), 0);
	IS(bpfrt_reader_close(&old), 0);
	IS(bpfrt_reader_run(&reader, &prog, &key, 8, &found), 0);
	IS(found, 32);
	IS(bpfrt_table_copy(&table, &larger), 0);
	IS(walk(&larger, times, sizeof times), 9);
	IS(walk(&table, times, sizeof times), 8);
	for (int number = 0; number < 3; number++) {
		struct bpfrt_table_shape shape = table_shape(1, 4, 17);
		shape.key_words += number == 0;
		shape.value_words += number == 1;
		if (number == 2) {
			shape.readers = 2;
			shape.values = BPFRT_TABLE_PER_READER;
		}
		open_table(&other, shape);
		IS(bpfrt_table_copy(&larger, &other), -EINVAL);
		IS(bpfrt_table_copy(&other, &larger), -EINVAL);
		has(&other, 17, 0, shape.readers);
		IS(bpfrt_table_close(&other), 0);
	}
	IS(bpfrt_table_close(&table), 0);
	IS(bpfrt_table_close(&larger), 0);
	IS(bpfrt_reader_close(&reader), 0);
	IS(bpfrt_prog_close(&prog), 0);
}

/* Elements of eight words, which are so many values of so many words. Only into a table with as many of each is one copied. */
static void copied_words(void)
{
	static const struct bpfrt_table_shape shapes[] = {{2, 1, 2, 1, 4, BPFRT_TABLE_PER_READER, 1, 2}, {4, 1, 2, 1, 2, BPFRT_TABLE_PER_READER, 3, 4},
							  {8, 1, 2, 1, 8, BPFRT_TABLE_SHARED, 5, 6}, {8, 1, 2, 1, 1, BPFRT_TABLE_PER_READER, 7, 8}};
	const uint64_t values[8] = {1, 2, 3, 4, 5, 6, 7, 8}, key = 5;
	for (size_t from = 0; from < 4; from++) {
		for (size_t to = 0; to < 4; to++) {
			struct bpfrt_table table = {0}, other = {0};
			uint64_t one[8] = {0}, two[8] = {0};
			open_table(&table, shapes[from]);
			open_table(&other, shapes[to]);
			IS(bpfrt_table_update_elem(&table, &key, 1, values, 8, 0), 0);
			IS(bpfrt_table_copy(&table, &other), from == to ? 0 : -EINVAL);
			has(&other, from == to ? 1 : 2, 0, shapes[to].readers);
			IS(bpfrt_table_lookup_elem(&table, &key, 1, one, shapes[from].value_words), 0);
			IS(bpfrt_table_lookup_elem(&other, &key, 1, two, shapes[to].value_words), from == to ? 0 : -ENOENT);
			IS(from != to || memcmp(one, two, sizeof one) == 0, true);
			IS(bpfrt_table_close(&table), 0);
			IS(bpfrt_table_close(&other), 0);
		}
	}
}

static void words_of_tables(void)
{
	struct bpfrt_table table = {0};
	uint64_t key[8] = {1, 2, 3, 4, 5, 6, 7, 8}, values[] = {UINT64_MAX, 10, 2, 20, 5, 30}, sums[2] = {9, 9};
	open_table(&table, (struct bpfrt_table_shape){3, 2, 4, 8, 2, BPFRT_TABLE_PER_READER, 1, 2});
	IS(bpfrt_table_update_elem(&table, key, 8, values, 2, 0), -EINVAL);
	IS(bpfrt_table_update_elem(&table, key, 7, values, 6, 0), -EINVAL);
	IS(bpfrt_table_update_elem(&table, key, 8, values, 6, 0), 0);
	IS(bpfrt_table_lookup_elem(&table, key, 8, values, 6), -EINVAL);
	IS(bpfrt_table_lookup_elem(&table, key, 8, sums, 2), 0);
	IS(sums[0] == 6 && sums[1] == 60, true);
	key[7] = 9;
	IS(bpfrt_table_lookup_elem(&table, key, 8, sums, 2), -ENOENT);
	IS(bpfrt_table_update_elem(&table, key, 8, values, 6, 1), 0);
	IS(bpfrt_table_delete_elem(&table, key, 8), 0);
	IS(bpfrt_table_close(&table), 0);
	open_table(&table, (struct bpfrt_table_shape){1, 1, 2, 0, 0, BPFRT_TABLE_SHARED, 1, 2});
	IS(bpfrt_table_lookup_elem(&table, NULL, 0, NULL, 0), -ENOENT);
	IS(bpfrt_table_update_elem(&table, NULL, 0, NULL, 0, 1), 0);
	IS(bpfrt_table_update_elem(&table, NULL, 0, NULL, 0, 1), -EEXIST);
	IS(bpfrt_table_lookup_elem(&table, NULL, 0, NULL, 0), 0);
	IS(bpfrt_table_get_next_key(&table, NULL, 0, NULL), 0);
	IS(bpfrt_table_get_next_key(&table, key, 0, NULL), -ENOENT);
	IS(bpfrt_table_delete_elem(&table, NULL, 0), 0);
	IS(bpfrt_table_get_next_key(&table, NULL, 0, NULL), -ENOENT);
	IS(bpfrt_table_close(&table), 0);
}

/* A seat is not given back. The table goes with the last handle of it, whichever that is. */
static void seats(void)
{
	struct bpfrt_table table = {0};
	struct bpfrt_reader readers[3] = {{0}, {0}, {0}}, moved;
	struct bpfrt_prog prog = {0};
	uint64_t key = 5, value = 40;
	open_prog(&prog, counts, sizeof counts, 8, &words, 1);
	open_table(&table, table_shape(2, 1, 2));
	IS(bpfrt_table_update_elem(&table, &key, 1, &value, 1, 0), 0);
	IS(bpfrt_table_reader(&readers[0], &table), 0);
	has(&table, 1, 0, 1);
	IS(bpfrt_table_reader(&readers[1], &table), 0);
	IS(bpfrt_table_reader(&readers[2], &table), -ENOSPC);
	IS(bpfrt_reader_close(&readers[1]), 0);
	IS(bpfrt_table_reader(&readers[2], &table), -ENOSPC);
	IS(bpfrt_table_reader(&readers[1], &table), -ENOSPC);
	IS(readers[1].state == 0 && readers[2].state == 0, true);
	has(&table, 1, 0, 0);
	moved = readers[0];
	memset(&readers[0], 0, sizeof readers[0]);
	IS(bpfrt_reader_run(&moved, &prog, &key, 8, &value), 0);
	IS(value, 41);
	IS(bpfrt_table_close(&table), 0);
	IS(bpfrt_reader_run(&moved, &prog, &key, 8, &value), 0);
	IS(value, 42);
	IS(bpfrt_table_reader(&readers[2], &table), -EBADF);
	IS(bpfrt_reader_close(&moved), 0);
	IS(bpfrt_prog_close(&prog), 0);
}

static void runs_over_table(void)
{
	struct bpfrt_table table = {0};
	struct bpfrt_reader reader = {0}, other = {0};
	struct bpfrt_prog prog = {0}, next = {0};
	uint64_t key[2] = {5, 0}, value = 40;
	open_table(&table, table_shape(2, 1, 3));
	IS(bpfrt_table_update_elem(&table, key, 1, &value, 1, 0), 0);
	IS(bpfrt_table_reader(&reader, &table), 0);
	IS(bpfrt_table_reader(&other, &table), 0);
	open_prog(&prog, counts, sizeof counts, 8, &words, 1);
	IS(bpfrt_reader_run(&reader, &prog, key, 7, &value), -EINVAL);
	IS(bpfrt_reader_run(&reader, &prog, key, 9, &value), -EINVAL);
	IS(bpfrt_reader_run(&reader, &prog, NULL, 0, &value), -EINVAL);
	IS(bpfrt_reader_run(&reader, &prog, NULL, 8, &value), -EINVAL);
	IS(bpfrt_reader_run(&reader, &prog, many, sizeof many, &value), -EINVAL);
	IS(bpfrt_reader_run_packet(&reader, &prog, "a", 1, 1, &value), -EINVAL);
	IS(bpfrt_prog_run(&prog, key, 8, &value), -EOPNOTSUPP);
	IS(value, 40);
	IS(bpfrt_reader_run(&reader, &prog, key, 8, &value), 0);
	IS(value, 41);
	IS(bpfrt_reader_run(&other, &prog, key, 8, NULL), 0);
	IS(bpfrt_table_lookup_elem(&table, key, 1, &value, 1), 0);
	IS(value, 42);
	key[0] = 6;
	IS(bpfrt_reader_run(&reader, &prog, key, 8, &value), 0);
	IS(value, 0);
	/* Another program is run from the next call on, on packets; its key is how many bytes were captured, and how many were on the wire. */
	open_prog(&next, counts, sizeof counts, 256, &words, 1);
	IS(bpfrt_prog_close(&prog), 0);
	key[0] = 5 + ((uint64_t)9 << 32);
	IS(bpfrt_reader_run_packet(&reader, &next, "abcde", 5, 9, &value), 0);
	IS(value, 0);
	IS(bpfrt_table_update_elem(&table, key, 1, &value, 1, 1), 0);
	IS(bpfrt_reader_run_packet(&reader, &next, "abcde", 5, 9, &value), 0);
	IS(bpfrt_reader_run_packet(&other, &next, "abcde", 5, 9, &value), 0);
	IS(value, 2);
	IS(bpfrt_reader_run_packet(&reader, &next, NULL, 5, 9, &value), -EINVAL);
	IS(bpfrt_reader_run_packet(&reader, &next, NULL, 0, 0, NULL), 0);
	IS(bpfrt_reader_run(&reader, &next, key, 8, &value), -EINVAL);
	key[0] = 5;
	IS(bpfrt_table_lookup_elem(&table, key, 1, &value, 1), 0);
	IS(value, 42);
	IS(bpfrt_prog_close(&next), 0);
	IS(bpfrt_reader_close(&reader), 0);
	IS(bpfrt_reader_close(&other), 0);
	IS(bpfrt_table_close(&table), 0);
}

/* What one run of a program answers over a table, which tells it before. */
static int32_t ran(struct bpfrt_table *table, struct bpfrt_reader *reader, const unsigned char *insns, size_t size, size_t ctx_len, const struct bpfrt_map_shape
	*shapes, size_t nr_shapes, uint64_t *value)
{
	struct bpfrt_prog prog = {0};
	open_prog(&prog, insns, size, ctx_len, shapes, nr_shapes);
	int32_t status = bpfrt_reader_run(reader, &prog, many, ctx_len, value);
	IS(bpfrt_table_serves(table, &prog), status);
	IS(bpfrt_prog_close(&prog), 0);
	return status;
}

/* Programs that a table serves, and that it does not. */
static void served(void)
{
	static const struct bpfrt_map_shape others[] = {
		{1, 4, 8, 1, 0, 1}, {1, 16, 8, 1, 0, 1}, {1, 7, 8, 1, 0, 1}, {1, 8, 7, 1, 0, 1}, {1, 8, 16, 1, 0, 1}, {2, 4, 8, 1, 0, 1}};
	static const struct bpfrt_map_shape same[] = {{1, 8, 8, 4096, 4096, UINT32_MAX}, {1, 8, 8, 1, 0, 1}};
	const uint64_t key = 0, first = 300;
	struct bpfrt_table table = {0};
	struct bpfrt_reader reader = {0};
	uint64_t value = 9;
	open_table(&table, table_shape(1, 1, 2));
	IS(bpfrt_table_reader(&reader, &table), 0);
	IS(bpfrt_table_update_elem(&table, &key, 1, &first, 1, 0), 0);
	for (size_t number = 0; number < sizeof others / sizeof *others; number++) {
		const struct bpfrt_map_shape both[] = {words, others[number]};
		IS(ran(&table, &reader, names_map, sizeof names_map, 0, &others[number], 1, &value), -EINVAL);
		IS(ran(&table, &reader, names_map, sizeof names_map, 0, both, 2, &value), -EINVAL);
	}
	IS(ran(&table, &reader, counts_in_byte, sizeof counts_in_byte, 8, &words, 1, &value), -EOPNOTSUPP);
	IS(ran(&table, &reader, deletes, sizeof deletes, 8, &words, 1, &value), -EOPNOTSUPP);
	IS(value, 9);
	IS(ran(&table, &reader, names_map, sizeof names_map, 0, same, 2, &value), 0);
	IS(value, 7);
	IS(ran(&table, &reader, exit_one, sizeof exit_one, 0, NULL, 0, &value), 0);
	IS(value, 1);
	IS(ran(&table, &reader, exit_byte, sizeof exit_byte, 256, same, 2, &value), 0);
	IS(value, 0);
	IS(ran(&table, &reader, counts, sizeof counts, 8, same, 2, &value), 0);
	IS(value, 301);
	IS(bpfrt_reader_close(&reader), 0);
	IS(bpfrt_table_close(&table), 0);
}

/* How many elements a table has that programs run over. */
static void many_elements(void)
{
	struct bpfrt_table table = {0};
	struct bpfrt_reader reader = {0};
	uint64_t value = 9;
	for (uint32_t more = 0; more < 2; more++) {
		open_table(&table, table_shape(1, 1, 131072 + more));
		IS(bpfrt_table_reader(&reader, &table), 0);
		IS(ran(&table, &reader, names_map, sizeof names_map, 0, &words, 1, &value), more ? -EINVAL : 0);
		IS(ran(&table, &reader, exit_one, sizeof exit_one, 0, NULL, 0, &value), more ? -EINVAL : 0);
		IS(bpfrt_reader_close(&reader), 0);
		IS(bpfrt_table_close(&table), 0);
	}
}

/* Each reader counts in a value of its own. */
static void counters_of_readers(void)
{
	struct bpfrt_table table = {0};
	struct bpfrt_reader readers[3] = {{0}, {0}, {0}};
	struct bpfrt_prog prog = {0};
	uint64_t key = 5, values[] = {100, 200, 300}, value;
	open_table(&table, (struct bpfrt_table_shape){3, 1, 2, 1, 1, BPFRT_TABLE_PER_READER, 1, 2});
	IS(bpfrt_table_update_elem(&table, &key, 1, values, 3, 0), 0);
	open_prog(&prog, counts, sizeof counts, 8, &words, 1);
	for (uint64_t number = 0, all = 0; number < 3; number++) {
		IS(bpfrt_table_reader(&readers[number], &table), 0);
		IS(bpfrt_reader_run(&readers[number], &prog, &key, 8, &value), 0);
		all |= value == 101 ? 1 : value == 201 ? 2 : value == 301 ? 4 : 8;
		IS(bpfrt_reader_run(&readers[number], &prog, &key, 8, &value), 0);
		IS(number < 2 || all == 7, true);
	}
	IS(bpfrt_table_lookup_elem(&table, &key, 1, &value, 1), 0);
	IS(value, 606);
	for (int number = 0; number < 3; number++)
		IS(bpfrt_reader_close(&readers[number]), 0);
	IS(bpfrt_table_close(&table), 0);
	IS(bpfrt_prog_close(&prog), 0);
}

void judge_tables(void)
{
	closed_table();
	kinds_of_tables();
	table_shapes();
	elements_of_table();
	full_table();
	one_key();
	walks();
	full_bucket();
	copied_table();
	copied_words();
	words_of_tables();
	seats();
	runs_over_table();
	served();
	many_elements();
	counters_of_readers();
}
