/* The calls on worlds: a part of edges.c, with -DWORLDS. */
#include "edges.h"

#ifdef WORLDS
static const struct bpfrt_map_shape array = {BPFRT_MAP_TYPE_ARRAY, 4, 8, 2, 0, 1};

static void closed_world(void)
{
	struct bpfrt_world world = {0};
	struct bpfrt_prog prog = {0};
	struct bpfrt_world_stat stat = {7, 7, 7, 7, 7, 7};
	uint64_t value = 5;
	unsigned char room[8] = {6};
	IS(bpfrt_world_close(&world), -EBADF);
	IS(bpfrt_world_load(&world, &prog, NULL, 0), -EBADF);
	IS(bpfrt_map_update_elem(&world, 0, "abcd", 4, room, 8, 0), -EBADF);
	IS(bpfrt_map_lookup_elem(&world, 0, "abcd", 4, room, 8), -EBADF);
	IS(bpfrt_map_delete_elem(&world, 0, "abcd", 4), -EBADF);
	IS(bpfrt_world_run(&world, 0, NULL, 0, &value), -EBADF);
	IS(bpfrt_world_start(&world, 0, NULL, 0), -EBADF);
	IS(bpfrt_world_step(&world, 0, &value), -EBADF);
	IS(bpfrt_world_drop(&world, 0), -EBADF);
	IS(bpfrt_world_advance(&world), -EBADF);
	IS(bpfrt_world_reap(&world), -EBADF);
	IS(bpfrt_world_stat(&world, &stat), -EBADF);
	IS(bpfrt_map_get_next_key(&world, 0, NULL, 0, room, 4), -EBADF);
	IS(value == 5 && room[0] == 6 && stat.linked == 7 && stat.sections == 7, true);
}

/* A handle of one kind in the place of another's. */
static void other_kind(void)
{
	struct bpfrt_world world = {0};
	struct bpfrt_prog prog = {0}, other = {0};
	struct bpfrt_table table = {0};
	struct bpfrt_reader reader = {0};
	struct bpfrt_world_stat stat = {7, 7, 7, 7, 7, 7};
	struct bpfrt_table_stat told = {7, 7, 7};
	const uint32_t no_maps = 0;
	uint64_t value = 5;
	open_table(&table, table_shape(1, 1, 1));
	IS(bpfrt_world_open(&world, NULL, 0, &why), 0);
	IS(bpfrt_world_open(&world, NULL, 0, &why), -EBUSY);
	IS(bpfrt_prog_open(&prog, exit_one, sizeof exit_one, 0, NULL, 0, &why), 0);
	IS(bpfrt0_prog_run((struct bpfrt_prog *)&world, "", 0, &value), -EBADF);
	IS(bpfrt0_prog_ctx_len((struct bpfrt_prog *)&world), -EBADF);
	IS(bpfrt0_prog_share(&other, (struct bpfrt_prog *)&world), -EBADF);
	IS(bpfrt0_world_reap((struct bpfrt_world *)&prog), -EBADF);
	IS(bpfrt0_world_open((struct bpfrt_world *)&prog, &hash, 0, &why), -EBUSY);
	IS(bpfrt_world_load(&world, &other, NULL, 0), -EBADF);
	IS(bpfrt0_world_stat((struct bpfrt_world *)&prog, &stat), -EBADF);
	IS(bpfrt0_world_stat((struct bpfrt_world *)&table, &stat), -EBADF);
	IS(bpfrt0_map_get_next_key((struct bpfrt_world *)&table, 0, "", 0, &value, 8), -EBADF);
	IS(bpfrt0_map_lookup_elem((struct bpfrt_world *)&table, 0, "abcd", 4, &value, 8), -EBADF);
	IS(bpfrt0_world_run((struct bpfrt_world *)&table, 0, "", 0, &value), -EBADF);
	IS(bpfrt0_world_open((struct bpfrt_world *)&table, &hash, 0, &why), -EBUSY);
	IS(bpfrt0_world_load(&world, (struct bpfrt_prog *)&table, &no_maps, 0), -EBADF);
	IS(bpfrt0_table_stat((struct bpfrt_table *)&world, &told), -EBADF);
	IS(bpfrt0_table_reader(&reader, (struct bpfrt_table *)&world), -EBADF);
	IS(bpfrt0_reader_run((struct bpfrt_reader *)&world, &prog, "", 0, &value), -EBADF);
	IS(value == 5 && stat.runs == 7 && told.free == 7 && reader.state == 0, true);
	IS(bpfrt_prog_close(&prog), 0);
	IS(bpfrt_world_close(&world), 0);
	IS(bpfrt_table_close(&table), 0);
}

static void no_worlds(void)
{
	struct bpfrt_world world = {0};
	struct bpfrt_map_shape shapes[17];
	for (int number = 0; number < 17; number++)
		shapes[number] = hash;
	REFUSED(bpfrt_world_open(&world, shapes, 17, &why), 53, BPFRT_NOWHERE, 0);
	shapes[3].type = 9;
	REFUSED(bpfrt_world_open(&world, shapes, 16, &why), 52, BPFRT_MAP, 3);
	IS(bpfrt_world_open(&world, shapes, 16, NULL), -EINVAL);
	IS(world.at == NULL && world.state == 0, true);
}

static void loads(void)
{
	const struct bpfrt_map_shape shapes[] = {array, hash};
	const uint32_t second[] = {1}, first[] = {0}, none[] = {2}, both[] = {1, 0}, too_many[17] = {1};
	struct bpfrt_world world = {0};
	struct bpfrt_prog prog = {0};
	uint64_t value = 9;
	IS(bpfrt_world_open(&world, shapes, 2, &why), 0);
	IS(bpfrt_prog_open(&prog, names_map, sizeof names_map, 0, &hash, 1, &why), 0);
	IS(bpfrt_world_run(&world, 0, NULL, 0, &value), -ENXIO);
	IS(bpfrt_world_load(&world, &prog, NULL, 0), -EINVAL);
	IS(bpfrt_world_load(&world, &prog, first, 1), -EINVAL);
	IS(bpfrt_world_load(&world, &prog, none, 1), -EINVAL);
	IS(bpfrt_world_load(&world, &prog, both, 2), -EINVAL);
	IS(bpfrt_world_load(&world, &prog, too_many, 17), -EINVAL);
	for (int number = 0; number < MANY; number++)
		IS(bpfrt_world_load(&world, &prog, second, 1), number < 64 ? number : -E2BIG);
	IS(bpfrt_prog_close(&prog), 0);
	IS(bpfrt_world_run(&world, 63, NULL, 0, &value), 0);
	IS(value, 7);
	IS(bpfrt_world_run(&world, 64, NULL, 0, &value), -ENXIO);
	IS(bpfrt_world_run(&world, UINT32_MAX, NULL, 0, &value), -ENXIO);
	IS(bpfrt_world_run(&world, 0, "a", 1, &value), -EINVAL);
	IS(bpfrt_world_close(&world), 0);
}

static void elements_of_hash(void)
{
	struct bpfrt_world world = {0};
	unsigned char value[8] = "seven..", room[8] = "before.";
	IS(bpfrt_world_open(&world, &hash, 1, &why), 0);
	IS(bpfrt_map_update_elem(&world, 1, "abcd", 4, value, 8, 0), -ENXIO);
	IS(bpfrt_map_lookup_elem(&world, 1, "abcd", 4, room, 8), -ENXIO);
	IS(bpfrt_map_delete_elem(&world, UINT32_MAX, "abcd", 4), -ENXIO);
	IS(bpfrt_map_update_elem(&world, 0, "abc", 3, value, 8, 0), -EINVAL);
	IS(bpfrt_map_update_elem(&world, 0, "abcd", 4, value, 7, 0), -EINVAL);
	IS(bpfrt_map_update_elem(&world, 0, NULL, 0, NULL, 0, 0), -EINVAL);
	IS(bpfrt_map_update_elem(&world, 0, "abcd", 4, value, 8, 3), -EINVAL);
	IS(bpfrt_map_update_elem(&world, 0, "abcd", 4, value, 8, UINT64_MAX), -EINVAL);
	IS(bpfrt_map_lookup_elem(&world, 0, NULL, 0, room, 8), -EINVAL);
	IS(bpfrt_map_lookup_elem(&world, 0, "abcd", 4, room, 8), -ENOENT);
	IS(bpfrt_map_delete_elem(&world, 0, NULL, 0), -EINVAL);
	IS(bpfrt_map_update_elem(&world, 0, many, sizeof many, value, 8, 0), -EINVAL);
	IS(bpfrt_map_update_elem(&world, 0, "abcd", 4, many, sizeof many, 0), -EINVAL);
	IS(bpfrt_map_lookup_elem(&world, 0, many, sizeof many, room, 8), -EINVAL);
	IS(bpfrt_map_delete_elem(&world, 0, many, sizeof many), -EINVAL);
	IS(bpfrt_map_delete_elem(&world, 0, "abcd", 4), -ENOENT);
	IS(memcmp(room, "before.", 8), 0);
	IS(bpfrt_map_update_elem(&world, 0, "abcd", 4, value, 8, 2), -ENOENT);
	IS(bpfrt_map_update_elem(&world, 0, "abcd", 4, value, 8, 1), 0);
	IS(bpfrt_map_update_elem(&world, 0, "abcd", 4, value, 8, 1), -EEXIST);
	IS(bpfrt_map_lookup_elem(&world, 0, "abcd", 4, room, 7), -EINVAL);
	IS(bpfrt_map_lookup_elem(&world, 0, "abcd", 4, NULL, 0), -EINVAL);
	IS(memcmp(room, "before.", 8), 0);
	IS(bpfrt_map_lookup_elem(&world, 0, "abcd", 4, room, 8), 0);
	IS(memcmp(room, value, 8), 0);
	IS(bpfrt_map_update_elem(&world, 0, "efgh", 4, value, 8, 0), 0);
	IS(bpfrt_map_update_elem(&world, 0, "ijkl", 4, value, 8, 0), -E2BIG);
	IS(bpfrt_map_update_elem(&world, 0, "abcd", 4, value, 8, 2), 0);
	IS(bpfrt_map_update_elem(&world, 0, "abcd", 4, value, 8, 2), -ENOMEM);
	IS(bpfrt_world_reap(&world), 0);
	IS(bpfrt_world_advance(&world), 0);
	IS(bpfrt_world_advance(&world), 0);
	IS(bpfrt_world_reap(&world), 1);
	IS(bpfrt_world_reap(&world), 0);
	IS(bpfrt_map_update_elem(&world, 0, "abcd", 4, value, 8, 2), 0);
	IS(bpfrt_map_delete_elem(&world, 0, "abcd", 4), 0);
	IS(bpfrt_map_lookup_elem(&world, 0, "abcd", 4, room, 8), -ENOENT);
	IS(bpfrt_world_close(&world), 0);
}

static void elements_of_array(void)
{
	struct bpfrt_world world = {0};
	unsigned char room[8] = "before.";
	IS(bpfrt_world_open(&world, &array, 1, &why), 0);
	IS(bpfrt_map_lookup_elem(&world, 0, "\1\0\0\0", 4, room, 8), 0);
	IS(memcmp(room, "\0\0\0\0\0\0\0\0", 8), 0);
	IS(bpfrt_map_lookup_elem(&world, 0, "\2\0\0\0", 4, room, 8), -ENOENT);
	IS(bpfrt_map_update_elem(&world, 0, "\1\0\0\0", 4, "abcdefgh", 8, 0), 0);
	IS(bpfrt_map_update_elem(&world, 0, "\1\0\0\0", 4, "abcdefgh", 8, 1), -EEXIST);
	IS(bpfrt_map_update_elem(&world, 0, "\2\0\0\0", 4, "abcdefgh", 8, 0), -E2BIG);
	IS(bpfrt_map_delete_elem(&world, 0, "\1\0\0\0", 4), -EINVAL);
	IS(bpfrt_map_lookup_elem(&world, 0, "\1\0\0\0", 4, room, 8), 0);
	IS(memcmp(room, "abcdefgh", 8), 0);
	IS(bpfrt_world_close(&world), 0);
}

/* What the world has, and keys in the order of their bytes. */
static void has_world(struct bpfrt_world *world, uint64_t linked, uint64_t unlinked, uint64_t reclaimed, uint64_t worn, uint64_t runs,
	uint64_t sections)
{
	struct bpfrt_world_stat stat = {99, 99, 99, 99, 99, 99};
	IS(bpfrt_world_stat(world, &stat), 0);
	IS(stat.linked, linked);
	IS(stat.unlinked, unlinked);
	IS(stat.reclaimed, reclaimed);
	IS(stat.worn, worn);
	IS(stat.runs, runs);
	IS(stat.sections, sections);
}

static void counts_of_world(void)
{
	/* callbtf 1; callbtf 2; mov64 r0, 1; exit */
	static const unsigned char section[] = {
		0x85, 0x20, 0, 0, 1, 0, 0, 0, 0x85, 0x20, 0, 0, 2, 0, 0, 0, 0xb7, 0, 0, 0, 1, 0, 0, 0, 0x95, 0, 0, 0, 0, 0, 0, 0};
	const struct bpfrt_map_shape shapes[] = {hash, array, {BPFRT_MAP_TYPE_HASH, 4, 8, 1, 0, 1}};
	struct bpfrt_world world = {0};
	struct bpfrt_prog prog = {0};
	IS(bpfrt_world_open(&world, shapes, 3, NULL), 0);
	has_world(&world, 2, 0, 0, 0, 0, 0);
	IS(bpfrt_map_update_elem(&world, 0, "abcd", 4, "abcdefgh", 8, 0), 0);
	IS(bpfrt_map_update_elem(&world, 2, "abcd", 4, "abcdefgh", 8, 0), 0);
	has_world(&world, 4, 0, 0, 0, 0, 0);
	IS(bpfrt_map_update_elem(&world, 0, "abcd", 4, "abcdefgh", 8, 0), 0);
	IS(bpfrt_map_delete_elem(&world, 2, "abcd", 4), 0);
	has_world(&world, 3, 2, 0, 0, 0, 0);
	IS(bpfrt_world_advance(&world), 0);
	IS(bpfrt_world_advance(&world), 0);
	IS(bpfrt_world_reap(&world), 1);
	IS(bpfrt_world_reap(&world), 1);
	has_world(&world, 3, 0, 2, 1, 0, 0);
	open_prog(&prog, section, sizeof section, 0, NULL, 0);
	IS(bpfrt_world_load(&world, &prog, NULL, 0), 0);
	IS(bpfrt_world_start(&world, 0, NULL, 0), 0);
	IS(bpfrt_world_start(&world, 0, NULL, 0), 1);
	has_world(&world, 3, 0, 2, 1, 2, 0);
	IS(bpfrt_world_step(&world, 1, NULL), 0);
	has_world(&world, 3, 0, 2, 1, 2, 1);
	IS(bpfrt_world_step(&world, 1, NULL), 0);
	has_world(&world, 3, 0, 2, 1, 2, 0);
	IS(bpfrt_world_run(&world, 0, NULL, 0, NULL), 0);
	has_world(&world, 3, 0, 2, 1, 2, 0);
	IS(bpfrt_prog_close(&prog), 0);
	IS(bpfrt_world_close(&world), 0);
}

static void next_is(struct bpfrt_world *world, uint32_t map, const char *key, size_t size, const char *wanted)
{
	char next[4] = "????";
	IS(bpfrt_map_get_next_key(world, map, key, size, next, 4), 0);
	IS(memcmp(next, wanted, 4), 0);
}

static void keys_in_order(void)
{
	const struct bpfrt_map_shape shapes[] = {{BPFRT_MAP_TYPE_HASH, 4, 8, 4, 4, 9}, array, hash};
	struct bpfrt_world world = {0};
	char next[8] = "before.";
	IS(bpfrt_world_open(&world, shapes, 3, NULL), 0);
	for (int number = 0; number < 4; number++)
		IS(bpfrt_map_update_elem(&world, 0, &"\377bcdbbbbaaaaabcd"[4 * number], 4, "abcdefgh", 8, 0), 0);
	next_is(&world, 0, NULL, 0, "aaaa");
	next_is(&world, 0, "", 0, "aaaa");
	next_is(&world, 0, "aaaa", 4, "abcd");
	next_is(&world, 0, "abcd", 4, "bbbb");
	next_is(&world, 0, "bbbb", 4, "\377bcd");
	next_is(&world, 0, "aaa~", 4, "abcd");
	next_is(&world, 0, "\0\0\0\0", 4, "aaaa");
	next_is(&world, 0, "a", 1, "aaaa");
	next_is(&world, 0, "aaaaa", 5, "abcd");
	next_is(&world, 0, (const char *)many, 64, "aaaa");
	IS(bpfrt_map_get_next_key(&world, 0, "\377bcd", 4, next, 4), -ENOENT);
	IS(bpfrt_map_get_next_key(&world, 0, "\377\377\377\377", 4, next, 4), -ENOENT);
	IS(bpfrt_map_get_next_key(&world, 0, many, 65, next, 4), -EINVAL);
	IS(bpfrt_map_get_next_key(&world, 0, many, sizeof many, next, 4), -EINVAL);
	IS(bpfrt_map_get_next_key(&world, 0, NULL, 0, next, 3), -EINVAL);
	IS(bpfrt_map_get_next_key(&world, 0, NULL, 0, next, 8), -EINVAL);
	IS(bpfrt_map_get_next_key(&world, 0, NULL, 0, NULL, 0), -EINVAL);
	IS(bpfrt_map_get_next_key(&world, 0, NULL, 4, next, 4), -EINVAL);
	IS(bpfrt_map_get_next_key(&world, 0, "aaaa", 4, NULL, 4), -EINVAL);
	IS(bpfrt_map_get_next_key(&world, 2, NULL, 0, next, 4), -ENOENT);
	IS(bpfrt_map_get_next_key(&world, 3, NULL, 0, next, 4), -ENXIO);
	IS(bpfrt_map_get_next_key(&world, UINT32_MAX, NULL, 0, next, 4), -ENXIO);
	IS(memcmp(next, "before.", 8), 0);
	next_is(&world, 1, NULL, 0, "\0\0\0\0");
	next_is(&world, 1, "\0\0\0\0", 4, "\1\0\0\0");
	next_is(&world, 1, "\0", 1, "\0\0\0\0");
	next_is(&world, 1, "\0\0\0\0\0", 5, "\1\0\0\0");
	next_is(&world, 1, "\0\377\377\377", 4, "\1\0\0\0");
	IS(bpfrt_map_get_next_key(&world, 1, "\1\0\0\0", 4, next, 4), -ENOENT);
	IS(bpfrt_map_delete_elem(&world, 0, "abcd", 4), 0);
	next_is(&world, 0, "aaaa", 4, "bbbb");
	IS(bpfrt_world_close(&world), 0);
}

static void stepped_runs(void)
{
	struct bpfrt_world world = {0};
	struct bpfrt_prog prog = {0};
	uint64_t value = 9;
	IS(bpfrt_world_open(&world, NULL, 0, &why), 0);
	IS(bpfrt_prog_open(&prog, exit_byte, sizeof exit_byte, 1, NULL, 0, &why), 0);
	IS(bpfrt_world_load(&world, &prog, NULL, 0), 0);
	IS(bpfrt_world_start(&world, 1, "a", 1), -ENXIO);
	IS(bpfrt_world_start(&world, 0, NULL, 0), -EINVAL);
	IS(bpfrt_world_start(&world, 0, many, sizeof many), -EINVAL);
	IS(bpfrt_world_run(&world, 0, many, sizeof many, &value), -EINVAL);
	IS(bpfrt_world_step(&world, 0, &value), -ESRCH);
	IS(bpfrt_world_drop(&world, 0), -ESRCH);
	IS(bpfrt_world_start(&world, 0, "a", 1), 0);
	IS(bpfrt_world_drop(&world, 0), -EBUSY);
	IS(bpfrt_world_step(&world, 0, &value), 0);
	IS(value, 9);
	IS(bpfrt_world_step(&world, 0, &value), 1);
	IS(value, 'a');
	IS(bpfrt_world_step(&world, 0, &value), -ESRCH);
	IS(bpfrt_world_step(&world, 256, &value), -ESRCH);
	IS(bpfrt_world_step(&world, UINT32_MAX, &value), -ESRCH);
	IS(bpfrt_world_drop(&world, 0), 0);
	IS(bpfrt_world_drop(&world, 0), -ESRCH);
	for (int run = 0; run < 256; run++)
		IS(bpfrt_world_start(&world, 0, "b", 1), run);
	IS(bpfrt_world_start(&world, 0, "b", 1), -EAGAIN);
	IS(bpfrt_world_run(&world, 0, "b", 1, &value), -EAGAIN);
	IS(bpfrt_prog_close(&prog), 0);
	IS(bpfrt_world_close(&world), 0);
}

void judge_worlds(void)
{
	closed_world();
	other_kind();
	no_worlds();
	loads();
	elements_of_hash();
	elements_of_array();
	counts_of_world();
	keys_in_order();
	stepped_runs();
}
#endif
