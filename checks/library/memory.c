/* Makes each call of bpfrt.h that takes memory, with the first growth of memory refused, then with the second, and so on until one
   call is not refused any; and the same with all growths behind it refused, too. Each answers -ENOMEM and leaves all as it was, or
   does as with ample memory; none loses a block. checks/library_agree builds it with refuser.c, and runs it; with -DWORLDS also the
   calls on worlds. */
#include <bpfrt.h>
#include <errno.h>
#include <stdbool.h>
#include <stdio.h>
#include <string.h>

enum { MOST = 100000 };

extern long refuser_left, refuser_goes_on, refuser_blocks, refuser_growths;

static const unsigned char exit_one[] = {0xb7, 0, 0, 0, 1, 0, 0, 0, 0x95, 0, 0, 0, 0, 0, 0, 0};
static const unsigned char names_map[] = {
	0x18, 0x51, 0, 0, 0, 0, 0, 0, 0, 0, 0, 0, 0, 0, 0, 0, 0xb7, 0, 0, 0, 7, 0, 0, 0, 0x95, 0, 0, 0, 0, 0, 0, 0};
static const unsigned char returns[] = {0x30, 0, 0, 0, 9, 0, 0, 0, 0x16, 0, 0, 0, 0, 0, 0, 0};
static const unsigned char judges[] = {0x20, 0, 0, 0, 0, 0, 0, 0, 0x16, 0, 0, 0, 0, 0, 0, 0};
static const char listing[] = "2\n48 0 0 9\n22 0 0 0\n";
static const char file[] = "bpfrt 1\nctx 4\nmap m 4 8 4 4 9\ncode\nb700000001000000 9500000000000000\n";
static const struct bpfrt_map_shape shapes[] = {{BPFRT_MAP_TYPE_HASH, 4, 8, 4, 4, 9}, {BPFRT_MAP_TYPE_ARRAY, 4, 8, 4, 0, 1}};
static const uint32_t maps[] = {0, 1};
static struct bpfrt_prog prog, other;
static struct bpfrt_table table;
static struct bpfrt_reader reader;
static struct bpfrt_refusal why;
static long wrong;

static int32_t open_bytes(void)
{
	return bpfrt_prog_open(&prog, exit_one, sizeof exit_one, 0, NULL, 0, &why);
}

static int32_t open_with_maps(void)
{
	return bpfrt_prog_open(&prog, names_map, sizeof names_map, 0, shapes, 2, &why);
}

static int32_t open_flawed(void)
{
	return bpfrt_prog_open(&prog, exit_one, 8, 0, NULL, 0, &why);
}

static int32_t open_file(void)
{
	return bpfrt_prog_open_file(&prog, file, sizeof file - 1, &why);
}

static int32_t open_tcpdump(void)
{
	return bpfrt_prog_open_tcpdump(&prog, listing, sizeof listing - 1, &why);
}

static int32_t open_filter(void)
{
	return bpfrt_prog_open_filter(&prog, returns, sizeof returns, &why);
}

static int32_t open_policy(void)
{
	return bpfrt_prog_open_policy(&prog, judges, sizeof judges, &why);
}

static int32_t share(void)
{
	return bpfrt_prog_share(&prog, &other);
}

static int32_t close_prog(void)
{
	return prog.state ? bpfrt_prog_close(&prog) : 0;
}

static int32_t close_table(void)
{
	return table.state ? bpfrt_table_close(&table) : 0;
}

static void complain(const char *name, long growth, const char *what, long number)
{
	wrong++;
	printf("%s, growth %ld refused: %s %ld\n", name, growth, what, number);
}

/* What a call that opens a program says where it has no memory: 13, with words or without. */
static bool says_memory(void)
{
	return why.code == 13 && why.place == BPFRT_NOWHERE && why.at == 0 && memchr(why.words, 0, sizeof why.words);
}

/* A call with this growth refused, and those behind it: whether one was. */
static bool made(const char *name, int32_t (*call)(void), int32_t (*undo)(void), int32_t wanted, long growth)
{
	long blocks = refuser_blocks;
	memset(&why, 0xee, sizeof why);
	refuser_left = growth;
	int32_t status = call();
	bool is_refused = refuser_left <= 0;
	refuser_left = refuser_goes_on ? MOST : 0;
	if (status != wanted && !(is_refused && status == -ENOMEM))
		complain(name, growth, "it answers", status);
	if (status == -ENOMEM && refuser_blocks != blocks)
		complain(name, growth, "more blocks than before:", refuser_blocks - blocks);
	if (status == -ENOMEM && undo == close_prog && call != share && !says_memory())
		complain(name, growth, "why is not told, or is not 13, of", status);
	if (status < 0 && (prog.state != 0 || reader.state != 0 || (table.state != 0 && undo == close_table)))
		complain(name, growth, "it fails, and the handle is open", status);
	if (undo())
		complain(name, growth, "it is not undone, and answers", status);
	if (refuser_blocks != blocks)
		complain(name, growth, "blocks that are lost:", refuser_blocks - blocks);
	return is_refused;
}

static void each_growth(const char *name, int32_t (*call)(void), int32_t (*undo)(void), int32_t wanted)
{
	for (refuser_goes_on = 0; refuser_goes_on < 2; refuser_goes_on++) {
		long growth = 1;
		while (growth < MOST && made(name, call, undo, wanted, growth))
			growth++;
		printf("%s: %ld growths\n", name, growth - 1);
		if (growth == 1 || growth == MOST)
			complain(name, growth, "the growths have no end, or there are none:", growth);
	}
	refuser_goes_on = 0;
	refuser_left = 0;
}

/* Runs take no memory. */
static void runs(void)
{
	static unsigned char context[256 * 4], packet[300];
	static const struct bpfrt_packet packets[] = {{0, 300, 300}, {7, 9, 11}};
	uint64_t value, values[4];
	open_filter();
	long growths = refuser_growths;
	int32_t status = bpfrt_prog_run(&prog, context, 256, &value) | bpfrt_prog_run_many(&prog, context, sizeof context, values, 4)
			 | bpfrt_prog_run_packet(&prog, packet, sizeof packet, sizeof packet, &value)
			 | bpfrt_prog_run_packets(&prog, packet, sizeof packet, packets, values, 2) | bpfrt_prog_ctx_len(&prog);
	growths = refuser_growths - growths;
	if (status != 256 || growths)
		complain("runs", 0, "growths:", growths);
	close_prog();
}

static int32_t open_table(void)
{
	static const struct bpfrt_table_shape shape = {2, 2, 9, 1, 2, BPFRT_TABLE_PER_READER, 1, 2};
	return bpfrt_table_open(&table, &shape);
}

static int64_t seats(void)
{
	struct bpfrt_table_stat stat = {0, 0, 99};
	bpfrt_table_stat(&table, &stat);
	return (int64_t)stat.seats;
}

static int32_t open_reader(void)
{
	int64_t before = seats();
	int32_t status = bpfrt_table_reader(&reader, &table);
	if (seats() != before - (status == 0) || (status == 0) != (reader.state != 0))
		complain("table_reader", 0, "seats behind it:", (long)seats());
	return status;
}

/* A seat is not given back, so there is a new table for the next call. */
static int32_t close_reader(void)
{
	return (reader.state ? bpfrt_reader_close(&reader) : 0) | close_table() | open_table();
}

/* All else on tables takes none. */
static void runs_over_table(void)
{
	static const uint64_t key[1], values[4];
	struct bpfrt_table_stat stat;
	uint64_t value, next, sums[2];
	open_filter();
	open_reader();
	long growths = refuser_growths;
	int32_t status = bpfrt_table_update_elem(&table, key, 1, values, 4, 1);
	status |= bpfrt_table_update_elem(&table, key, 1, values, 4, 2);
	status |= bpfrt_table_lookup_elem(&table, key, 1, sums, 2) | bpfrt_reader_run_packet(&reader, &prog, NULL, 0, 0, &value);
	status |= bpfrt_table_get_next_key(&table, NULL, 1, &next) | (bpfrt_table_get_next_key(&table, &next, 1, &value) + ENOENT);
	status |= bpfrt_table_delete_elem(&table, key, 1);
	status |= bpfrt_table_stat(&table, &stat) | (bpfrt_table_reclaim(&table) - 2);
	growths = refuser_growths - growths;
	if (status || growths)
		complain("tables", 0, "growths:", growths);
	close_prog();
}

static void tables(void)
{
	each_growth("table_open", open_table, close_table, 0);
	open_table();
	each_growth("table_reader", open_reader, close_reader, 0);
	runs_over_table();
	bpfrt_reader_close(&reader);
	close_table();
}

#ifdef WORLDS
static struct bpfrt_world world;
static uint64_t value;
static unsigned char room[8];

static int32_t open_world(void)
{
	return bpfrt_world_open(&world, shapes, 2, &why);
}

static int32_t close_world(void)
{
	return world.state ? bpfrt_world_close(&world) : 0;
}

/* A new world with a program and an element. */
static void make_world(void)
{
	close_world();
	close_prog();
	open_with_maps();
	open_world();
	bpfrt_world_load(&world, &prog, maps, 2);
	bpfrt_map_update_elem(&world, 0, "abcd", 4, "abcdefgh", 8, 0);
}

static int32_t load(void)
{
	int32_t number = bpfrt_world_load(&world, &prog, maps, 2);
	return number < 0 ? number : number == 1 ? 0 : 1;
}

static int32_t put(void)
{
	return bpfrt_map_update_elem(&world, 0, "efgh", 4, "abcdefgh", 8, 1);
}

static int32_t replace(void)
{
	return bpfrt_map_update_elem(&world, 0, "abcd", 4, "abcdefgh", 8, 2);
}

static int32_t get(void)
{
	return bpfrt_map_lookup_elem(&world, 0, "abcd", 4, room, 8);
}

static int32_t delete(void)
{
	return bpfrt_map_delete_elem(&world, 0, "abcd", 4);
}

static int32_t run(void)
{
	return bpfrt_world_run(&world, 0, NULL, 0, &value);
}

static int32_t start(void)
{
	return bpfrt_world_start(&world, 0, NULL, 0);
}

static int32_t advance(void)
{
	return bpfrt_world_advance(&world);
}

static int32_t next_key(void)
{
	return bpfrt_map_get_next_key(&world, 0, NULL, 0, room, 4);
}

static int32_t stat_world(void)
{
	struct bpfrt_world_stat stat;
	return bpfrt_world_stat(&world, &stat);
}

/* Each call on a new world, which is freed behind it; made again after want of memory it does as before. */
static bool made_in_world(const char *name, int32_t (*call)(void), long growth)
{
	make_world();
	refuser_left = growth;
	int32_t status = call();
	bool is_refused = refuser_left <= 0;
	refuser_left = 0;
	if (status != 0 && !(is_refused && status == -ENOMEM))
		complain(name, growth, "it answers", status);
	if (status == -ENOMEM && (status = call()))
		complain(name, growth, "made again it answers", status);
	return is_refused;
}

static void each_growth_in_world(const char *name, int32_t (*call)(void))
{
	long growth = 1;
	while (growth < MOST && made_in_world(name, call, growth))
		growth++;
	close_world();
	close_prog();
	printf("%s: %ld growths\n", name, growth - 1);
}

static void worlds(void)
{
	each_growth("world_open", open_world, close_world, 0);
	each_growth_in_world("world_load", load);
	each_growth_in_world("map_update_elem, new", put);
	each_growth_in_world("map_update_elem, there", replace);
	each_growth_in_world("map_lookup_elem", get);
	each_growth_in_world("map_delete_elem", delete);
	each_growth_in_world("world_run", run);
	each_growth_in_world("world_start", start);
	each_growth_in_world("world_advance", advance);
	each_growth_in_world("map_get_next_key", next_key);
	each_growth_in_world("world_stat", stat_world);
}
#endif

int main(void)
{
	setvbuf(stdout, NULL, _IOFBF, 1 << 16);
	puts("calls, and how many growths of memory each has");
	bpfrt_prog_open(&other, exit_one, sizeof exit_one, 0, NULL, 0, &why);
	long blocks = refuser_blocks;
	each_growth("prog_open", open_bytes, close_prog, 0);
	each_growth("prog_open with maps", open_with_maps, close_prog, 0);
	each_growth("prog_open of what is refused", open_flawed, close_prog, -EACCES);
	each_growth("prog_open_file", open_file, close_prog, 0);
	each_growth("prog_open_tcpdump", open_tcpdump, close_prog, 0);
	each_growth("prog_open_filter", open_filter, close_prog, 0);
	each_growth("prog_open_policy", open_policy, close_prog, 0);
	each_growth("prog_share", share, close_prog, 0);
	runs();
	tables();
#ifdef WORLDS
	worlds();
#else
	(void)maps;
#endif
	if (refuser_blocks != blocks)
		complain("all", 0, "blocks that are lost:", refuser_blocks - blocks);
	bpfrt_prog_close(&other);
	return wrong != 0;
}
