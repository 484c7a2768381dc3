/* What calls of bpfrt.h cost, in processor time: speed FILTER CAPTURE PROGRAM
   FILTER is what `tcpdump -ddd` wrote, PROGRAM a raw one without context. checks/library_speed builds it and runs it: with -DPCAP
   beside libpcap's interpreter, with -DDPDK beside DPDK's, with -DWORLDS also the calls on worlds. */
#define _GNU_SOURCE
#include <bpfrt.h>
#include <stdio.h>
#include <stdlib.h>
#include <string.h>
#include <time.h>
#ifdef PCAP
#include <sys/types.h>
#include <pcap/bpf.h>
#endif
#ifdef DPDK
#include <rte_bpf.h>
#endif

enum { PACKETS = 1024, MANY = 4096, KEYS = 1024, SIZE = 2048, CONTEXT = 256, SEEN = 248, ROUNDS = 12, LONGEST = 1 << 18 };

static unsigned char packets[PACKETS][SIZE], contexts[MANY][CONTEXT], ring[MANY * SIZE];
static struct bpfrt_packet places[MANY];
static uint32_t captured[PACKETS], lengths[PACKETS];
static uint64_t values[MANY];
static unsigned char listing[LONGEST], program[LONGEST];
static size_t listing_size, program_size;
static struct bpfrt_prog one, sum, filter;
static struct bpfrt_refusal why;
static volatile uint64_t sink;

static const unsigned char exit_one[] = {0xb7, 0, 0, 0, 1, 0, 0, 0, 0x95, 0, 0, 0, 0, 0, 0, 0};

static void fail(const char *what)
{
	fprintf(stderr, "speed: %s\n", what);
	exit(1);
}

static double now(void)
{
	struct timespec time;
	clock_gettime(CLOCK_THREAD_CPUTIME_ID, &time);
	return (double)time.tv_sec * 1e9 + (double)time.tv_nsec;
}

/* A row of the table: what one of `count` things costs that a call of `work` does, at best. */
static void measure(const char *name, void (*work)(void), int count)
{
	double best = 1e30;
	for (int round = 0; round < ROUNDS; round++) {
		long times = 0;
		double start = now(), end;
		do {
			work();
			times++;
			end = now();
		} while (end - start < 5e7);
		double cost = (end - start) / ((double)times * count);
		best = cost < best ? cost : best;
	}
	printf("%-44s %9.1f ns %9.2f M/s\n", name, best, 1e3 / best);
	fflush(stdout);
}

static size_t read_file(const char *path, unsigned char *to)
{
	FILE *file = fopen(path, "rb");
	size_t size = file ? fread(to, 1, LONGEST, file) : 0;
	if (!size)
		fail(path);
	fclose(file);
	return size;
}

/* The packets of a capture of this machine's order, again and again. */
static void read_packets(const char *path)
{
	static unsigned char data[LONGEST];
	size_t size = read_file(path, data), at = 24;
	for (int number = 0; number < PACKETS; number++) {
		if (at + 16 > size)
			at = 24;
		memcpy(&captured[number], data + at + 8, 4);
		memcpy(&lengths[number], data + at + 12, 4);
		if (captured[number] > SIZE || at + 16 + captured[number] > size)
			fail("a packet is longer than any");
		memcpy(packets[number], data + at + 16, captured[number]);
		at += 16 + captured[number];
		uint32_t seen = captured[number] < SEEN ? captured[number] : SEEN;
		memcpy(contexts[number], &seen, 4);
		memcpy(contexts[number] + 4, &lengths[number], 4);
		memcpy(contexts[number] + 8, packets[number], seen);
	}
	for (int number = PACKETS; number < MANY; number++)
		memcpy(contexts[number], contexts[number - PACKETS], CONTEXT);
}

static void run_one(void)
{
	uint64_t value = 0;
	for (int number = 0; number < PACKETS; number++) {
		bpfrt_prog_run(&one, NULL, 0, &value);
		sink += value;
	}
}

static void run_one_many(void)
{
	bpfrt_prog_run_many(&one, NULL, 0, values, MANY);
}

static void run_sum(void)
{
	uint64_t value = 0;
	for (int number = 0; number < PACKETS; number++) {
		bpfrt_prog_run(&sum, NULL, 0, &value);
		sink += value;
	}
}

static void run_filter(void)
{
	uint64_t value = 0;
	for (int number = 0; number < PACKETS; number++) {
		bpfrt_prog_run(&filter, contexts[number], CONTEXT, &value);
		sink += value;
	}
}

static void run_filter_many(void)
{
	bpfrt_prog_run_many(&filter, contexts, sizeof contexts, values, MANY);
}

static void run_filter_packet(void)
{
	uint64_t value = 0;
	for (int number = 0; number < PACKETS; number++) {
		bpfrt_prog_run_packet(&filter, packets[number], captured[number], lengths[number], &value);
		sink += value;
	}
}

/* MANY packets that lie one behind another, as in a ring; and the same by a call for each. */
static void lay_packets(void)
{
	for (int number = 0; number < MANY; number++) {
		int from = number % PACKETS;
		places[number] = (struct bpfrt_packet){number ? places[number - 1].at + places[number - 1].caplen : 0, captured[from], lengths[from]};
		if (places[number].at + captured[from] > sizeof ring)
			fail("the packets are too long");
		memcpy(ring + places[number].at, packets[from], captured[from]);
	}
}

static void run_packets(void)
{
	bpfrt_prog_run_packets(&filter, ring, sizeof ring, places, values, MANY);
}

static void run_each_packet(void)
{
	for (int number = 0; number < MANY; number++)
		bpfrt_prog_run_packet(&filter, ring + places[number].at, places[number].caplen, places[number].len, &values[number]);
}

static void run_closed(void)
{
	struct bpfrt_prog none = {0};
	uint64_t value = 0;
	for (int number = 0; number < PACKETS; number++)
		sink += (uint64_t)bpfrt_prog_run(&none, NULL, 0, &value);
}

static void open_filter(void)
{
	struct bpfrt_prog prog = {0};
	sink += (uint64_t)bpfrt_prog_open_tcpdump(&prog, listing, listing_size, &why);
	bpfrt_prog_close(&prog);
}

/* The same filter as an array of struct sock_filter, and as the eBPF program that `bpfrt filter` makes of it. */
static unsigned char array[4096 * 8], translation[LONGEST];
static size_t array_size, translation_size;

static void read_array(void)
{
	char *at = (char *)listing;
	long count = strtol(at, &at, 10);
	for (long number = 0; number < count && number < 4096; number++) {
		uint16_t code = (uint16_t)strtoul(at, &at, 10);
		unsigned char if_true = (unsigned char)strtoul(at, &at, 10);
		unsigned char if_false = (unsigned char)strtoul(at, &at, 10);
		uint32_t k = (uint32_t)strtoul(at, &at, 10);
		memcpy(array + array_size, &code, 2);
		array[array_size + 2] = if_true;
		array[array_size + 3] = if_false;
		memcpy(array + array_size + 4, &k, 4);
		array_size += 8;
	}
}

static void open_array(void)
{
	struct bpfrt_prog prog = {0};
	sink += (uint64_t)bpfrt_prog_open_filter(&prog, array, array_size, &why);
	bpfrt_prog_close(&prog);
}

static void open_translation(void)
{
	struct bpfrt_prog prog = {0};
	sink += (uint64_t)bpfrt_prog_open(&prog, translation, translation_size, CONTEXT, NULL, 0, &why);
	bpfrt_prog_close(&prog);
}

static void share_filter(void)
{
	struct bpfrt_prog prog = {0};
	sink += (uint64_t)bpfrt_prog_share(&prog, &filter);
	bpfrt_prog_close(&prog);
}

#ifdef PCAP
static struct bpf_insn classic[4096];

static void read_classic(void)
{
	char *at = (char *)listing;
	long count = strtol(at, &at, 10);
	for (long number = 0; number < count && number < 4096; number++) {
		classic[number].code = (u_short)strtoul(at, &at, 10);
		classic[number].jt = (u_char)strtoul(at, &at, 10);
		classic[number].jf = (u_char)strtoul(at, &at, 10);
		classic[number].k = (bpf_u_int32)strtoul(at, &at, 10);
	}
}

static void run_libpcap(void)
{
	for (int number = 0; number < PACKETS; number++)
		sink += bpf_filter(classic, packets[number], lengths[number], captured[number]);
}

static void compare(void)
{
	int differ = 0;
	for (int number = 0; number < PACKETS; number++) {
		uint32_t seen = captured[number] < SEEN ? captured[number] : SEEN;
		bpfrt_prog_run_packet(&filter, packets[number], captured[number], lengths[number], &values[number]);
		differ += values[number] != bpf_filter(classic, packets[number], lengths[number], seen);
	}
	printf("%d packets, of which libpcap judges %d otherwise\n", PACKETS, differ);
}
#endif

#ifdef DPDK
static struct rte_bpf *dpdk_one, *dpdk_sum;

static struct rte_bpf *load_dpdk(const void *insns, size_t size)
{
	struct rte_bpf_prm prm = {.ins = insns, .nb_ins = (uint32_t)(size / 8), .prog_arg = {.type = RTE_BPF_ARG_RAW, .size = 8}};
	struct rte_bpf *made = rte_bpf_load(&prm);
	if (!made)
		fail("DPDK loads no program");
	return made;
}

static void run_dpdk_one(void)
{
	for (int number = 0; number < PACKETS; number++)
		sink += rte_bpf_exec(dpdk_one, contexts[number]);
}

static void run_dpdk_sum(void)
{
	for (int number = 0; number < PACKETS; number++)
		sink += rte_bpf_exec(dpdk_sum, contexts[number]);
}
#endif

/* A table of half as many keys as it has elements, and a program that looks one up and adds 1 to its number. */
static const unsigned char count[] = {
	0xb7, 6, 0, 0, 0, 0, 0, 0, 0x79, 0x13, 0, 0, 0, 0, 0, 0, 0x7b, 0x3a, 0xf8, 0xff, 0, 0, 0, 0, 0x85, 0x20, 0, 0, 1, 0, 0, 0,
	0xbf, 0xa2, 0, 0, 0, 0, 0, 0, 7, 2, 0, 0, 0xf8, 0xff, 0xff, 0xff, 0x18, 0x51, 0, 0, 0, 0, 0, 0, 0, 0, 0, 0, 0, 0, 0, 0,
	0x85, 0, 0, 0, 1, 0, 0, 0, 0x15, 0, 3, 0, 0, 0, 0, 0, 0x79, 6, 0, 0, 0, 0, 0, 0, 7, 6, 0, 0, 1, 0, 0, 0,
	0x7b, 0x60, 0, 0, 0, 0, 0, 0, 0x85, 0x20, 0, 0, 2, 0, 0, 0, 0xbf, 0x60, 0, 0, 0, 0, 0, 0, 0x95, 0, 0, 0, 0, 0, 0, 0};
static const struct bpfrt_map_shape words = {BPFRT_MAP_TYPE_HASH, 8, 8, KEYS, KEYS, UINT32_MAX};
static struct bpfrt_table table;
static struct bpfrt_reader reader;
static struct bpfrt_prog counter;

static void open_table(void)
{
	const struct bpfrt_table_shape shape = {1, bpfrt_table_buckets(2 * KEYS), 2 * KEYS, 1, 1, BPFRT_TABLE_SHARED, 12345, 67890};
	const uint64_t zero = 0;
	if (bpfrt_table_open(&table, &shape) || bpfrt_table_reader(&reader, &table)
	    || bpfrt_prog_open(&counter, count, sizeof count, 8, &words, 1, &why))
		fail("no table is opened");
	for (uint64_t key = 0; key < KEYS; key++)
		if (bpfrt_table_update_elem(&table, &key, 1, &zero, 1, 1))
			fail("a key is not put");
}

static void run_over_table(void)
{
	uint64_t value = 0;
	for (uint64_t key = 0; key < KEYS; key++) {
		bpfrt_reader_run(&reader, &counter, &key, 8, &value);
		if (value == 0)
			fail("a key is not found");
	}
}

static void miss_in_table(void)
{
	uint64_t value = 0;
	for (uint64_t key = KEYS; key < 2 * KEYS; key++) {
		bpfrt_reader_run(&reader, &counter, &key, 8, &value);
		sink += value;
	}
}

static void update_table(void)
{
	const uint64_t value = 7;
	for (uint64_t key = 0; key < KEYS; key++)
		if (bpfrt_table_update_elem(&table, &key, 1, &value, 1, 2))
			fail("a key is not replaced");
}

static void look_up_in_table(void)
{
	uint64_t value = 0;
	for (uint64_t key = 0; key < KEYS; key++)
		sink += (uint64_t)bpfrt_table_lookup_elem(&table, &key, 1, &value, 1) + value;
}

static void change_table(void)
{
	const uint64_t key = 2 * KEYS, value = 7;
	if (bpfrt_table_update_elem(&table, &key, 1, &value, 1, 1) || bpfrt_table_delete_elem(&table, &key, 1)
	    || bpfrt_table_reclaim(&table) < 1)
		fail("a key does not come and go");
}

#ifdef WORLDS
static const struct bpfrt_map_shape shape = {BPFRT_MAP_TYPE_HASH, 4, 8, 16, 16, UINT32_MAX};
static struct bpfrt_world world;

static void open_world(void)
{
	const struct bpfrt_map_shape shapes[] = {shape, words};
	const uint32_t second = 1;
	if (bpfrt_world_open(&world, shapes, 2, &why) || bpfrt_world_load(&world, &one, NULL, 0)
	    || bpfrt_world_load(&world, &counter, &second, 1) != 1)
		fail("no world is opened");
	if (bpfrt_map_update_elem(&world, 0, "abcd", 4, "abcdefgh", 8, 0))
		fail("no element is put");
	for (uint64_t key = 0; key < KEYS; key++)
		if (bpfrt_map_update_elem(&world, 1, &key, 8, "abcdefgh", 8, 0))
			fail("no key is put");
}

/* The same keys of 8 bytes as the table's. */
static void look_up_words(void)
{
	uint64_t value = 0;
	for (uint64_t key = 0; key < KEYS; key++)
		sink += (uint64_t)bpfrt_map_lookup_elem(&world, 1, &key, 8, &value, 8) + value;
}

static void count_in_world(void)
{
	uint64_t value = 0;
	for (uint64_t key = 0; key < KEYS; key++)
		sink += (uint64_t)bpfrt_world_run(&world, 1, &key, 8, &value);
}

static void look_up(void)
{
	unsigned char room[8];
	for (int number = 0; number < PACKETS; number++)
		sink += (uint64_t)bpfrt_map_lookup_elem(&world, 0, "abcd", 4, room, 8);
}

static void change(void)
{
	bpfrt_map_update_elem(&world, 0, "efgh", 4, "abcdefgh", 8, 0);
	bpfrt_map_delete_elem(&world, 0, "efgh", 4);
	bpfrt_world_advance(&world);
	bpfrt_world_advance(&world);
	if (bpfrt_world_reap(&world) != 1)
		fail("nothing is reclaimed");
}

static void run_in_world(void)
{
	uint64_t value = 0;
	for (int number = 0; number < PACKETS; number++)
		sink += (uint64_t)bpfrt_world_run(&world, 0, NULL, 0, &value);
}

static void step_in_world(void)
{
	uint64_t value = 0;
	for (int number = 0; number < PACKETS; number++) {
		uint32_t run = (uint32_t)bpfrt_world_start(&world, 0, NULL, 0);
		while (bpfrt_world_step(&world, run, &value) == 0)
			continue;
		sink += (uint64_t)bpfrt_world_drop(&world, run);
	}
}
#endif

int main(int argc, char **argv)
{
	if (argc != 4 && argc != 5)
		fail("FILTER CAPTURE PROGRAM [TRANSLATION]");
	listing_size = read_file(argv[1], listing);
	read_packets(argv[2]);
	program_size = read_file(argv[3], program);
	if (bpfrt_prog_open_tcpdump(&filter, listing, listing_size, &why) || bpfrt_prog_open(&one, exit_one, sizeof exit_one, 0, NULL, 0, &why)
	    || bpfrt_prog_open(&sum, program, program_size, 0, NULL, 0, &why))
		fail(why.words);
#ifdef PCAP
	read_classic();
	compare();
#endif
	measure("exit_one, bpfrt_prog_run", run_one, PACKETS);
	measure("exit_one, bpfrt_prog_run_many of 4096", run_one_many, MANY);
#ifdef DPDK
	dpdk_one = load_dpdk(exit_one, sizeof exit_one);
	dpdk_sum = load_dpdk(program, program_size);
	measure("exit_one, rte_bpf_exec", run_dpdk_one, PACKETS);
#endif
	measure("frame_sum, bpfrt_prog_run", run_sum, PACKETS);
#ifdef DPDK
	measure("frame_sum, rte_bpf_exec", run_dpdk_sum, PACKETS);
#endif
	measure("the filter, bpfrt_prog_run", run_filter, PACKETS);
	measure("the filter, bpfrt_prog_run_many of 4096", run_filter_many, MANY);
	measure("the filter, bpfrt_prog_run_packet", run_filter_packet, PACKETS);
	lay_packets();
	measure("the filter, bpfrt_prog_run_packet, 4096", run_each_packet, MANY);
	measure("the filter, bpfrt_prog_run_packets of 4096", run_packets, MANY);
#ifdef PCAP
	measure("the filter, libpcap's bpf_filter", run_libpcap, PACKETS);
#endif
	measure("a run of a closed handle", run_closed, PACKETS);
	measure("bpfrt_prog_share and its close", share_filter, 1);
	read_array();
	measure("bpfrt_prog_open_tcpdump and its close", open_filter, 1);
	measure("bpfrt_prog_open_filter and its close", open_array, 1);
	if (argc == 5) {
		translation_size = read_file(argv[4], translation);
		measure("bpfrt_prog_open of its translation", open_translation, 1);
	}
	open_table();
	measure("bpfrt_table_lookup_elem, of 1024 keys", look_up_in_table, KEYS);
	measure("bpfrt_table_update_elem of a key there", update_table, KEYS);
	measure("table: update, delete and reclaim", change_table, 1);
	measure("count, bpfrt_reader_run, a key there", run_over_table, KEYS);
	measure("count, bpfrt_reader_run, none there", miss_in_table, KEYS);
#ifdef WORLDS
	open_world();
	measure("bpfrt_map_lookup_elem, of 1024 keys of 8", look_up_words, KEYS);
	measure("count, bpfrt_world_run, a key there", count_in_world, KEYS);
	measure("bpfrt_map_lookup_elem", look_up, PACKETS);
	measure("update, delete, two advances and a reap", change, 1);
	measure("exit_one, bpfrt_world_run", run_in_world, PACKETS);
	measure("exit_one, start, steps and drop", step_in_world, PACKETS);
	bpfrt_world_close(&world);
#endif
	bpfrt_table_close(&table);
	bpfrt_reader_close(&reader);
	bpfrt_prog_close(&counter);
	bpfrt_prog_close(&one);
	bpfrt_prog_close(&sum);
	bpfrt_prog_close(&filter);
	return 0;
}
