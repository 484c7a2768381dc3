/* How many looks an element waits until it is reclaimed, beside readers that are hardly ever outside a section: waits SECONDS
   checks/library_soak builds it, and runs it.

   Sixteen readers run a program that stays in its section for some 800 lookups, again and again. Every millisecond the writer replaces
   a hundred values, and looks at the readers once. Elements are reclaimed in the order in which they were replaced, so each is counted
   from the look before which that was. It fails where one waits longer than MOST looks, or no element is free. A reader that other
   work takes the processor from stays in its section, so the machine is to be idle. */
#include <bpfrt.h>
#include <errno.h>
#include <stdatomic.h>
#include <stdio.h>
#include <stdlib.h>
#include <string.h>
#include <pthread.h>
#include <time.h>
#include <unistd.h>

enum { READERS = 16, KEYS = 64, ELEMENTS = 32768, LOOKUPS = 800, CHANGES = 100, MOST = 100 };
static const long LOOK = 1000000; /* ns from a look to the next */

struct worker {
	pthread_t thread;
	struct bpfrt_reader reader;
	struct bpfrt_prog prog;
	uint64_t runs;
};

static struct worker workers[READERS];
static struct bpfrt_table table;
static atomic_int stops;
static uint64_t replaced[ELEMENTS], first, last; /* the looks before which elements were replaced that wait, as a ring */

static int32_t done(int32_t status, const char *call)
{
	if (status < 0) {
		fprintf(stderr, "waits: %s answers %d\n", call, status);
		_exit(1);
	}
	return status;
}

static double now(void)
{
	struct timespec time;
	clock_gettime(CLOCK_MONOTONIC, &time);
	return (double)time.tv_sec + (double)time.tv_nsec / 1e9;
}

static size_t add(unsigned char *to, size_t at, unsigned code, unsigned registers, int offset, int32_t number)
{
	const unsigned char slot[] = {(unsigned char)code, (unsigned char)registers, (unsigned char)offset, (unsigned char)(offset >> 8),
				      (unsigned char)number, (unsigned char)(number >> 8), (unsigned char)(number >> 16),
				      (unsigned char)(number >> 24)};
	memcpy(to + 8 * at, slot, 8);
	return at + 1;
}

/* A program that looks up the key 0 many times in one section. */
static void open_program(struct bpfrt_prog *prog)
{
	static unsigned char insns[8 * (5 * LOOKUPS + 8)];
	const struct bpfrt_map_shape shape = {BPFRT_MAP_TYPE_HASH, 8, 8, 1, 0, 1};
	size_t at = 0;
	at = add(insns, at, 0x7a, 0x0a, -8, 0); /* stdw [r10-8], 0 */
	at = add(insns, at, 0x85, 0x20, 0, 1);  /* callbtf 1 */
	for (int times = 0; times < LOOKUPS; times++) {
		at = add(insns, at, 0xbf, 0xa2, 0, 0);  /* mov64 r2, r10 */
		at = add(insns, at, 0x07, 0x02, 0, -8); /* add64 r2, -8 */
		at = add(insns, at, 0x18, 0x51, 0, 0);  /* ldmap r1, 0 */
		at = add(insns, at, 0, 0, 0, 0);
		at = add(insns, at, 0x85, 0, 0, 1); /* call 1 */
	}
	at = add(insns, at, 0x85, 0x20, 0, 2); /* callbtf 2 */
	at = add(insns, at, 0xb7, 0x00, 0, 0); /* mov64 r0, 0 */
	at = add(insns, at, 0x95, 0, 0, 0);    /* exit */
	done(bpfrt_prog_open(prog, insns, 8 * at, 0, &shape, 1, NULL), "bpfrt_prog_open");
}

static void *work(void *data)
{
	struct worker *worker = data;
	uint64_t value;
	while (!atomic_load(&stops)) {
		done(bpfrt_reader_run(&worker->reader, &worker->prog, NULL, 0, &value), "bpfrt_reader_run");
		worker->runs++;
	}
	return NULL;
}

static void open_all(void)
{
	const struct bpfrt_table_shape shape = {READERS, bpfrt_table_buckets(ELEMENTS), ELEMENTS, 1, 1, BPFRT_TABLE_SHARED, 1, 2};
	struct bpfrt_prog prog = {0};
	done(bpfrt_table_open(&table, &shape), "bpfrt_table_open");
	for (uint64_t key = 0; key < KEYS; key++)
		done(bpfrt_table_update_elem(&table, &key, 1, &key, 1, 1), "bpfrt_table_update_elem");
	open_program(&prog);
	for (int number = 0; number < READERS; number++) {
		done(bpfrt_prog_share(&workers[number].prog, &prog), "bpfrt_prog_share");
		done(bpfrt_table_reader(&workers[number].reader, &table), "bpfrt_table_reader");
		done(-pthread_create(&workers[number].thread, NULL, work, &workers[number]), "pthread_create");
	}
	done(bpfrt_prog_close(&prog), "bpfrt_prog_close");
}

/* Replaces values, looks once, and answers how many looks the longest of those that are reclaimed has waited. */
static uint64_t look(uint64_t number)
{
	struct bpfrt_table_stat stat;
	uint64_t longest = 0;
	for (int times = 0; times < CHANGES; times++) {
		uint64_t key = (uint64_t)times % KEYS;
		int32_t status = bpfrt_table_update_elem(&table, &key, 1, &number, 1, 2);
		if (status == -ENOSPC) {
			fprintf(stderr, "waits: each element waits, the first of them since %llu looks\n",
				(unsigned long long)(number - replaced[first % ELEMENTS]));
			_exit(1);
		}
		done(status, "bpfrt_table_update_elem");
		replaced[last++ % ELEMENTS] = number;
	}
	for (int32_t freed = done(bpfrt_table_reclaim(&table), "bpfrt_table_reclaim"); freed > 0; freed--) {
		uint64_t waited = number - replaced[first++ % ELEMENTS];
		longest = waited > longest ? waited : longest;
	}
	done(bpfrt_table_stat(&table, &stat), "bpfrt_table_stat");
	if (stat.waiting != last - first) {
		fputs("waits: no element was free, so that an update has looked, too\n", stderr);
		_exit(1);
	}
	return longest;
}

int main(int argc, char **argv)
{
	double begun = now(), seconds = argc == 2 ? strtod(argv[1], NULL) : 0;
	uint64_t looks = 0, longest = 0, runs = 0;
	if (!(seconds > 0)) {
		fputs("usage: waits SECONDS\n", stderr);
		return 2;
	}
	open_all();
	for (double next = now(); now() - begun < seconds; next += (double)LOOK / 1e9) {
		uint64_t waited = look(++looks);
		longest = waited > longest ? waited : longest;
		const double left = next + (double)LOOK / 1e9 - now();
		if (left > 0)
			usleep((useconds_t)(left * 1e6));
	}
	atomic_store(&stops, 1);
	for (int number = 0; number < READERS; number++) {
		pthread_join(workers[number].thread, NULL);
		runs += workers[number].runs;
		done(bpfrt_reader_close(&workers[number].reader), "bpfrt_reader_close");
		done(bpfrt_prog_close(&workers[number].prog), "bpfrt_prog_close");
	}
	done(bpfrt_table_close(&table), "bpfrt_table_close");
	printf("waits: %d readers, %llu runs of %d lookups, %llu values replaced, %llu looks; the longest wait took %llu looks\n", READERS,
	       (unsigned long long)runs, LOOKUPS, (unsigned long long)(looks * CHANGES), (unsigned long long)looks,
	       (unsigned long long)longest);
	return longest > MOST;
}
