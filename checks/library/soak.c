/* Eight readers run programs over two tables beside their writer, as quickly as they can: soak SECONDS
   checks/library_soak builds it with refuser.c, which counts blocks of memory, and runs it.

   Under each key of the first table the writer puts values {n, n + key + 1}, one after another, of which n only grows. It removes some
   keys, and puts them again; and it gives all readers another program after every few changes. A run answers what the two words
   differ by, or the first. It is to find a key that stays each time, never an older value than was put before the run began, and none
   that was not put yet; and no word of another value, also where it stays long in its section. In the second table each run adds 1 to
   a number of its reader, which is to be one more than at its last run. Of the 88 places of each table some 80 are taken, so that
   elements move beside the readers.

   The first table grows: the writer copies it into one twice as large, and from then on puts and removes keys in both, first in the
   larger one. Each reader changes over between two runs. When all have, the old table is closed. There are twice as many keys then.

   It goes rounds, each with new tables. In one the sums are those of the readers. In the next the tables are closed before the
   readers. Behind each there are as many blocks of memory as before. */
#include <bpfrt.h>
#include <errno.h>
#include <pthread.h>
#include <sched.h>
#include <stdatomic.h>
#include <stdio.h>
#include <stdlib.h>
#include <string.h>
#include <time.h>
#include <unistd.h>

enum { READERS = 8, STAYING = 64, KEYS = 96, BUCKETS = 11, ELEMENTS = 512, SPAN = 32, CHANGES = 200, LONG = 1000, ROUND = 2, GROWTHS = 3 };
enum { MOST = KEYS << GROWTHS }; /* keys, where the table has grown */
/* What a program answers: what the words differ by, at once or after a long time in its section, or the first word. */
enum kind { DIFFERENCE, LATE_DIFFERENCE, FIRST, KINDS };

struct worker {
	pthread_t thread;
	struct bpfrt_reader values, counters;
	struct bpfrt_prog filter, count;
	enum kind kind;
	uint64_t seen[KEYS], counted[KEYS], runs;
	pthread_mutex_t lock; /* of what is next */
	struct bpfrt_prog next;
	enum kind next_kind;
	struct bpfrt_reader larger;
};

extern long refuser_blocks;

static struct worker workers[READERS];
static struct bpfrt_table values, counters, larger; /* `larger` is open while the first table grows */
static unsigned growths;                            /* how often it has grown in this round */
static pthread_barrier_t barrier;
static atomic_int stops, ends;
static _Atomic uint64_t begun[MOST], put[MOST]; /* the last n of a key that a call is to put, and that one has put */
static unsigned char there[MOST]; /* whether a key is linked in the first table */
static uint64_t changes, filters, waits, grown;
static uint64_t held, full; /* keys that were not put, since a reader held up a move, or since none was possible */

static void fail(const char *what, uint64_t number, uint64_t other)
{
	fprintf(stderr, "soak: %s %llu, %llu\n", what, (unsigned long long)number, (unsigned long long)other);
	_exit(1);
}

static int32_t done(int32_t status, const char *call)
{
	if (status < 0)
		fail(call, (uint64_t)-status, 0);
	return status;
}

static uint64_t random_number(void)
{
	static uint64_t state = 88172645463325252;
	state ^= state << 13;
	state ^= state >> 7;
	return state ^= state << 17;
}

static size_t add(unsigned char *to, size_t at, unsigned code, unsigned registers, int offset, int32_t number)
{
	const unsigned char slot[] = {(unsigned char)code, (unsigned char)registers, (unsigned char)offset, (unsigned char)(offset >> 8),
				      (unsigned char)number, (unsigned char)(number >> 8), (unsigned char)(number >> 16),
				      (unsigned char)(number >> 24)};
	memcpy(to + 8 * at, slot, 8);
	return at + 1;
}

/* A program that looks up the key that its context is, with `more` instructions from `body` on where it is there. It exits with r6. */
static void open_program(struct bpfrt_prog *prog, uint32_t value_size, const unsigned char *body, size_t more)
{
	static unsigned char insns[8 * (LONG + 32)];
	const struct bpfrt_map_shape shape = {BPFRT_MAP_TYPE_HASH, 8, value_size, 1, 0, 1};
	size_t at = 0;
	at = add(insns, at, 0xb7, 0x06, 0, 0);  /* mov64 r6, 0 */
	at = add(insns, at, 0x79, 0x13, 0, 0);  /* ldxdw r3, [r1] */
	at = add(insns, at, 0x7b, 0x3a, -8, 0); /* stxdw [r10-8], r3 */
	at = add(insns, at, 0x85, 0x20, 0, 1);  /* callbtf 1 */
	at = add(insns, at, 0xbf, 0xa2, 0, 0);  /* mov64 r2, r10 */
	at = add(insns, at, 0x07, 0x02, 0, -8); /* add64 r2, -8 */
	at = add(insns, at, 0x18, 0x51, 0, 0);  /* ldmap r1, 0 */
	at = add(insns, at, 0, 0, 0, 0);
	at = add(insns, at, 0x85, 0, 0, 1); /* call 1 */
	at = add(insns, at, 0x15, 0, (int)more, 0); /* jeq r0, 0, to callbtf 2 */
	memcpy(insns + 8 * at, body, 8 * more);
	at = add(insns, at + more, 0x85, 0x20, 0, 2); /* callbtf 2 */
	at = add(insns, at, 0xbf, 0x60, 0, 0);        /* mov64 r0, r6 */
	at = add(insns, at, 0x95, 0, 0, 0);           /* exit */
	done(bpfrt_prog_open(prog, insns, 8 * at, 8, &shape, 1, NULL), "bpfrt_prog_open");
}

static void open_filter(struct bpfrt_prog *prog, enum kind kind)
{
	static unsigned char body[8 * (LONG + 8)];
	size_t at = 0;
	if (kind == FIRST) {
		at = add(body, at, 0x79, 0x06, 0, 0); /* ldxdw r6, [r0] */
	} else {
		at = add(body, at, 0x79, 0x07, 0, 0); /* ldxdw r7, [r0] */
		for (int times = 0; kind == LATE_DIFFERENCE && times < LONG; times++)
			at = add(body, at, 0xbf, 0x78, 0, 0); /* mov64 r8, r7 */
		at = add(body, at, 0x79, 0x06, 8, 0); /* ldxdw r6, [r0+8] */
		at = add(body, at, 0x1f, 0x76, 0, 0); /* sub64 r6, r7 */
	}
	open_program(prog, 16, body, at);
}

static void open_count(struct bpfrt_prog *prog)
{
	unsigned char body[24];
	size_t at = add(body, 0, 0x79, 0x06, 0, 0); /* ldxdw r6, [r0] */
	at = add(body, at, 0x07, 0x06, 0, 1);       /* add64 r6, 1 */
	at = add(body, at, 0x7b, 0x60, 0, 0);       /* stxdw [r0], r6 */
	open_program(prog, 8, body, at);
}

/* One run of the reader's filter on a key. Before it and behind it stands what was put, and what is being put. */
static void run_filter(struct worker *worker, uint64_t key)
{
	uint64_t least = atomic_load(&put[key]), value, most;
	done(bpfrt_reader_run(&worker->values, &worker->filter, &key, 8, &value), "bpfrt_reader_run");
	most = atomic_load(&begun[key]);
	worker->runs++;
	if (value == 0) {
		if (key < STAYING)
			fail("a key that stays is not found:", key, least);
		return;
	}
	if (worker->kind != FIRST) {
		if (value != key + 1)
			fail("words of two values, or of another key:", key, value);
		return;
	}
	if (value > most || value < worker->seen[key] || (key < STAYING && value < least))
		fail("a value that was not put yet, or an older one:", value, most);
	worker->seen[key] = value;
}

static void run_count(struct worker *worker, uint64_t key)
{
	uint64_t value;
	done(bpfrt_reader_run(&worker->counters, &worker->count, &key, 8, &value), "bpfrt_reader_run");
	if (value != ++worker->counted[key])
		fail("a count is lost:", value, worker->counted[key]);
	worker->runs++;
}

/* Takes the next filter and the reader of the larger table, where there are such, in the place of those that it has. */
static void take_next(struct worker *worker)
{
	pthread_mutex_lock(&worker->lock);
	if (worker->next.state) {
		done(bpfrt_prog_close(&worker->filter), "bpfrt_prog_close");
		worker->filter = worker->next;
		worker->kind = worker->next_kind;
		worker->next = (struct bpfrt_prog){0};
	}
	if (worker->larger.state) {
		done(bpfrt_reader_close(&worker->values), "bpfrt_reader_close");
		worker->values = worker->larger;
		worker->larger = (struct bpfrt_reader){0};
	}
	pthread_mutex_unlock(&worker->lock);
}

static void close_worker(struct worker *worker)
{
	take_next(worker);
	done(bpfrt_reader_close(&worker->values), "bpfrt_reader_close");
	done(bpfrt_reader_close(&worker->counters), "bpfrt_reader_close");
	done(bpfrt_prog_close(&worker->filter), "bpfrt_prog_close");
	done(bpfrt_prog_close(&worker->count), "bpfrt_prog_close");
}

static void *work(void *data)
{
	struct worker *worker = data;
	for (uint64_t number = (uint64_t)(worker - workers);;) {
		pthread_barrier_wait(&barrier);
		if (atomic_load(&ends))
			return NULL;
		while (!atomic_load(&stops)) {
			take_next(worker);
			for (int times = 0; times < SPAN; times++, number++) {
				run_filter(worker, number * 31 % KEYS);
				run_count(worker, number * 17 % STAYING);
			}
		}
		close_worker(worker);
		pthread_barrier_wait(&barrier);
	}
}

/* Puts a value; where too few elements are free, readers hold others up, and are to go on first. Whether there was a place: for a key
   that stays there always is. */
static int update(struct bpfrt_table *table, uint64_t key, const uint64_t *value, size_t count, uint64_t flags)
{
	int32_t status;
	while ((status = bpfrt_table_update_elem(table, &key, 1, value, count, flags)) == -ENOSPC) {
		waits++;
		sched_yield();
	}
	held += status == -EAGAIN;
	full += status == -E2BIG;
	if ((status == -EAGAIN || status == -E2BIG) && flags == 1 && key >= STAYING)
		return 0;
	done(status, "bpfrt_table_update_elem");
	return 1;
}

static void put_value(uint64_t key, uint64_t flags)
{
	uint64_t n = atomic_load(&put[key]) + 1;
	const uint64_t value[2] = {n, n + key + 1};
	atomic_store(&begun[key], n);
	if (larger.state && !update(&larger, key, value, 2, flags))
		return;
	if (!update(&values, key, value, 2, flags)) { /* a new key, then */
		if (larger.state)
			done(bpfrt_table_delete_elem(&larger, &key, 1), "bpfrt_table_delete_elem");
		return;
	}
	there[key] = 1;
	atomic_store(&put[key], n);
	changes++;
}

static void remove_value(uint64_t key)
{
	if (larger.state)
		done(bpfrt_table_delete_elem(&larger, &key, 1), "bpfrt_table_delete_elem");
	done(bpfrt_table_delete_elem(&values, &key, 1), "bpfrt_table_delete_elem");
	there[key] = 0;
}

/* Keys above those that stay are removed where they are there, and else put. */
static void change(void)
{
	static const uint64_t zeros[READERS];
	uint64_t key = random_number() % (KEYS << growths);
	if (key < STAYING) {
		put_value(key, 2);
		return;
	}
	if (there[key])
		remove_value(key);
	else
		put_value(key, 1);
	key = STAYING + key % (KEYS - STAYING);
	int32_t status = bpfrt_table_delete_elem(&counters, &key, 1);
	if (status == -ENOENT)
		update(&counters, key, zeros, READERS, 1);
	else
		done(status, "bpfrt_table_delete_elem");
}

/* A walk in which each key that it meets is replaced. It is to meet the keys that are there, and each once. */
static void walk(void)
{
	unsigned char times[MOST] = {0};
	uint64_t key, next;
	int32_t status = bpfrt_table_get_next_key(&values, NULL, 1, &next);
	while (status == 0) {
		key = next;
		if (key >= MOST || times[key]++ || !there[key])
			fail("a key that is not there, or was met before:", key, 0);
		put_value(key, 2);
		status = bpfrt_table_get_next_key(&values, &key, 1, &next);
	}
	done(status == -ENOENT ? 0 : status, "bpfrt_table_get_next_key");
	for (key = 0; key < MOST; key++)
		if (times[key] != there[key])
			fail("a key that a walk does not meet:", key, 0);
}

/* Gives all readers another filter. One that was not taken yet is closed here. */
static void replace_filter(void)
{
	struct bpfrt_prog filter = {0};
	enum kind kind = (enum kind)(random_number() % KINDS);
	open_filter(&filter, kind);
	for (int number = 0; number < READERS; number++) {
		struct worker *worker = &workers[number];
		pthread_mutex_lock(&worker->lock);
		if (worker->next.state)
			done(bpfrt_prog_close(&worker->next), "bpfrt_prog_close");
		done(bpfrt_prog_share(&worker->next, &filter), "bpfrt_prog_share");
		worker->next_kind = kind;
		pthread_mutex_unlock(&worker->lock);
	}
	done(bpfrt_prog_close(&filter), "bpfrt_prog_close");
	filters++;
}

/* No sum is less than before. */
static void read_sum(uint64_t *sums)
{
	uint64_t key = random_number() % STAYING, sum;
	done(bpfrt_table_lookup_elem(&counters, &key, 1, &sum, 1), "bpfrt_table_lookup_elem");
	if (sum < sums[key])
		fail("a sum that is less than before:", sum, sums[key]);
	sums[key] = sum;
}

static void open_values(struct bpfrt_table *table)
{
	const struct bpfrt_table_shape shape = {
	    READERS, BUCKETS << growths, ELEMENTS << growths, 1, 2, BPFRT_TABLE_SHARED, random_number(), random_number()};
	done(bpfrt_table_open(table, &shape), "bpfrt_table_open");
}

/* Begins to go over to a larger table. */
static void grow(void)
{
	growths++;
	open_values(&larger);
	done(bpfrt_table_copy(&values, &larger), "bpfrt_table_copy");
	for (int number = 0; number < READERS; number++) {
		pthread_mutex_lock(&workers[number].lock);
		done(bpfrt_table_reader(&workers[number].larger, &larger), "bpfrt_table_reader");
		pthread_mutex_unlock(&workers[number].lock);
	}
}

/* Closes the old table, where all readers have left it. */
static void end_growth(void)
{
	for (int number = 0; number < READERS; number++) {
		pthread_mutex_lock(&workers[number].lock);
		int is_old = workers[number].larger.state != 0;
		pthread_mutex_unlock(&workers[number].lock);
		if (is_old)
			return;
	}
	done(bpfrt_table_close(&values), "bpfrt_table_close");
	values = larger;
	larger = (struct bpfrt_table){0};
	grown++;
}

static void open_tables(void)
{
	static const uint64_t zeros[READERS];
	const struct bpfrt_table_shape shape = {READERS, BUCKETS, ELEMENTS, 1, 1, BPFRT_TABLE_PER_READER, random_number(), random_number()};
	growths = 0;
	open_values(&values);
	done(bpfrt_table_open(&counters, &shape), "bpfrt_table_open");
	for (uint64_t key = 0; key < MOST; key++) {
		there[key] = 0;
		atomic_store(&put[key], 0);
	}
	for (uint64_t key = 0; key < KEYS; key++) {
		put_value(key, 1);
		update(&counters, key, zeros, READERS, 1);
	}
}

static void open_workers(void)
{
	struct bpfrt_prog filter = {0}, count = {0};
	open_filter(&filter, DIFFERENCE);
	open_count(&count);
	for (int number = 0; number < READERS; number++) {
		struct worker *worker = &workers[number];
		memset(worker->seen, 0, sizeof worker->seen);
		memset(worker->counted, 0, sizeof worker->counted);
		worker->kind = DIFFERENCE;
		done(bpfrt_prog_share(&worker->filter, &filter), "bpfrt_prog_share");
		done(bpfrt_prog_share(&worker->count, &count), "bpfrt_prog_share");
		done(bpfrt_table_reader(&worker->values, &values), "bpfrt_table_reader");
		done(bpfrt_table_reader(&worker->counters, &counters), "bpfrt_table_reader");
	}
	done(bpfrt_prog_close(&filter), "bpfrt_prog_close");
	done(bpfrt_prog_close(&count), "bpfrt_prog_close");
}

/* When all readers have ended: the values that were put last, and the sums of what the readers counted; then all is removed. */
static void compare(void)
{
	struct bpfrt_table_stat stat;
	if (larger.state)
		end_growth();
	for (uint64_t key = 0; key < STAYING; key++) {
		uint64_t value[2], sum, counted = 0;
		done(bpfrt_table_lookup_elem(&values, &key, 1, value, 2), "bpfrt_table_lookup_elem");
		if (value[0] != atomic_load(&put[key]) || value[1] != value[0] + key + 1)
			fail("another value than was put last:", value[0], value[1]);
		done(bpfrt_table_lookup_elem(&counters, &key, 1, &sum, 1), "bpfrt_table_lookup_elem");
		for (int number = 0; number < READERS; number++)
			counted += workers[number].counted[key];
		if (sum != counted)
			fail("another sum than that of the readers:", sum, counted);
	}
	for (uint64_t key = 0; key < MOST; key++) {
		int32_t status = bpfrt_table_delete_elem(&values, &key, 1);
		done(status == -ENOENT && !there[key] ? 0 : status, "bpfrt_table_delete_elem");
	}
	done(bpfrt_table_reclaim(&values), "bpfrt_table_reclaim");
	done(bpfrt_table_stat(&values, &stat), "bpfrt_table_stat");
	if (stat.free != (uint64_t)ELEMENTS << growths || larger.state || stat.waiting != 0 || stat.seats != 0)
		fail("not each element is free:", stat.free, stat.waiting);
}

static void close_tables(void)
{
	done(bpfrt_table_close(&values), "bpfrt_table_close");
	if (larger.state)
		done(bpfrt_table_close(&larger), "bpfrt_table_close");
	done(bpfrt_table_close(&counters), "bpfrt_table_close");
}

static double now(void)
{
	struct timespec time;
	clock_gettime(CLOCK_MONOTONIC, &time);
	return (double)time.tv_sec + (double)time.tv_nsec / 1e9;
}

static void go_round(double start, int is_closed_first)
{
	uint64_t sums[STAYING] = {0};
	long blocks = refuser_blocks;
	open_tables();
	open_workers();
	atomic_store(&stops, 0);
	pthread_barrier_wait(&barrier);
	do {
		for (int times = 0; times < CHANGES; times++) {
			change();
			read_sum(sums);
		}
		walk();
		replace_filter();
		if (filters % 4 == 0) {
			done(bpfrt_table_reclaim(&values), "bpfrt_table_reclaim");
			done(bpfrt_table_reclaim(&counters), "bpfrt_table_reclaim");
		}
		if (larger.state)
			end_growth();
		else if (growths < GROWTHS && now() > start + ROUND * (growths + 1.0) / (GROWTHS + 1))
			grow();
	} while (now() < start + ROUND);
	if (is_closed_first) {
		close_tables();
		usleep(20000);
	}
	atomic_store(&stops, 1);
	pthread_barrier_wait(&barrier);
	if (!is_closed_first) {
		compare();
		close_tables();
	}
	if (refuser_blocks != blocks)
		fail("blocks of memory, and before", (uint64_t)refuser_blocks, (uint64_t)blocks);
}

int main(int argc, char **argv)
{
	double start = now(), seconds = argc == 2 ? strtod(argv[1], NULL) : 0;
	uint64_t rounds = 0, runs = 0;
	if (!(seconds > 0)) {
		fputs("usage: soak SECONDS\n", stderr);
		return 2;
	}
	pthread_barrier_init(&barrier, NULL, READERS + 1);
	for (int number = 0; number < READERS; number++) {
		pthread_mutex_init(&workers[number].lock, NULL);
		done(-pthread_create(&workers[number].thread, NULL, work, &workers[number]), "pthread_create");
	}
	do
		go_round(now(), rounds++ % 2);
	while (now() - start < seconds);
	atomic_store(&ends, 1);
	pthread_barrier_wait(&barrier);
	for (int number = 0; number < READERS; number++) {
		pthread_join(workers[number].thread, NULL);
		runs += workers[number].runs;
	}
	printf("soak: %llu rounds, %llu runs, %llu changes, %llu filters, %llu tables that grew, no difference\n"
	       "the writer waited %llu times, and put %llu keys not since a reader held up a move, %llu since none was possible\n",
	       (unsigned long long)rounds, (unsigned long long)runs, (unsigned long long)changes, (unsigned long long)filters,
	       (unsigned long long)grown, (unsigned long long)waits, (unsigned long long)held, (unsigned long long)full);
	return 0;
}
