/* A new key that a reader holds up: checks/library_agree builds it, and runs it.

   A signal stops the reader's thread in the middle of a run, so in most cases inside its section. Keys are put until one needs an element
   moved to its other bucket. That one is answered -EAGAIN, and nothing has changed. When the thread goes on, the same call answers 0. */
#define _POSIX_C_SOURCE 200809L
#include <bpfrt.h>
#include <errno.h>
#include <pthread.h>
#include <signal.h>
#include <stdatomic.h>
#include <stdio.h>
#include <stdlib.h>
#include <string.h>
#include <time.h>

enum { LOOKUPS = 200, TRIES = 200, BUCKETS = 4, ELEMENTS = 8 * BUCKETS + 2 };

static struct bpfrt_reader reader;
static struct bpfrt_prog prog;
static atomic_int has_run, ends, is_stopped, may_go;

static void be(long got, long wanted, const char *what)
{
	if (got != wanted) {
		printf("held_up: %s is %ld, and is to be %ld\n", what, got, wanted);
		exit(1);
	}
}

static void nap(void)
{
	nanosleep(&(struct timespec){0, 100000}, NULL);
}

static void stop(int signal)
{
	(void)signal;
	atomic_store(&is_stopped, 1);
	while (!atomic_load(&may_go))
		nap();
	atomic_store(&is_stopped, 0);
}

static void *work(void *data)
{
	uint64_t value;
	(void)data;
	while (!atomic_load(&ends)) {
		be(bpfrt_reader_run(&reader, &prog, NULL, 0, &value), 0, "a run");
		atomic_store(&has_run, 1);
	}
	return NULL;
}

/* A program that looks up the key 0 many times in one section. */
static void open_program(void)
{
	static const unsigned char begin[] = {0x7a, 0x0a, 0xf8, 0xff, 0, 0, 0, 0, 0x85, 0x20, 0, 0, 1, 0, 0, 0};
	static const unsigned char look_up[] = {0xbf, 0xa2, 0, 0, 0, 0, 0, 0, 7, 2, 0, 0, 0xf8, 0xff, 0xff, 0xff,
						0x18, 0x51, 0, 0, 0, 0, 0, 0, 0, 0, 0, 0, 0, 0, 0, 0, 0x85, 0, 0, 0, 1, 0, 0, 0};
	static const unsigned char end[] = {0x85, 0x20, 0, 0, 2, 0, 0, 0, 0xb7, 0, 0, 0, 0, 0, 0, 0, 0x95, 0, 0, 0, 0, 0, 0, 0};
	static unsigned char insns[sizeof begin + LOOKUPS * sizeof look_up + sizeof end];
	const struct bpfrt_map_shape shape = {BPFRT_MAP_TYPE_HASH, 8, 8, 1, 0, 1};
	memcpy(insns, begin, sizeof begin);
	for (size_t times = 0; times < LOOKUPS; times++)
		memcpy(insns + sizeof begin + times * sizeof look_up, look_up, sizeof look_up);
	memcpy(insns + sizeof insns - sizeof end, end, sizeof end);
	be(bpfrt_prog_open(&prog, insns, sizeof insns, 0, &shape, 1, NULL), 0, "bpfrt_prog_open");
}

/* Whether the keys below a number are there, each with its value, and no others. */
static void has(struct bpfrt_table *table, uint64_t keys)
{
	struct bpfrt_table_stat stat;
	uint64_t value;
	for (uint64_t key = 0; key < keys; key++) {
		be(bpfrt_table_lookup_elem(table, &key, 1, &value, 1), 0, "a key that was put");
		be((long)value, (long)key + 1, "its value");
	}
	be(bpfrt_table_lookup_elem(table, &keys, 1, &value, 1), -ENOENT, "a key that was not put");
	be(bpfrt_table_stat(table, &stat), 0, "bpfrt_table_stat");
	be((long)(stat.free + stat.waiting), (long)(ELEMENTS - keys), "the elements that are not linked");
}

/* Puts keys beside a stopped reader until one is refused. Answers whether the reader held it up. */
static int is_held_up(struct bpfrt_table *table, pthread_t thread)
{
	uint64_t key = 0, value = 1;
	int32_t status;
	atomic_store(&may_go, 0);
	while (!atomic_load(&has_run))
		nap();
	be(pthread_kill(thread, SIGUSR1), 0, "pthread_kill");
	while (!atomic_load(&is_stopped))
		nap();
	while ((status = bpfrt_table_update_elem(table, &key, 1, &value, 1, 1)) == 0)
		value = ++key + 1;
	has(table, key);
	if (status == -EAGAIN) {
		be(bpfrt_table_update_elem(table, &key, 1, &value, 1, 1), -EAGAIN, "the same call");
		has(table, key);
	}
	atomic_store(&may_go, 1);
	while (atomic_load(&is_stopped))
		nap();
	if (status != -EAGAIN) {
		be(status == -E2BIG || status == -ENOSPC, 1, "the refusal");
		return 0;
	}
	while ((status = bpfrt_table_update_elem(table, &key, 1, &value, 1, 1)) == -EAGAIN)
		nap();
	be(status, 0, "the call when the reader goes on");
	has(table, key + 1);
	return 1;
}

/* The same in a table of its own. */
static int is_held_up_once(uint64_t secret)
{
	const struct bpfrt_table_shape shape = {1, BUCKETS, ELEMENTS, 1, 1, BPFRT_TABLE_SHARED, secret, 1};
	struct bpfrt_table table = {0};
	pthread_t thread;
	be(bpfrt_table_open(&table, &shape), 0, "bpfrt_table_open");
	be(bpfrt_table_reader(&reader, &table), 0, "bpfrt_table_reader");
	atomic_store(&ends, 0);
	atomic_store(&has_run, 0);
	be(pthread_create(&thread, NULL, work, NULL), 0, "pthread_create");
	int is = is_held_up(&table, thread);
	atomic_store(&ends, 1);
	be(pthread_join(thread, NULL), 0, "pthread_join");
	be(bpfrt_reader_close(&reader), 0, "bpfrt_reader_close");
	be(bpfrt_table_close(&table), 0, "bpfrt_table_close");
	return is;
}

int main(void)
{
	struct sigaction action = {.sa_handler = stop};
	be(sigaction(SIGUSR1, &action, NULL), 0, "sigaction");
	open_program();
	for (uint64_t secret = 0; secret < TRIES; secret++)
		if (is_held_up_once(secret)) {
			be(bpfrt_prog_close(&prog), 0, "bpfrt_prog_close");
			puts("a stopped reader holds a new key up");
			return 0;
		}
	puts("no reader held a key up");
	return 1;
}
