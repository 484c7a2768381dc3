/* A table that grows: one thread puts keys, and four look keys up all the time. When the table is full, all go over to a larger one. */
#define _DEFAULT_SOURCE
#include <bpfrt.h>
#include <errno.h>
#include <pthread.h>
#include <sched.h>
#include <stdatomic.h>
#include <stdio.h>
#include <stdlib.h>
#include <string.h>
#include <unistd.h>

enum { THREADS = 4, KEYS = 1000, FIRST = 128 };

/* The context is a key of 8 bytes. The program returns the value under it, or 0. `bpfrt asm --file` makes such text of the instructions
   beside it. How many elements the map has counts in worlds alone. */
static const char program[] =
	"bpfrt 1\nctx 8\nmap keys 8 8 1 0 1\ncode\n"
	"7913000000000000 7b3af8ff00000000\n"                  /* ldxdw r3, [r1]; stxdw [r10-8], r3 */
	"b706000000000000 8520000001000000\n"                  /* mov64 r6, 0; callbtf 1 */
	"bfa2000000000000 07020000f8ffffff\n"                  /* mov64 r2, r10; add64 r2, -8 */
	"1851000000000000 0000000000000000 8500000001000000\n" /* ldmap r1, keys; call 1 */
	"1500010000000000 7906000000000000\n"                  /* jeq r0, 0, +1; ldxdw r6, [r0] */
	"8520000002000000 bf60000000000000 9500000000000000\n"; /* callbtf 2; mov64 r0, r6; exit */

struct looker {
	pthread_t thread;
	struct bpfrt_reader reader;
	struct bpfrt_prog prog;
	uint64_t missed;
	pthread_mutex_t lock; /* of what is below */
	struct bpfrt_reader next;
};

static struct bpfrt_table table;
static uint32_t elements = FIRST;
static struct looker lookers[THREADS];
static atomic_ulong put; /* the keys below are in the table */
static atomic_int is_over;

/* The number that a call answers, which is to be 0 or more. */
static int32_t done(int32_t status, const char *call)
{
	if (status < 0) {
		fprintf(stderr, "grow: %s answers %d\n", call, status);
		exit(1);
	}
	return status;
}

static void open_table(struct bpfrt_table *opened)
{
	uint64_t random[2];
	done(getentropy(random, sizeof random), "getentropy");
	struct bpfrt_table_shape shape = {THREADS, bpfrt_table_buckets(elements), elements, 1, 1, BPFRT_TABLE_SHARED, random[0], random[1]};
	done(bpfrt_table_open(opened, &shape), "bpfrt_table_open");
}

static int is_going_over(struct looker *looker)
{
	pthread_mutex_lock(&looker->lock);
	int is_there = looker->next.state != 0;
	pthread_mutex_unlock(&looker->lock);
	return is_there;
}

/* Opens a table twice as large with the same keys, hands a reader of it to each thread, and waits until each has taken it. Nothing is
   put meanwhile. So a thread finds each key, in the table that it looks into. */
static void grow(void)
{
	struct bpfrt_table larger = {0};
	elements *= 2;
	open_table(&larger);
	done(bpfrt_table_copy(&table, &larger), "bpfrt_table_copy");
	for (int number = 0; number < THREADS; number++) {
		pthread_mutex_lock(&lookers[number].lock);
		done(bpfrt_table_reader(&lookers[number].next, &larger), "bpfrt_table_reader");
		pthread_mutex_unlock(&lookers[number].lock);
	}
	for (int number = 0; number < THREADS; number++)
		while (is_going_over(&lookers[number]))
			sched_yield();
	done(bpfrt_table_close(&table), "bpfrt_table_close");
	table = larger; /* and the handle that was moved is not used again */
}

/* Puts a new key. A full table grows. Where a run holds up a move that would make room, the call is made again. */
static void put_key(uint64_t key)
{
	const uint64_t value = key + 1;
	int32_t status;
	while ((status = bpfrt_table_update_elem(&table, &key, 1, &value, 1, 1)) < 0) {
		if (status == -ENOSPC || status == -E2BIG)
			grow();
		else if (status != -EAGAIN)
			done(status, "bpfrt_table_update_elem");
	}
	atomic_store(&put, key + 1);
}

/* Takes the reader that main has put there, if it has, in the place of the one before: between two runs. */
static void go_over(struct looker *looker)
{
	pthread_mutex_lock(&looker->lock);
	if (looker->next.state) {
		done(bpfrt_reader_close(&looker->reader), "bpfrt_reader_close");
		looker->reader = looker->next;
		looker->next = (struct bpfrt_reader){0};
	}
	pthread_mutex_unlock(&looker->lock);
}

/* Looks keys up that are there. */
static void *look(void *data)
{
	struct looker *looker = data;
	for (uint64_t at = 0; !atomic_load(&is_over); at++) {
		go_over(looker);
		uint64_t key = at * 2654435761u % atomic_load(&put), value;
		done(bpfrt_reader_run(&looker->reader, &looker->prog, &key, sizeof key, &value), "bpfrt_reader_run");
		looker->missed += value != key + 1;
	}
	done(bpfrt_prog_close(&looker->prog), "bpfrt_prog_close");
	done(bpfrt_reader_close(&looker->reader), "bpfrt_reader_close");
	return NULL;
}

int main(void)
{
	struct bpfrt_prog first = {0};
	unsigned grown = 0;
	uint64_t missed = 0;
	open_table(&table);
	put_key(0);
	done(bpfrt_prog_open_file(&first, program, strlen(program), NULL), "bpfrt_prog_open_file");
	for (int number = 0; number < THREADS; number++) {
		struct looker *looker = &lookers[number];
		pthread_mutex_init(&looker->lock, NULL);
		done(bpfrt_prog_share(&looker->prog, &first), "bpfrt_prog_share");
		done(bpfrt_table_reader(&looker->reader, &table), "bpfrt_table_reader");
		done(-pthread_create(&looker->thread, NULL, look, looker), "pthread_create");
	}
	done(bpfrt_prog_close(&first), "bpfrt_prog_close");
	for (uint64_t key = 1; key < KEYS; key++)
		put_key(key);
	atomic_store(&is_over, 1);
	for (int number = 0; number < THREADS; number++) {
		pthread_join(lookers[number].thread, NULL);
		missed += lookers[number].missed;
	}
	for (uint32_t size = FIRST; size < elements; size *= 2)
		grown++;
	printf("%d keys in %u elements, grown %u times, %s\n", KEYS, elements, grown, missed ? "and keys were missed" : "no key was missed");
	done(bpfrt_table_close(&table), "bpfrt_table_close");
	return missed != 0;
}
