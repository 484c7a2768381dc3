/* Eight threads count packets by flow in a table, while one adds and removes flows, and once gives all threads another program */
#define _DEFAULT_SOURCE
#include <bpfrt.h>
#include <errno.h>
#include <pthread.h>
#include <sched.h>
#include <stdio.h>
#include <stdlib.h>
#include <string.h>
#include <unistd.h>

/* The first FLOWS stay, the others come and go. Each has a packet in a round. */
enum { THREADS = 8, FLOWS = 64, ALL_FLOWS = 80, ELEMENTS = 256, SIZE = 60, ROUNDS = 200, CHANGES = 2000 };

/* The key is the source and the destination of IPv4, bytes 26 to 33 of a packet; the value is how many packets, and how many bytes.
   `bpfrt asm --file` makes such text of the instructions beside it. How many elements the map has counts in worlds alone. */
static const char program[] =
	"bpfrt 1\nctx 256\nmap flows 8 16 1 0 1\ncode\n"
	"b706000000000000 6117040000000000\n"                                   /* mov64 r6, 0; ldxw r7, [r1+4] */
	"6912220000000000 6b2af8ff00000000 6912240000000000 6b2afaff00000000\n" /* ldxh r2, [r1+34]; stxh [r10-8], r2; so 36, -6 */
	"6912260000000000 6b2afcff00000000 6912280000000000 6b2afeff00000000\n" /* the same of 38, -4; 40, -2 */
	"8520000001000000 bfa2000000000000 07020000f8ffffff\n"                  /* callbtf 1; mov64 r2, r10; add64 r2, -8 */
	"1851000000000000 0000000000000000 8500000001000000\n"                  /* ldmap r1, flows; call 1 */
	"1500%02d0000000000 b706000001000000\n"                                 /* jeq r0, 0, to callbtf 2; mov64 r6, 1 */
	"7901000000000000 0701000001000000 7b10000000000000\n"                  /* ldxdw r1, [r0]; add64 r1, 1; stxdw [r0], r1 */
	"%s"                                                                    /* what the second program does besides */
	"8520000002000000 bf60000000000000 9500000000000000\n";                 /* callbtf 2; mov64 r0, r6; exit */
/* ldxdw r1, [r0+8]; add64 r1, r7; stxdw [r0+8], r1 */
static const char adds_bytes[] = "7901080000000000 0f71000000000000 7b10080000000000\n";

struct counter {
	struct bpfrt_reader reader;
	struct bpfrt_prog prog;
	uint64_t counted;     /* packets of the flows that stay */
	pthread_mutex_t lock; /* of what is below */
	struct bpfrt_prog next;
};

static uint64_t keys[ALL_FLOWS];
static unsigned char packets[ALL_FLOWS][SIZE];
static struct counter counters[THREADS];
static const uint64_t zeros[2 * THREADS];

/* The number that a call answers, which is to be 0 or more. */
static int32_t done(int32_t status, const char *call)
{
	if (status < 0) {
		fprintf(stderr, "flows: %s answers %d\n", call, status);
		exit(1);
	}
	return status;
}

static void open_program(struct bpfrt_prog *prog, int jump, const char *more)
{
	char text[sizeof program + sizeof adds_bytes];
	done(bpfrt_prog_open_file(prog, text, (size_t)snprintf(text, sizeof text, program, jump, more), NULL), "bpfrt_prog_open_file");
}

static void open_table(struct bpfrt_table *table)
{
	uint64_t random[2];
	done(getentropy(random, sizeof random), "getentropy");
	struct bpfrt_table_shape shape = {THREADS, bpfrt_table_buckets(ELEMENTS), ELEMENTS, 1, 2, BPFRT_TABLE_PER_READER, random[0], random[1]};
	done(bpfrt_table_open(table, &shape), "bpfrt_table_open");
	for (int flow = 0; flow < ALL_FLOWS; flow++) {
		const unsigned char addresses[8] = {10, 0, 0, (unsigned char)flow, 192, 168, 0, 1};
		memcpy(packets[flow] + 26, addresses, sizeof addresses);
		memcpy(&keys[flow], addresses, sizeof addresses);
		if (flow < FLOWS)
			done(bpfrt_table_update_elem(table, &keys[flow], 1, zeros, 2 * THREADS, 1), "bpfrt_table_update_elem");
	}
}

/* Links a new flow. Where too few elements are free, or an element is to be moved to make room, a thread in a section holds it up, and
   is to go on first. */
static int32_t link_flow(struct bpfrt_table *table, const uint64_t *key)
{
	int32_t status;
	while ((status = bpfrt_table_update_elem(table, key, 1, zeros, 2 * THREADS, 1)) == -ENOSPC || status == -EAGAIN)
		sched_yield();
	return status;
}

/* The other flows come and go. */
static void change_flows(struct bpfrt_table *table)
{
	for (int number = 0; number < CHANGES; number++) {
		uint64_t sums[2], *key = &keys[FLOWS + number % (ALL_FLOWS - FLOWS)];
		done(link_flow(table, key), "bpfrt_table_update_elem");
		done(bpfrt_table_lookup_elem(table, key, 1, sums, 2), "bpfrt_table_lookup_elem");
		done(bpfrt_table_delete_elem(table, key, 1), "bpfrt_table_delete_elem");
		done(number % 16 ? 0 : bpfrt_table_reclaim(table), "bpfrt_table_reclaim");
	}
}

/* Takes the handle that main has laid there, if it has, in the place of the one before. */
static int is_replaced(struct counter *counter)
{
	pthread_mutex_lock(&counter->lock);
	int is_there = counter->next.state != 0;
	if (is_there) {
		done(bpfrt_prog_close(&counter->prog), "bpfrt_prog_close");
		counter->prog = counter->next;
		counter->next = (struct bpfrt_prog){0};
	}
	pthread_mutex_unlock(&counter->lock);
	return is_there;
}

/* Goes round by the first program until there is the second, and ROUNDS times by that. */
static void *run(void *data)
{
	struct counter *counter = data;
	for (int left = ROUNDS, is_second = 0; left; left -= is_second) {
		is_second = is_second || is_replaced(counter);
		for (int flow = 0; flow < ALL_FLOWS; flow++) {
			uint64_t count;
			done(bpfrt_reader_run_packet(&counter->reader, &counter->prog, packets[flow], SIZE, (uint32_t)(SIZE + flow), &count),
			     "bpfrt_reader_run_packet");
			counter->counted += flow < FLOWS ? count : 0;
		}
	}
	done(bpfrt_prog_close(&counter->prog), "bpfrt_prog_close");
	done(bpfrt_reader_close(&counter->reader), "bpfrt_reader_close");
	return NULL;
}

int main(void)
{
	struct bpfrt_table table = {0};
	pthread_t threads[THREADS];
	struct bpfrt_prog first = {0}, second = {0};
	uint64_t sums[2], all_packets = 0, bytes = 0, counted = 0;
	open_table(&table);
	open_program(&first, 4, "");
	for (int number = 0; number < THREADS; number++) {
		pthread_mutex_init(&counters[number].lock, NULL);
		done(bpfrt_prog_share(&counters[number].prog, &first), "bpfrt_prog_share");
		done(bpfrt_table_reader(&counters[number].reader, &table), "bpfrt_table_reader");
		done(-pthread_create(&threads[number], NULL, run, &counters[number]), "pthread_create");
	}
	done(bpfrt_prog_close(&first), "bpfrt_prog_close");
	change_flows(&table);
	open_program(&second, 7, adds_bytes);
	for (int number = 0; number < THREADS; number++) {
		pthread_mutex_lock(&counters[number].lock);
		done(bpfrt_prog_share(&counters[number].next, &second), "bpfrt_prog_share");
		pthread_mutex_unlock(&counters[number].lock);
	}
	done(bpfrt_prog_close(&second), "bpfrt_prog_close");
	change_flows(&table);
	for (int number = 0; number < THREADS; number++) {
		pthread_join(threads[number], NULL);
		counted += counters[number].counted;
	}
	for (int flow = 0; flow < FLOWS; flow++) {
		done(bpfrt_table_lookup_elem(&table, &keys[flow], 1, sums, 2), "bpfrt_table_lookup_elem");
		all_packets += sums[0];
		bytes += sums[1];
	}
	printf("%d threads: %llu bytes by the second program, and %s\n", THREADS, (unsigned long long)bytes,
	       all_packets == counted ? "no packet is lost" : "packets are lost");
	done(bpfrt_table_close(&table), "bpfrt_table_close");
	return 0;
}
