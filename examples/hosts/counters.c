/* A world of one map, and a program that counts in it */
#include <bpfrt.h>
#include <stdio.h>
#include <stdlib.h>

/* Adds 1 to the number that the map has under key 7, and exits with the sum; with 0 where there is no such key. `bpfrt asm` makes
   these bytes of the text beside them. */
static const unsigned char count[] = {
	0xb7, 0x06, 0x00, 0x00, 0x00, 0x00, 0x00, 0x00, /* mov64 r6, 0 */
	0x85, 0x20, 0x00, 0x00, 0x01, 0x00, 0x00, 0x00, /* callbtf 1 */
	0x62, 0x0a, 0xfc, 0xff, 0x07, 0x00, 0x00, 0x00, /* stw [r10-4], 7 */
	0xbf, 0xa2, 0x00, 0x00, 0x00, 0x00, 0x00, 0x00, /* mov64 r2, r10 */
	0x07, 0x02, 0x00, 0x00, 0xfc, 0xff, 0xff, 0xff, /* add64 r2, -4 */
	0x18, 0x51, 0x00, 0x00, 0x00, 0x00, 0x00, 0x00, /* ldmap r1, 0 */
	0x00, 0x00, 0x00, 0x00, 0x00, 0x00, 0x00, 0x00,
	0x85, 0x00, 0x00, 0x00, 0x01, 0x00, 0x00, 0x00, /* call 1 */
	0x15, 0x00, 0x03, 0x00, 0x00, 0x00, 0x00, 0x00, /* jeq r0, 0, +3 */
	0x79, 0x06, 0x00, 0x00, 0x00, 0x00, 0x00, 0x00, /* ldxdw r6, [r0+0] */
	0x07, 0x06, 0x00, 0x00, 0x01, 0x00, 0x00, 0x00, /* add64 r6, 1 */
	0x7b, 0x60, 0x00, 0x00, 0x00, 0x00, 0x00, 0x00, /* stxdw [r0+0], r6 */
	0x85, 0x20, 0x00, 0x00, 0x02, 0x00, 0x00, 0x00, /* callbtf 2 */
	0xbf, 0x60, 0x00, 0x00, 0x00, 0x00, 0x00, 0x00, /* mov64 r0, r6 */
	0x95, 0x00, 0x00, 0x00, 0x00, 0x00, 0x00, 0x00, /* exit */
};

static const struct bpfrt_map_shape shape = {
	.type = BPFRT_MAP_TYPE_HASH, .key_size = 4, .value_size = 8, .max_entries = 16, .spare = 16, .reuse_limit = 1000};

/* The number that a call answers, which is to be 0 or more. */
static int32_t done(int32_t status, const char *call)
{
	if (status < 0) {
		fprintf(stderr, "counters: %s answers %d\n", call, status);
		exit(1);
	}
	return status;
}

static void open_both(struct bpfrt_world *world, struct bpfrt_prog *prog)
{
	struct bpfrt_refusal why = {0};
	const uint32_t maps[] = {0};
	if (bpfrt_prog_open(prog, count, sizeof count, 0, &shape, 1, &why)) {
		fprintf(stderr, "counters: refused %u: %s\n", why.code, why.words);
		exit(1);
	}
	done(bpfrt_world_open(world, &shape, 1, &why), "bpfrt_world_open");
	done(bpfrt_world_load(world, prog, maps, 1), "bpfrt_world_load");
}

int main(void)
{
	struct bpfrt_world world = {0};
	struct bpfrt_prog prog = {0};
	const unsigned char key[4] = {7}, first[8] = {41};
	unsigned char value[8];
	uint64_t exit_value;
	open_both(&world, &prog);
	done(bpfrt_map_update_elem(&world, 0, key, sizeof key, first, sizeof first, 0), "update");
	done(bpfrt_world_run(&world, 0, NULL, 0, &exit_value), "run");
	printf("the program exits with %llu\n", (unsigned long long)exit_value);
	done(bpfrt_map_lookup_elem(&world, 0, key, sizeof key, value, sizeof value), "lookup");
	printf("the map has %u\n", value[0]);
	done(bpfrt_map_delete_elem(&world, 0, key, sizeof key), "delete");
	done(bpfrt_world_run(&world, 0, NULL, 0, &exit_value), "run");
	printf("without the key it exits with %llu\n", (unsigned long long)exit_value);
	printf("before the grace period has ended %d elements are reclaimed\n", done(bpfrt_world_reap(&world), "reap"));
	done(bpfrt_world_advance(&world), "advance");
	done(bpfrt_world_advance(&world), "advance");
	printf("behind it %d\n", done(bpfrt_world_reap(&world), "reap"));
	done(bpfrt_prog_close(&prog), "close");
	done(bpfrt_world_close(&world), "close");
	return 0;
}
