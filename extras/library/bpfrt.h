/*
 * bpfrt.h: the eBPF runtime in a host's own process.
 *
 * Programs in the BPF instruction set are verified when they are opened, and run over what the host lends. docs/EMBEDDING.md shows
 * hosts in several languages, docs/REFUSALS.md has the numbers of refusals.
 *
 * A handle is a struct of two words. The host owns it, and sets all of it to zero before its first use: closed. The library owns
 * what a handle holds, until it is closed.
 *
 * Each call answers 0 or more, or a negative number of errno.h:
 *
 *   -EBADF   the handle holds nothing, or something else         -EBUSY   the handle that is to be opened is open
 *   -EINVAL  an argument is none that the call takes              -ENOMEM  memory ran out, and nothing has changed
 *   -ENOENT  no element has the key                               -EEXIST  an element has the key
 *   -E2BIG   no place is left                                     -ENOSPC  too few elements of the table are free, or no seat
 *   -EACCES  the verifier refuses the program
 *   -EOPNOTSUPP  the program names a map, so it runs in a world or over a table alone; or no table serves it, and a world does
 *
 * and those that stand at a call. Where a call fails, what it would have written is as before, but for `why`.
 *
 * What the host owes, and nothing checks:
 *
 *   - A handle is all zeros, or was written last by these calls. It is not copied: each copy would free the same memory. It may be
 *     moved: copied, if its old place is then set to zero.
 *   - No two calls at once take the same handle. Open the handles of other threads from yours (bpfrt_prog_share,
 *     bpfrt_table_reader). Hand a handle over by a lock, a start or a join.
 *   - A pointer leads to as many bytes, or items, as its length says, and is aligned for its type. It may be null where that is 0;
 *     elsewhere the answer is -EINVAL. `why` and `value` may be null. A pointer to a handle, a shape or counts (`stat`) is never
 *     null, and nothing checks it.
 *   - Memory that a call writes is none that it reads.
 *   - No call comes from a signal handler, or from the child of a fork of a process with threads.
 *   - malloc, realloc and free are those of one allocator, and align a block to each power of two up to 16 that divides its size.
 */
#ifndef BPFRT_H
#define BPFRT_H

#include <stddef.h>
#include <stdint.h>

#ifdef __cplusplus
extern "C" {
#endif

/* A program that was verified. Handles may share it; it never changes. */
struct bpfrt_prog {
	void *at;
	uint32_t state;
};

/* A world: maps, programs that are bound to them, and their runs. */
struct bpfrt_world {
	void *at;
	uint32_t state;
};

/* A table: one map, which one thread changes while others run programs over it. */
struct bpfrt_table {
	void *at;
	uint32_t state;
};

/* A reader: one thread's seat at a table. */
struct bpfrt_reader {
	void *at;
	uint32_t state;
};

/* Why no program was opened: the number in docs/REFUSALS.md, the place, and what is wrong, in words. The number is 0 where a
   pointer is null that may not be. */
enum bpfrt_place {
	BPFRT_NOWHERE = 0,
	BPFRT_SLOT = 1,        /* of the program, from 0 */
	BPFRT_LINE = 2,        /* of the text, from 1 */
	BPFRT_INSTRUCTION = 3, /* of the classic program, from 0 */
	BPFRT_MAP = 4          /* of the list, from 0 */
};

struct bpfrt_refusal {
	uint32_t code;
	uint32_t place; /* enum bpfrt_place: what `at` counts */
	uint64_t at;
	char words[144]; /* ends with a zero byte, and may be empty */
};

/* The types of maps, by their numbers in Linux. */
enum bpfrt_map_type { BPFRT_MAP_TYPE_HASH = 1, BPFRT_MAP_TYPE_ARRAY = 2 };

/* A map. A hash map has keys of 1 to 64 bytes, values of 1 to 256, 1 to 4096 entries, and 0 to 4096 spare slots for elements that
   wait for their grace period; a slot is used 1 to 4294967295 times. An array has keys of 4 bytes, spare 0, and reuse_limit 1. */
struct bpfrt_map_shape {
	uint32_t type; /* enum bpfrt_map_type */
	uint32_t key_size;
	uint32_t value_size;
	uint32_t max_entries;
	uint32_t spare;
	uint32_t reuse_limit;
};

/* What a world has. Each element of an array is linked. */
struct bpfrt_world_stat {
	uint64_t linked;
	uint64_t unlinked; /* and not reclaimed yet */
	uint64_t reclaimed; /* since the world was opened */
	uint64_t worn; /* slots that were used as often as they may be */
	uint64_t runs;
	uint64_t sections; /* runs that are in one */
};

/* A packet that lies among bytes: how many stand before it, how many of it were captured, and how many it had on the wire. */
struct bpfrt_packet {
	uint64_t at;
	uint32_t caplen;
	uint32_t len;
};

/* Who shares the values of a table. With BPFRT_TABLE_PER_READER each reader has its own value under a key, so no two threads store
   to the same one, and counters lose nothing. An update sets all of them, and a lookup gives their sums. */
enum bpfrt_table_values { BPFRT_TABLE_SHARED = 0, BPFRT_TABLE_PER_READER = 1 };

/* A table has at most 64 readers, 16777216 buckets, 16777216 elements, and 8 words, of 8 bytes, in a key and in a value. Programs run
   over one that has at most 131072 elements. It takes one key fewer than it has elements. A key lies in one of two buckets of 8
   places, which `first` and `second` choose. Draw these at random and tell nobody, or others can choose keys that fall together. */
struct bpfrt_table_shape {
	uint32_t readers;
	uint32_t buckets; /* 1 or more: bpfrt_table_buckets */
	uint32_t elements;
	uint32_t key_words;
	uint32_t value_words;
	uint32_t values; /* enum bpfrt_table_values */
	uint64_t first;
	uint64_t second;
};

/* What a table has. All other elements are linked. */
struct bpfrt_table_stat {
	uint64_t free;
	uint64_t waiting; /* unlinked, and not reclaimed yet */
	uint64_t seats; /* that no reader has yet */
};

/* The calls as the library exports them. A pointer that is given to them is never null, not even with the length 0. Two handles of a call
   are never one. */
int32_t bpfrt0_prog_open(struct bpfrt_prog *prog, const void *insns, size_t size, size_t ctx_len, const struct
	bpfrt_map_shape *maps, size_t nr_maps, struct bpfrt_refusal *why);
int32_t bpfrt0_prog_open_file(struct bpfrt_prog *prog, const void *text, size_t size, struct bpfrt_refusal *why);
int32_t bpfrt0_prog_open_tcpdump(struct bpfrt_prog *prog, const void *text, size_t size, struct bpfrt_refusal *why);
int32_t bpfrt0_prog_open_filter(struct bpfrt_prog *prog, const void *insns, size_t size, struct bpfrt_refusal *why);
int32_t bpfrt0_prog_open_policy(struct bpfrt_prog *prog, const void *insns, size_t size, struct bpfrt_refusal *why);
int32_t bpfrt0_prog_share(struct bpfrt_prog *prog, struct bpfrt_prog *other);
int32_t bpfrt0_prog_ctx_len(struct bpfrt_prog *prog);
int32_t bpfrt0_prog_run(struct bpfrt_prog *prog, const void *ctx, size_t len, uint64_t *value);
int32_t bpfrt0_prog_run_many(struct bpfrt_prog *prog, const void *ctxs, size_t size, uint64_t *values, size_t count);
int32_t bpfrt0_prog_run_packet(struct bpfrt_prog *prog, const void *packet, size_t caplen, uint32_t len, uint64_t
	*value);
int32_t bpfrt0_prog_run_packets(struct bpfrt_prog *prog, const void *bytes, size_t size, const struct bpfrt_packet *packets, size_t
	nr_packets, uint64_t *values, size_t count);
int32_t bpfrt0_close(void *handle);
int32_t bpfrt0_world_open(struct bpfrt_world *world, const struct bpfrt_map_shape *maps, size_t nr_maps, struct
	bpfrt_refusal *why);
int32_t bpfrt0_world_load(struct bpfrt_world *world, struct bpfrt_prog *prog, const uint32_t *maps, size_t nr_maps);
int32_t bpfrt0_map_update_elem(struct bpfrt_world *world, uint32_t map, const void *key, size_t key_size, const void
	*value, size_t value_size, uint64_t flags);
int32_t bpfrt0_map_lookup_elem(struct bpfrt_world *world, uint32_t map, const void *key, size_t key_size, void *value,
	size_t value_size);
int32_t bpfrt0_map_delete_elem(struct bpfrt_world *world, uint32_t map, const void *key, size_t key_size);
int32_t bpfrt0_map_get_next_key(struct bpfrt_world *world, uint32_t map, const void *key, size_t key_size, void *next, size_t
	next_size);
int32_t bpfrt0_world_run(struct bpfrt_world *world, uint32_t prog, const void *ctx, size_t len, uint64_t *value);
int32_t bpfrt0_world_start(struct bpfrt_world *world, uint32_t prog, const void *ctx, size_t len);
int32_t bpfrt0_world_step(struct bpfrt_world *world, uint32_t run, uint64_t *value);
int32_t bpfrt0_world_drop(struct bpfrt_world *world, uint32_t run);
int32_t bpfrt0_world_advance(struct bpfrt_world *world);
int32_t bpfrt0_world_reap(struct bpfrt_world *world);
int32_t bpfrt0_world_stat(struct bpfrt_world *world, struct bpfrt_world_stat *stat);
int32_t bpfrt0_table_open(struct bpfrt_table *table, const struct bpfrt_table_shape *shape);
int32_t bpfrt0_table_reader(struct bpfrt_reader *reader, struct bpfrt_table *table);
int32_t bpfrt0_table_update_elem(struct bpfrt_table *table, const uint64_t *key, size_t key_words, const uint64_t *value, size_t
	value_words, uint64_t flags);
int32_t bpfrt0_table_copy(struct bpfrt_table *table, struct bpfrt_table *larger);
int32_t bpfrt0_table_lookup_elem(struct bpfrt_table *table, const uint64_t *key, size_t key_words, uint64_t *value, size_t
	value_words);
int32_t bpfrt0_table_delete_elem(struct bpfrt_table *table, const uint64_t *key, size_t key_words);
int32_t bpfrt0_table_get_next_key(struct bpfrt_table *table, uint32_t is_given, const uint64_t *key, size_t key_words, uint64_t *next,
	size_t next_words);
int32_t bpfrt0_table_reclaim(struct bpfrt_table *table);
int32_t bpfrt0_table_stat(struct bpfrt_table *table, struct bpfrt_table_stat *stat);
int32_t bpfrt0_table_serves(struct bpfrt_table *table, struct bpfrt_prog *prog);
int32_t bpfrt0_reader_run(struct bpfrt_reader *reader, struct bpfrt_prog *prog, const void *ctx, size_t len, uint64_t *value);
int32_t bpfrt0_reader_run_packet(struct bpfrt_reader *reader, struct bpfrt_prog *prog, const void *packet, size_t caplen, uint32_t
	len, uint64_t *value);

/* Something to point at where there is nothing. */
static inline const void *bpfrt_some(const void *at)
{
	return at ? at : "";
}

static inline void *bpfrt_room(void *at)
{
	static unsigned char none[8];
	return at ? at : none;
}

static inline const struct bpfrt_map_shape *bpfrt_no_shapes(void)
{
	static const struct bpfrt_map_shape none = {0, 0, 0, 0, 0, 0};
	return &none;
}

static inline const uint32_t *bpfrt_no_u32s(void)
{
	static const uint32_t none = 0;
	return &none;
}

static inline uint64_t *bpfrt_no_values(void)
{
	static uint64_t none;
	return &none;
}

static inline const struct bpfrt_packet *bpfrt_no_packets(void)
{
	static const struct bpfrt_packet none = {0, 0, 0};
	return &none;
}

/* What is answered where a pointer is null that may not be. */
static inline int32_t bpfrt_is_null(struct bpfrt_refusal *why)
{
	static const struct bpfrt_refusal null = {0, 0, 0, "a pointer is null where bytes are to be"};
	if (why)
		*why = null;
	return -22; /* -EINVAL */
}

/* Programs */

/* Opens the program of these bytes (RFC 9669: 8 a slot, little-endian), for contexts of ctx_len bytes, at most 256, and for maps of
   these shapes, at most 16, which it names by their places in the list. -EBUSY, -EINVAL, -EACCES, -ENOMEM; of all but the first
   *why says more. */
static inline int32_t bpfrt_prog_open(struct bpfrt_prog *prog, const void *insns, size_t size, size_t ctx_len, const struct
	bpfrt_map_shape *maps, size_t nr_maps, struct bpfrt_refusal *why)
{
	struct bpfrt_refusal none;
	if ((!insns && size) || (!maps && nr_maps))
		return bpfrt_is_null(why);
	return bpfrt0_prog_open(prog, bpfrt_some(insns), size, ctx_len, (maps ? maps : bpfrt_no_shapes()), nr_maps, why ? why : &none);
}

/* Opens the program of a program file (docs/PROGRAM_FILES.md), for its context and its maps; other bytes are a program's, without
   context and maps. */
static inline int32_t bpfrt_prog_open_file(struct bpfrt_prog *prog, const void *text, size_t size, struct bpfrt_refusal *why)
{
	struct bpfrt_refusal none;
	if (!text && size)
		return bpfrt_is_null(why);
	return bpfrt0_prog_open_file(prog, bpfrt_some(text), size, why ? why : &none);
}

/* Opens the filter that `tcpdump -ddd` wrote. Its runs return what the classic program returns, of a packet of at most 248 captured
   bytes; of a longer one what it returns of the first 248, as if no more had been captured. A shift by a number of the packet's above 31
   shifts by its low five bits, as in Linux; libpcap answers 0 there. */
static inline int32_t bpfrt_prog_open_tcpdump(struct bpfrt_prog *prog, const void *text, size_t size, struct bpfrt_refusal *why)
{
	struct bpfrt_refusal none;
	if (!text && size)
		return bpfrt_is_null(why);
	return bpfrt0_prog_open_tcpdump(prog, bpfrt_some(text), size, why ? why : &none);
}

/* The same of an array of instructions of 8 bytes: struct bpf_insn of libpcap, struct sock_filter of Linux. `size` is in bytes. */
static inline int32_t bpfrt_prog_open_filter(struct bpfrt_prog *prog, const void *insns, size_t size, struct bpfrt_refusal *why)
{
	struct bpfrt_refusal none;
	if (!insns && size)
		return bpfrt_is_null(why);
	return bpfrt0_prog_open_filter(prog, bpfrt_some(insns), size, why ? why : &none);
}

/* Opens a policy that seccomp takes, from such an array. Its context is struct seccomp_data. */
static inline int32_t bpfrt_prog_open_policy(struct bpfrt_prog *prog, const void *insns, size_t size, struct bpfrt_refusal *why)
{
	struct bpfrt_refusal none;
	if (!insns && size)
		return bpfrt_is_null(why);
	return bpfrt0_prog_open_policy(prog, bpfrt_some(insns), size, why ? why : &none);
}

/* Opens `prog` as one more handle of the program that `other` holds, for another thread. -EBUSY; -EBADF of `other`; -ENOMEM. */
static inline int32_t bpfrt_prog_share(struct bpfrt_prog *prog, struct bpfrt_prog *other)
{
	if (prog == other)
		return prog->at ? -16 : -9; /* -EBUSY, -EBADF */
	return bpfrt0_prog_share(prog, other);
}

/* How many bytes a context of the program has. */
static inline int32_t bpfrt_prog_ctx_len(struct bpfrt_prog *prog)
{
	return bpfrt0_prog_ctx_len(prog);
}

/* Runs a program that names no map on a context, to its exit. It takes no memory. -EBADF; -EOPNOTSUPP; -EINVAL where the context
   has another length. */
static inline int32_t bpfrt_prog_run(struct bpfrt_prog *prog, const void *ctx, size_t len, uint64_t *value)
{
	uint64_t none;
	if (!ctx && len)
		return -22; /* -EINVAL */
	return bpfrt0_prog_run(prog, bpfrt_some(ctx), len, value ? value : &none);
}

/* The same on `count` contexts, one behind another. */
static inline int32_t bpfrt_prog_run_many(struct bpfrt_prog *prog, const void *ctxs, size_t size, uint64_t *values, size_t count)
{
	if ((!ctxs && size) || (!values && count))
		return -22; /* -EINVAL */
	return bpfrt0_prog_run_many(prog, bpfrt_some(ctxs), size, (values ? values : bpfrt_no_values()), count);
}

/* Runs a filter on a packet of `caplen` captured bytes and `len` on the wire, of which it sees the first 248. Any program with
   contexts of 256 bytes may be run so: it finds the captured length, the length on the wire (4 bytes each) and the bytes. -EINVAL
   where its contexts have another length. */
static inline int32_t bpfrt_prog_run_packet(struct bpfrt_prog *prog, const void *packet, size_t caplen, uint32_t len, uint64_t
	*value)
{
	uint64_t none;
	if (!packet && caplen)
		return -22; /* -EINVAL */
	return bpfrt0_prog_run_packet(prog, bpfrt_some(packet), caplen, len, value ? value : &none);
}

/* The same on `count` packets that lie among `size` bytes, as in a ring or a capture's file. -EINVAL also where one lies outside. */
static inline int32_t bpfrt_prog_run_packets(struct bpfrt_prog *prog, const void *bytes, size_t size, const struct bpfrt_packet
	*packets, uint64_t *values, size_t count)
{
	if ((!bytes && size) || ((!packets || !values) && count))
		return -22; /* -EINVAL */
	return bpfrt0_prog_run_packets(prog, bpfrt_some(bytes), size, packets ? packets : bpfrt_no_packets(), count, values ? values :
		bpfrt_no_values(), count);
}

/* Closes the handle. The program is freed with its last handle. -EBADF where it is closed. */
static inline int32_t bpfrt_prog_close(struct bpfrt_prog *prog)
{
	return bpfrt0_close(prog);
}

/* Worlds */

/* Opens a world of new maps of these shapes, at most 16, which have the numbers 0, 1, 2, .. in this order. */
static inline int32_t bpfrt_world_open(struct bpfrt_world *world, const struct bpfrt_map_shape *maps, size_t nr_maps, struct
	bpfrt_refusal *why)
{
	struct bpfrt_refusal none;
	if (!maps && nr_maps)
		return bpfrt_is_null(why);
	return bpfrt0_world_open(world, (maps ? maps : bpfrt_no_shapes()), nr_maps, why ? why : &none);
}

/* Adds a program, whose map 0 is the world's map maps[0], and so on: its number, from 0, at most 63. Runs, maps and the other
   programs stay as they are. -EBADF of either; -E2BIG with 64 programs; -EINVAL where a map is missing or has another shape. */
static inline int32_t bpfrt_world_load(struct bpfrt_world *world, struct bpfrt_prog *prog, const uint32_t *maps, size_t nr_maps)
{
	if (!maps && nr_maps)
		return -22; /* -EINVAL */
	return bpfrt0_world_load(world, prog, (maps ? maps : bpfrt_no_u32s()), nr_maps);
}

/* Stores a value under a key. Flags: 0, or 1 for a new key alone (-EEXIST), or 2 for one that is there (-ENOENT). -E2BIG where the
   map is full, or an array has no such index. -ENOMEM where no slot is free: until a grace period has ended (bpfrt_world_advance) and
   bpfrt_world_reap has reclaimed an element, or for good where the slots are worn. -ENXIO where no map has the number; -EINVAL for a
   wrong length or flag. */
static inline int32_t bpfrt_map_update_elem(struct bpfrt_world *world, uint32_t map, const void *key, size_t key_size, const void
	*value, size_t value_size, uint64_t flags)
{
	if ((!key && key_size) || (!value && value_size))
		return -22; /* -EINVAL */
	return bpfrt0_map_update_elem(world, map, bpfrt_some(key), key_size, bpfrt_some(value), value_size, flags);
}

/* Copies the value of a key. -ENOENT, -ENXIO, -EINVAL. */
static inline int32_t bpfrt_map_lookup_elem(struct bpfrt_world *world, uint32_t map, const void *key, size_t key_size, void *value,
	size_t value_size)
{
	if ((!key && key_size) || (!value && value_size))
		return -22; /* -EINVAL */
	return bpfrt0_map_lookup_elem(world, map, bpfrt_some(key), key_size, bpfrt_room(value), value_size);
}

/* Removes a key of a hash map. -ENOENT, -ENXIO, -EINVAL. */
static inline int32_t bpfrt_map_delete_elem(struct bpfrt_world *world, uint32_t map, const void *key, size_t key_size)
{
	if (!key && key_size)
		return -22; /* -EINVAL */
	return bpfrt0_map_delete_elem(world, map, bpfrt_some(key), key_size);
}

/* Writes the map's least key above `key`, in the order of bytes; of a key of no bytes the least of all. The key need not be
   in the map, and is other memory than `next`. -ENOENT where there is none; -ENXIO; -EINVAL where the map's keys have another length
   than `next`, or `key` is longer than 64 bytes. */
static inline int32_t bpfrt_map_get_next_key(struct bpfrt_world *world, uint32_t map, const void *key, size_t key_size, void *next,
	size_t next_size)
{
	if ((!key && key_size) || (!next && next_size))
		return -22; /* -EINVAL */
	return bpfrt0_map_get_next_key(world, map, bpfrt_some(key), key_size, bpfrt_room(next), next_size);
}

/* Runs a program of the world on a context, from its start to its exit, with nothing between its steps. -ENXIO where no program has
   the number; -EINVAL where the context has another length; -EAGAIN where 256 runs stand in the world. */
static inline int32_t bpfrt_world_run(struct bpfrt_world *world, uint32_t prog, const void *ctx, size_t len, uint64_t *value)
{
	uint64_t none;
	if (!ctx && len)
		return -22; /* -EINVAL */
	return bpfrt0_world_run(world, prog, bpfrt_some(ctx), len, value ? value : &none);
}

/* Starts a run that is stepped by hand: its number. It answers as bpfrt_world_run. */
static inline int32_t bpfrt_world_start(struct bpfrt_world *world, uint32_t prog, const void *ctx, size_t len)
{
	if (!ctx && len)
		return -22; /* -EINVAL */
	return bpfrt0_world_start(world, prog, bpfrt_some(ctx), len);
}

/* One step of a run: 0 where it goes on, 1 where it has exited, with its value. -ESRCH where there is no such run, or it has ended. */
static inline int32_t bpfrt_world_step(struct bpfrt_world *world, uint32_t run, uint64_t *value)
{
	uint64_t none;
	return bpfrt0_world_step(world, run, value ? value : &none);
}

/* Takes a run out that has exited. -ESRCH; -EBUSY where it has not exited. */
static inline int32_t bpfrt_world_drop(struct bpfrt_world *world, uint32_t run)
{
	return bpfrt0_world_drop(world, run);
}

/* Ends the grace period, if no section that it awaits is open, and begins the next. */
static inline int32_t bpfrt_world_advance(struct bpfrt_world *world)
{
	return bpfrt0_world_advance(world);
}

/* Reclaims one element whose grace period has ended: 1, or 0 where there is none. */
static inline int32_t bpfrt_world_reap(struct bpfrt_world *world)
{
	return bpfrt0_world_reap(world);
}

/* Tells what the world has. */
static inline int32_t bpfrt_world_stat(struct bpfrt_world *world, struct bpfrt_world_stat *stat)
{
	return bpfrt0_world_stat(world, stat);
}

/* Closes the handle, and frees the world. -EBADF where it is closed. */
static inline int32_t bpfrt_world_close(struct bpfrt_world *world)
{
	return bpfrt0_close(world);
}

/* Tables. One thread changes a table by its handle, while those of its readers run programs over it. No call of a reader waits for
   another. Only bpfrt_table_update_elem and bpfrt_table_copy wait for readers, to move an element. Only calls that open take memory. */

/* How many buckets a table needs that is half full when each of its elements is linked. */
static inline uint32_t bpfrt_table_buckets(uint32_t elements)
{
	return (uint32_t)(elements / 4 + 1);
}

/* Opens a table of this shape, in which nothing is linked. -EBUSY; -EINVAL where no table may have the shape; -ENOMEM. */
static inline int32_t bpfrt_table_open(struct bpfrt_table *table, const struct bpfrt_table_shape *shape)
{
	return bpfrt0_table_open(table, shape);
}

/* Opens `reader` with the table's next seat, for another thread: the first one that is opened has the first value of an update.
   -EBUSY; -EBADF of `table`; -ENOSPC where each seat has been given, since none is given back; -ENOMEM. */
static inline int32_t bpfrt_table_reader(struct bpfrt_reader *reader, struct bpfrt_table *table)
{
	return bpfrt0_table_reader(reader, table);
}

/* Puts a value under a key; with BPFRT_TABLE_PER_READER those of all readers, one behind another. A run finds the old value or the
   new one, and misses no key that is there. Flags as of bpfrt_map_update_elem. A value for a key that is there takes a free
   element, too, and the old one waits for the runs that may have found it. A new key leaves one free, so that values can be
   replaced where all others are linked. Where too few are free, the call first reclaims those that no run can hold. Where both buckets of a new key are full, an element of them
   is moved to the other bucket of its own key, if that has room. No run misses it, and what runs store there stays. -EEXIST, -ENOENT.
   -ENOSPC where still too few are free, until runs end or a key is removed. -E2BIG where both buckets of a new key are full, and no
   element there can be moved. -EAGAIN where an element could be moved, but a run stayed in one section for some 20 milliseconds;
   none was moved: call again. The call waits for one reader after another, that long at most for each, and
   keeps its processor busy. With more busy threads than processors, runs wait inside their sections: on 4 processors a call took 35 ms on
   average beside 8 readers, 520 beside 32. -EINVAL for a wrong length or flag. */
static inline int32_t bpfrt_table_update_elem(struct bpfrt_table *table, const uint64_t *key, size_t key_words, const uint64_t *value,
	size_t value_words, uint64_t flags)
{
	if ((!key && key_words) || (!value && value_words))
		return -22; /* -EINVAL */
	return bpfrt0_table_update_elem(table, key ? key : bpfrt_no_values(), key_words, value ? value : bpfrt_no_values(),
		value_words, flags);
}

/* Sets each key of a table in another one, with the words of all its values. So a host goes over to a larger table. The two handles are
   different ones. A host that sets and removes nothing from this call until all threads have gone over needs none of the first five rules
   (examples/hosts/grow.c).

   - From the first call on, also one that fails, set and remove keys in both tables. No copy removes a key: one removed from the
     old table alone stays in the larger.
   - Change the larger one first. So a thread that goes over finds there each of your changes that it found in the old one.
   - Where the larger one refuses to set a key, do not set it in the old one.
   - The old one may be nearly full. Where it refuses, try again, or undo the change in the larger: remove a new key there, or set a
     replaced value as it was.
   - After a call that failed, the larger one lacks some keys. Set there with the flags 0, and let the old one tell which keys are there.
   - Once a call has answered 0, open a reader of the larger table for each thread, and hand it over. No thread opens its own, since
     bpfrt_table_reader takes the table's handle.
   - The thread closes its old reader between two runs, and takes the new one. This was opened after the copy, so it finds each
     copied key that you keep. When all have gone over, close the old table.
   - What runs store in a value after it was copied stays in the old table. So do not copy again once a program that stores has run over
     the larger one. A copy would put the old words over what it stored.
   - Readers that are opened in the order of the old ones go on with their own values (BPFRT_TABLE_PER_READER).
   - Copied counters have the old counts, and old readers go on counting in the old table. For exact sums do not copy: set the keys with
     zeros in the larger table. When the old readers are closed, add the old table's last sums to those of the larger. Only then close the
     old table.

   -EBADF where either is no table. -EINVAL where both are one, or key_words or value_words differ, or an element has not as many values in
   both. So with BPFRT_TABLE_PER_READER both need the same number of readers. Else as bpfrt_table_update_elem (-ENOSPC, -E2BIG, -EAGAIN):
   then some keys are set, each key that was there stays, and the call may be made again. */
static inline int32_t bpfrt_table_copy(struct bpfrt_table *table, struct bpfrt_table *larger)
{
	if (table == larger)
		return -22; /* -EINVAL */
	return bpfrt0_table_copy(table, larger);
}

/* Copies the value of a key; with BPFRT_TABLE_PER_READER the sums of all readers' words, modulo 2^64. Each word is read by itself:
   what runs store meanwhile is in it or not. -ENOENT, -EINVAL. */
static inline int32_t bpfrt_table_lookup_elem(struct bpfrt_table *table, const uint64_t *key, size_t key_words, uint64_t *value, size_t
	value_words)
{
	if ((!key && key_words) || (!value && value_words))
		return -22; /* -EINVAL */
	return bpfrt0_table_lookup_elem(table, key ? key : bpfrt_no_values(), key_words, value ? value : bpfrt_no_values(),
		value_words);
}

/* Removes a key. A run that has found it goes on with its value. -ENOENT, -EINVAL. */
static inline int32_t bpfrt_table_delete_elem(struct bpfrt_table *table, const uint64_t *key, size_t key_words)
{
	if (!key && key_words)
		return -22; /* -EINVAL */
	return bpfrt0_table_delete_elem(table, key ? key : bpfrt_no_values(), key_words);
}

/* Writes the key that comes after `key`, in the table's own order: the first of all, if `key` is null or is not there. A walk gives
   each time the key that it met last. It meets each key that stays once, unless a key that it gives was removed. A key that is
   replaced stays. A new key that is put between two calls may move another one, which the walk may then miss or meet twice. Where
   the key that is given was moved, the walk goes on from its new place. -ENOENT where none comes behind; -EINVAL. */
static inline int32_t bpfrt_table_get_next_key(struct bpfrt_table *table, const uint64_t *key, size_t key_words, uint64_t *next)
{
	if (!next && key_words)
		return -22; /* -EINVAL */
	return bpfrt0_table_get_next_key(table, key != NULL, key ? key : bpfrt_no_values(), key ? key_words : 0, next ? next : bpfrt_no_values(),
		key_words);
}

/* Reclaims the elements of removed and replaced values that no run can hold any more: how many. */
static inline int32_t bpfrt_table_reclaim(struct bpfrt_table *table)
{
	return bpfrt0_table_reclaim(table);
}

/* Tells what the table has. */
static inline int32_t bpfrt_table_stat(struct bpfrt_table *table, struct bpfrt_table_stat *stat)
{
	return bpfrt0_table_stat(table, stat);
}

/* Whether readers of the table may run the program, so that a host knows it before it hands the program to their threads: 0, or as
   bpfrt_reader_run answers. */
static inline int32_t bpfrt_table_serves(struct bpfrt_table *table, struct bpfrt_prog *prog)
{
	return bpfrt0_table_serves(table, prog);
}

/* Runs a program on a context over the reader's table, to its exit. Each map of the program is the table: a hash map of its lengths,
   8 bytes for a word, whose other numbers do not count. The next call may run another program: so a filter is replaced while others
   run, and what the table has stays. -EBADF of either; -EINVAL where the context has another length, a map is none of these, or the
   table has over 131072 elements; -EOPNOTSUPP where the program stores less than 8 bytes to a value, or updates or deletes. */
static inline int32_t bpfrt_reader_run(struct bpfrt_reader *reader, struct bpfrt_prog *prog, const void *ctx, size_t len, uint64_t
	*value)
{
	uint64_t none;
	if (!ctx && len)
		return -22; /* -EINVAL */
	return bpfrt0_reader_run(reader, prog, bpfrt_some(ctx), len, value ? value : &none);
}

/* The same on a packet, as bpfrt_prog_run_packet. */
static inline int32_t bpfrt_reader_run_packet(struct bpfrt_reader *reader, struct bpfrt_prog *prog, const void *packet, size_t caplen,
	uint32_t len, uint64_t *value)
{
	uint64_t none;
	if (!packet && caplen)
		return -22; /* -EINVAL */
	return bpfrt0_reader_run_packet(reader, prog, bpfrt_some(packet), caplen, len, value ? value : &none);
}

/* Closes the handle. No other reader gets its seat. -EBADF where it is closed. */
static inline int32_t bpfrt_reader_close(struct bpfrt_reader *reader)
{
	return bpfrt0_close(reader);
}

/* Closes the handle. Readers that are open go on, and the table is freed with the last of them. -EBADF where it is closed. */
static inline int32_t bpfrt_table_close(struct bpfrt_table *table)
{
	return bpfrt0_close(table);
}

#ifdef __cplusplus
}
#endif

#endif
