/* What the parts of edges.c share: programs, shapes, and how an answer is judged. */
#ifndef EDGES_H
#define EDGES_H

#include <bpfrt.h>
#include <errno.h>
#include <stdbool.h>
#include <stdio.h>
#include <string.h>

#define IS(call, wanted) judge(#call, (long)(call), (long)(wanted))
#define REFUSED(call, number, what, where) refused(#call, (call), number, what, where)

enum { MANY = 70 };

static const unsigned char exit_one[] = {0xb7, 0, 0, 0, 1, 0, 0, 0, 0x95, 0, 0, 0, 0, 0, 0, 0};
static const unsigned char exit_byte[] = {0x71, 0x10, 0, 0, 0, 0, 0, 0, 0x95, 0, 0, 0, 0, 0, 0, 0};
static const unsigned char names_map[] = {
	0x18, 0x51, 0, 0, 0, 0, 0, 0, 0, 0, 0, 0, 0, 0, 0, 0, 0xb7, 0, 0, 0, 7, 0, 0, 0, 0x95, 0, 0, 0, 0, 0, 0, 0};
static const struct bpfrt_map_shape words = {BPFRT_MAP_TYPE_HASH, 8, 8, 1, 0, 1};
static const struct bpfrt_map_shape hash = {BPFRT_MAP_TYPE_HASH, 4, 8, 2, 1, 3};
static const unsigned char many[300];

extern struct bpfrt_refusal why;

/* Counts an answer, and prints one that is not as wanted. */
void judge(const char *call, long got, long wanted);

/* A call that opens nothing, for a reason of this number. */
void refused(const char *call, int32_t status, uint32_t number, uint32_t what, uint64_t where);

/* The calls on tables, and those on worlds. */
void judge_tables(void);
void judge_worlds(void);

static inline bool is_closed(const struct bpfrt_prog *prog)
{
	return prog->at == NULL && prog->state == 0;
}

/* What a table is opened with: keys and values of a word, the values those of all readers. */
static inline struct bpfrt_table_shape table_shape(uint32_t readers, uint32_t buckets, uint32_t elements)
{
	return (struct bpfrt_table_shape){readers, buckets, elements, 1, 1, BPFRT_TABLE_SHARED, 0x123456789abcdef0, 0xfedcba9876543210};
}

static inline void open_table(struct bpfrt_table *table, struct bpfrt_table_shape shape)
{
	IS(bpfrt_table_open(table, &shape), 0);
}

static inline void open_prog(struct bpfrt_prog *prog, const unsigned char *insns, size_t size, size_t ctx_len, const struct bpfrt_map_shape
	*shapes, size_t nr_shapes)
{
	IS(bpfrt_prog_open(prog, insns, size, ctx_len, shapes, nr_shapes, &why), 0);
}

#endif
