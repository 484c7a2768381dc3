/* Calls each function of bpfrt.h with what it takes and with what it does not, and compares what it answers with the header.
   checks/library_agree builds it with edges_tables.c and edges_worlds.c, and runs it; with -DWORLDS also the calls on worlds. It prints
   each call that answers otherwise. */
#include "edges.h"

_Static_assert(sizeof(struct bpfrt_prog) == 2 * sizeof(void *) && sizeof(struct bpfrt_world) == 2 * sizeof(void *), "two words");
_Static_assert(sizeof(struct bpfrt_table) == 2 * sizeof(void *) && sizeof(struct bpfrt_reader) == 2 * sizeof(void *), "two words");
_Static_assert(sizeof(struct bpfrt_refusal) == 160 && sizeof(struct bpfrt_map_shape) == 24, "as the library lays them out");
_Static_assert(sizeof(struct bpfrt_packet) == 16 && sizeof(struct bpfrt_world_stat) == 48, "as the library lays them out");
_Static_assert(sizeof(struct bpfrt_table_shape) == 40 && sizeof(struct bpfrt_table_stat) == 24, "as the library lays them out");

struct bpfrt_refusal why;
static long right, wrong;

void judge(const char *call, long got, long wanted)
{
	if (got == wanted) {
		right++;
		return;
	}
	wrong++;
	printf("%s answers %ld, and is to answer %ld\n", call, got, wanted);
}

void refused(const char *call, int32_t status, uint32_t number, uint32_t what, uint64_t where)
{
	judge(call, status, number >= 20 && number <= 39 ? -EACCES : -EINVAL);
	judge(call, why.code, number);
	judge(call, why.place, what);
	judge(call, (long)why.at, (long)where);
	judge(call, memchr(why.words, 0, sizeof why.words) != NULL, true);
	judge(call, why.words[0] != 0, true);
	memset(&why, 0xee, sizeof why);
}

static void closed_handle(void)
{
	struct bpfrt_prog prog = {0}, other = {0};
	uint64_t value = 5, values[2] = {6, 7};
	IS(bpfrt_prog_close(&prog), -EBADF);
	IS(bpfrt_prog_ctx_len(&prog), -EBADF);
	IS(bpfrt_prog_run(&prog, "", 0, &value), -EBADF);
	IS(bpfrt_prog_run(&prog, NULL, 0, &value), -EBADF);
	IS(bpfrt_prog_run_many(&prog, "", 0, values, 2), -EBADF);
	IS(bpfrt_prog_run_many(&prog, NULL, 0, NULL, 0), -EBADF);
	IS(bpfrt_prog_run_packet(&prog, "", 0, 0, &value), -EBADF);
	IS(bpfrt_prog_run_packets(&prog, NULL, 0, NULL, NULL, 0), -EBADF);
	IS(bpfrt_prog_share(&other, &prog), -EBADF);
	IS(is_closed(&prog) && is_closed(&other), true);
	IS(value == 5 && values[0] == 6 && values[1] == 7, true);
}

static void open_handle(void)
{
	struct bpfrt_prog prog = {0}, other = {0}, before;
	uint64_t value;
	memset(&why, 0xee, sizeof why);
	IS(bpfrt_prog_open(&prog, exit_one, sizeof exit_one, 0, NULL, 0, &why), 0);
	before = prog;
	IS(bpfrt_prog_open(&prog, exit_one, sizeof exit_one, 0, NULL, 0, &why), -EBUSY);
	IS(bpfrt_prog_open(&prog, "", 0, 999, NULL, 0, &why), -EBUSY);
	IS(bpfrt_prog_open_file(&prog, exit_one, sizeof exit_one, &why), -EBUSY);
	IS(bpfrt_prog_open_tcpdump(&prog, "1\n6 0 0 1\n", 10, &why), -EBUSY);
	IS(bpfrt_prog_open_filter(&prog, "\6\0\0\0\1\0\0\0", 8, &why), -EBUSY);
	IS(bpfrt_prog_open_policy(&prog, "\6\0\0\0\1\0\0\0", 8, &why), -EBUSY);
	IS(bpfrt_prog_share(&prog, &other), -EBUSY);
	IS(bpfrt_prog_share(&prog, &prog), -EBUSY);
	IS(memcmp(&before, &prog, sizeof prog), 0);
	IS(why.code, 0xeeeeeeee);
	IS(bpfrt_prog_share(&other, &prog), 0);
	IS(bpfrt_prog_close(&prog), 0);
	IS(bpfrt_prog_close(&prog), -EBADF);
	IS(is_closed(&prog), true);
	IS(bpfrt_prog_run(&other, NULL, 0, &value), 0);
	IS(value, 1);
	IS(bpfrt_prog_open(&prog, exit_byte, sizeof exit_byte, 1, NULL, 0, &why), 0);
	IS(bpfrt_prog_run(&other, NULL, 0, &value), 0);
	IS(value, 1);
	IS(bpfrt_prog_close(&other), 0);
	IS(bpfrt_prog_close(&prog), 0);
}

static void no_programs(void)
{
	struct bpfrt_prog prog = {0};
	struct bpfrt_map_shape shapes[17];
	for (int number = 0; number < 17; number++)
		shapes[number] = hash;
	REFUSED(bpfrt_prog_open(&prog, NULL, 0, 0, NULL, 0, &why), 2, BPFRT_NOWHERE, 0);
	REFUSED(bpfrt_prog_open(&prog, exit_one, 15, 0, NULL, 0, &why), 1, BPFRT_NOWHERE, 0);
	REFUSED(bpfrt_prog_open(&prog, exit_one, 8, 0, NULL, 0, &why), 22, BPFRT_SLOT, 0);
	REFUSED(bpfrt_prog_open(&prog, exit_one, sizeof exit_one, 257, NULL, 0, &why), 63, BPFRT_NOWHERE, 0);
	REFUSED(bpfrt_prog_open(&prog, exit_one, sizeof exit_one, SIZE_MAX, NULL, 0, &why), 63, BPFRT_NOWHERE, 0);
	REFUSED(bpfrt_prog_open(&prog, exit_one, sizeof exit_one, 0, shapes, 17, &why), 53, BPFRT_NOWHERE, 0);
	REFUSED(bpfrt_prog_open(&prog, exit_byte, sizeof exit_byte, 0, NULL, 0, &why), 27, BPFRT_SLOT, 0);
	REFUSED(bpfrt_prog_open(&prog, names_map, sizeof names_map, 0, NULL, 0, &why), 37, BPFRT_SLOT, 0);
	REFUSED(bpfrt_prog_open_file(&prog, NULL, 0, &why), 2, BPFRT_NOWHERE, 0);
	REFUSED(bpfrt_prog_open_file(&prog, "bpfrt 1\nctx 0\ncode \n", 20, &why), 94, BPFRT_LINE, 3);
	REFUSED(bpfrt_prog_open_tcpdump(&prog, NULL, 0, &why), 100, BPFRT_LINE, 1);
	REFUSED(bpfrt_prog_open_tcpdump(&prog, "1\n\xff", 3, &why), 101, BPFRT_LINE, 2);
	REFUSED(bpfrt_prog_open_tcpdump(&prog, "1\n6 0 0\n", 8, &why), 101, BPFRT_LINE, 2);
	REFUSED(bpfrt_prog_open_tcpdump(&prog, "0\n", 2, &why), 103, BPFRT_NOWHERE, 0);
	REFUSED(bpfrt_prog_open_filter(&prog, NULL, 0, &why), 103, BPFRT_NOWHERE, 0);
	REFUSED(bpfrt_prog_open_filter(&prog, "\6\0\0\0", 4, &why), 102, BPFRT_NOWHERE, 0);
	REFUSED(bpfrt_prog_open_filter(&prog, "\60\0\0\0\370\0\0\0\26\0\0\0\0\0\0\0", 16, &why), 112, BPFRT_INSTRUCTION, 0);
	REFUSED(bpfrt_prog_open_policy(&prog, NULL, 0, &why), 103, BPFRT_NOWHERE, 0);
	REFUSED(bpfrt_prog_open_policy(&prog, "\60\0\0\0\0\0\0\0\26\0\0\0\0\0\0\0", 16, &why), 110, BPFRT_INSTRUCTION, 0);
	IS(is_closed(&prog), true);
}

/* What is no shape of a map, behind one that is. */
static void no_shapes(void)
{
	static const struct bpfrt_map_shape none[] = {
		{0, 4, 8, 2, 1, 3}, {3, 4, 8, 2, 1, 3}, {UINT32_MAX, 4, 8, 2, 1, 3}, {1, 0, 8, 2, 1, 3}, {1, 65, 8, 2, 1, 3},
		{1, 4, 0, 2, 1, 3}, {1, 4, 257, 2, 1, 3}, {1, 4, 8, 0, 1, 3}, {1, 4, 8, 4097, 1, 3}, {1, 4, 8, 2, 4097, 3},
		{1, 4, 8, 2, 1, 0}, {1, UINT32_MAX, UINT32_MAX, UINT32_MAX, UINT32_MAX, UINT32_MAX}, {2, 8, 8, 2, 0, 1},
		{2, 4, 8, 2, 1, 1}, {2, 4, 8, 2, 0, 2}, {2, 4, 8, 4097, 0, 1}};
	static const struct bpfrt_map_shape some[] = {
		{1, 1, 1, 1, 0, 1}, {1, 64, 256, 4096, 4096, UINT32_MAX}, {2, 4, 256, 4096, 0, 1}, {2, 4, 1, 1, 0, 1}};
	struct bpfrt_prog prog = {0};
	for (size_t number = 0; number < sizeof none / sizeof *none; number++) {
		const struct bpfrt_map_shape shapes[2] = {hash, none[number]};
		REFUSED(bpfrt_prog_open(&prog, exit_one, sizeof exit_one, 0, shapes, 2, &why), 52, BPFRT_MAP, 1);
	}
	for (size_t number = 0; number < sizeof some / sizeof *some; number++) {
		IS(bpfrt_prog_open(&prog, names_map, sizeof names_map, 0, &some[number], 1, &why), 0);
		IS(bpfrt_prog_close(&prog), 0);
	}
}

static void runs(void)
{
	struct bpfrt_prog prog = {0};
	uint64_t value = 9, values[3] = {9, 9, 9};
	IS(bpfrt_prog_open(&prog, exit_byte, sizeof exit_byte, 1, NULL, 0, &why), 0);
	IS(bpfrt_prog_ctx_len(&prog), 1);
	IS(bpfrt_prog_run(&prog, NULL, 0, &value), -EINVAL);
	IS(bpfrt_prog_run(&prog, "ab", 2, &value), -EINVAL);
	IS(bpfrt_prog_run(&prog, many, sizeof many, &value), -EINVAL);
	IS(bpfrt_prog_run_many(&prog, "ab", 2, values, 3), -EINVAL);
	IS(bpfrt_prog_run_many(&prog, "abcd", 4, values, 3), -EINVAL);
	IS(bpfrt_prog_run_many(&prog, "a", 1, NULL, 0), -EINVAL);
	IS(bpfrt_prog_run_packet(&prog, "a", 1, 1, &value), -EINVAL);
	IS(value == 9 && values[0] == 9 && values[2] == 9, true);
	IS(bpfrt_prog_run(&prog, "a", 1, &value), 0);
	IS(value, 'a');
	IS(bpfrt_prog_run_many(&prog, "xyz", 3, values, 3), 0);
	IS(values[0] == 'x' && values[1] == 'y' && values[2] == 'z', true);
	IS(bpfrt_prog_run_many(&prog, NULL, 0, NULL, 0), 0);
	IS(bpfrt_prog_close(&prog), 0);
	IS(bpfrt_prog_open(&prog, exit_one, sizeof exit_one, 0, NULL, 0, &why), 0);
	IS(bpfrt_prog_ctx_len(&prog), 0);
	IS(bpfrt_prog_run_many(&prog, NULL, 0, values, 3), 0);
	IS(values[0] == 1 && values[1] == 1 && values[2] == 1, true);
	IS(bpfrt_prog_close(&prog), 0);
}

/* A null pointer with a length: what was in `why` before is gone. */
static void nulls(void)
{
	struct bpfrt_prog prog = {0};
	struct bpfrt_refusal other;
	memset(&why, 'x', sizeof why);
	IS(bpfrt_prog_open(&prog, NULL, 8, 0, NULL, 0, &why), -EINVAL);
	IS(why.code == 0 && why.place == BPFRT_NOWHERE && why.at == 0 && strlen(why.words) > 0 && strlen(why.words) < sizeof why.words, true);
	IS(bpfrt_prog_open(&prog, exit_one, sizeof exit_one, 0, NULL, 1, &why), -EINVAL);
	memset(&other, 'x', sizeof other);
	IS(bpfrt_prog_open_filter(&prog, NULL, 8, &other), -EINVAL);
	IS(other.code == 0 && !strcmp(other.words, why.words), true);
	IS(bpfrt_prog_open_policy(&prog, NULL, 8, NULL), -EINVAL);
	IS(bpfrt_prog_open_tcpdump(&prog, NULL, 8, &why), -EINVAL);
	IS(bpfrt_prog_open_file(&prog, NULL, 8, &why), -EINVAL);
	IS(is_closed(&prog), true);
}

/* A packet's context has zeros behind it, whatever packet the handle had before. */
static void packets_in_turn(void)
{
	static const unsigned char load[] = {0x71, 0x10, 30, 0, 0, 0, 0, 0, 0x95, 0, 0, 0, 0, 0, 0, 0};
	unsigned char packet[300];
	struct bpfrt_prog prog = {0};
	uint64_t value = 0;
	memset(packet, 7, sizeof packet);
	IS(bpfrt_prog_open(&prog, load, sizeof load, 256, NULL, 0, &why), 0);
	IS(bpfrt_prog_run_packet(&prog, packet, 300, 300, &value), 0);
	IS(value, 7);
	IS(bpfrt_prog_run_packet(&prog, packet, 22, 300, &value), 0);
	IS(value, 0);
	IS(bpfrt_prog_run_packet(&prog, packet, 23, 300, &value), 0);
	IS(value, 7);
	IS(bpfrt_prog_run_packet(&prog, NULL, 0, 0, &value), 0);
	IS(value, 0);
	IS(bpfrt_prog_close(&prog), 0);
}

/* A program that has a context of packets gives its byte `at`. */
static uint64_t byte_of(uint8_t at, uint8_t high, const void *packet, size_t captured, uint32_t length)
{
	const unsigned char load[] = {0x71, 0x10, at, high, 0, 0, 0, 0, 0x95, 0, 0, 0, 0, 0, 0, 0};
	struct bpfrt_prog prog = {0};
	uint64_t value = 0;
	IS(bpfrt_prog_open(&prog, load, sizeof load, 256, NULL, 0, &why), 0);
	IS(bpfrt_prog_run_packet(&prog, packet, captured, length, &value), 0);
	IS(bpfrt_prog_close(&prog), 0);
	return value;
}

static void packets(void)
{
	static unsigned char packet[300];
	for (int at = 0; at < 300; at++)
		packet[at] = (unsigned char)(at + 1);
	IS(byte_of(0, 0, packet, 247, 1000), 247);
	IS(byte_of(0, 0, packet, 300, 1000), 248);
	IS(byte_of(1, 0, packet, 300, 1000), 0);
	IS(byte_of(4, 0, packet, 300, 1000), 1000 & 255);
	IS(byte_of(7, 0, packet, 300, UINT32_MAX), 255);
	IS(byte_of(8, 0, packet, 300, 1000), 1);
	IS(byte_of(255, 0, packet, 300, 1000), 248);
	IS(byte_of(255, 0, packet, 247, 247), 0);
	IS(byte_of(8, 0, NULL, 0, 0), 0);
	IS(byte_of(0, 0, NULL, 0, 0), 0);
}

/* Packets that lie among bytes, of each of which the program gives the first. */
static void packets_in_bytes(void)
{
	static const unsigned char load[] = {0x71, 0x10, 8, 0, 0, 0, 0, 0, 0x95, 0, 0, 0, 0, 0, 0, 0};
	static const struct bpfrt_packet inside[] = {{0, 3, 3}, {3, 5, 9}, {8, 0, 0}, {0, 8, 8}, {7, 1, UINT32_MAX}, {2, 6, 0}};
	static const struct bpfrt_packet outside[] = {
		{9, 0, 0}, {8, 1, 1}, {0, 9, 9}, {1, 8, 8}, {1, UINT32_MAX, 1}, {UINT64_MAX, 0, 0}, {UINT64_MAX, 1, 1}, {UINT64_MAX - 3, 4, 4},
		{UINT64_MAX - 3, 8, 8}, {UINT64_MAX, UINT32_MAX, 1}, {(uint64_t)1 << 32, 0, 0}, {(uint64_t)1 << 63, 8, 8}};
	static const struct bpfrt_packet none = {0, 0, 7};
	struct bpfrt_prog prog = {0};
	uint64_t values[6] = {0};
	IS(bpfrt_prog_open(&prog, load, sizeof load, 256, NULL, 0, &why), 0);
	IS(bpfrt_prog_run_packets(&prog, "abcdefgh", 8, inside, values, 6), 0);
	IS(values[0] == 'a' && values[1] == 'd' && values[2] == 0 && values[3] == 'a' && values[4] == 'h' && values[5] == 'c', true);
	for (size_t number = 0; number < sizeof outside / sizeof *outside; number++) {
		const struct bpfrt_packet both[] = {inside[1], outside[number]};
		IS(bpfrt_prog_run_packets(&prog, "abcdefgh", 8, both, values, 2), -EINVAL);
	}
	IS(bpfrt_prog_run_packets(&prog, NULL, 8, inside, values, 6), -EINVAL);
	IS(bpfrt_prog_run_packets(&prog, "abcdefgh", 8, NULL, values, 6), -EINVAL);
	IS(bpfrt_prog_run_packets(&prog, "abcdefgh", 8, inside, NULL, 6), -EINVAL);
	IS(bpfrt_prog_run_packets(&prog, NULL, 0, inside, values, 1), -EINVAL);
	IS(bpfrt0_prog_run_packets(&prog, "abcdefgh", 8, inside, 6, values, 5), -EINVAL);
	IS(bpfrt0_prog_run_packets(&prog, "abcdefgh", 8, inside, 5, values, 6), -EINVAL);
	IS(values[0] == 'a' && values[1] == 'd' && values[5] == 'c', true);
	IS(bpfrt_prog_run_packets(&prog, "abcdefgh", 8, NULL, NULL, 0), 0);
	IS(bpfrt_prog_run_packets(&prog, NULL, 0, NULL, NULL, 0), 0);
	IS(bpfrt_prog_run_packets(&prog, NULL, 0, &none, values, 1), 0);
	IS(values[0] == 0 && values[1] == 'd', true);
	IS(bpfrt_prog_close(&prog), 0);
	IS(bpfrt_prog_open(&prog, exit_byte, sizeof exit_byte, 255, NULL, 0, &why), 0);
	IS(bpfrt_prog_run_packets(&prog, "abcdefgh", 8, inside, values, 6), -EINVAL);
	IS(bpfrt_prog_run_packets(&prog, NULL, 0, NULL, NULL, 0), -EINVAL);
	IS(bpfrt_prog_close(&prog), 0);
}

static void program_with_map(void)
{
	struct bpfrt_prog prog = {0}, other = {0};
	uint64_t value = 9;
	IS(bpfrt_prog_open(&prog, names_map, sizeof names_map, 256, &hash, 1, &why), 0);
	IS(bpfrt_prog_run(&prog, NULL, 0, &value), -EOPNOTSUPP);
	IS(bpfrt_prog_run_many(&prog, NULL, 0, NULL, 0), -EOPNOTSUPP);
	IS(bpfrt_prog_run_packet(&prog, "a", 1, 1, &value), -EOPNOTSUPP);
	IS(bpfrt_prog_run_packets(&prog, NULL, 0, NULL, NULL, 0), -EOPNOTSUPP);
	IS(bpfrt_prog_share(&other, &prog), 0);
	IS(bpfrt_prog_run(&other, NULL, 0, &value), -EOPNOTSUPP);
	IS(value, 9);
	IS(bpfrt_prog_close(&prog), 0);
	IS(bpfrt_prog_close(&other), 0);
	IS(bpfrt_prog_open(&prog, exit_one, sizeof exit_one, 0, &hash, 1, &why), 0);
	IS(bpfrt_prog_run(&prog, NULL, 0, &value), 0);
	IS(value, 1);
	IS(bpfrt_prog_close(&prog), 0);
}

int main(void)
{
	closed_handle();
	open_handle();
	no_programs();
	no_shapes();
	runs();
	nulls();
	packets_in_turn();
	packets();
	packets_in_bytes();
	program_with_map();
	judge_tables();
#ifdef WORLDS
	judge_worlds();
#endif
	printf("%ld answers agree, %ld do not\n", right, wrong);
	return wrong != 0;
}
