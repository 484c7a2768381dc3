/* What translated filters cost beside libpcap, in processor time: filters_speed EXPRESSIONS CAPTURE COUNT [NUMBER..]
   EXPRESSIONS has one on each line. CAPTURE is of this machine's order, for Ethernet; its first COUNT packets are a sample's. The
   kernel is asked for the expressions of these numbers, from 0. checks/filters_speed builds it, runs it, and reads its lines. */
#define _GNU_SOURCE
#include <bpfrt.h>
#include <errno.h>
#include <pcap/pcap.h>
#include <stdbool.h>
#include <stdio.h>
#include <stdlib.h>
#include <string.h>
#include <sys/socket.h>
#include <time.h>

enum { SEEN = 248, SNAPSHOT = 1 << 18, SET = 1024, ROUNDS = 12, LEAST = 1000000, LONGEST = 1 << 24, MOST = 8192, ROWS = 256, WAYS = 3 };
/* MIXED has those of the three kinds before it, in disorder. SAMPLE has the sample's in their order, for one expression alone. */
enum kind { PASSING, STOPPED, CUT, MIXED, SAMPLE, KINDS };
static const char *const names[KINDS] = {"passing", "stopped", "cut", "mixed", "sample"};

/* Packets that are judged one behind another; where there are fewer than SET, again and again. */
struct set {
	struct bpfrt_packet places[SET];
	int distinct, passing;
	long passes[WAYS];
	double best[WAYS];
};

struct row {
	const char *expression;
	struct bpf_program classic;
	struct bpfrt_prog prog;
	struct set sets[KINDS];
};

static unsigned char bytes[LONGEST];
static size_t size;
static struct bpfrt_packet places[MOST];
static uint64_t rights[MOST], values[MOST];
static int nr_packets, nr_sample, nr_rows;
static struct row *rows[ROWS];
static volatile uint64_t sink;

static void fail(const char *what, const char *of)
{
	fprintf(stderr, "filters_speed: %s: %s\n", what, of);
	exit(1);
}

static double now(void)
{
	struct timespec time;
	clock_gettime(CLOCK_THREAD_CPUTIME_ID, &time);
	return (double)time.tv_sec * 1e9 + (double)time.tv_nsec;
}

static size_t read_file(const char *path, unsigned char *to, size_t room)
{
	FILE *file = fopen(path, "rb");
	size_t got = file ? fread(to, 1, room, file) : 0;
	if (!got || got == room)
		fail("cannot be read, or is too long", path);
	fclose(file);
	return got;
}

/* The packets stay where they lie in the capture. */
static void read_packets(const char *path)
{
	size = read_file(path, bytes, sizeof bytes);
	for (size_t at = 24; at + 16 <= size; nr_packets++) {
		struct bpfrt_packet packet = {.at = at + 16};
		memcpy(&packet.caplen, bytes + at + 8, 4);
		memcpy(&packet.len, bytes + at + 12, 4);
		if (nr_packets == MOST || packet.caplen > size - packet.at)
			fail("has too many packets, or ends inside one", path);
		places[nr_packets] = packet;
		at = packet.at + packet.caplen;
	}
}

/* What libpcap says of a packet, of which no filter sees more than the first 248 bytes. */
static uint64_t judged(const struct row *row, const struct bpfrt_packet *packet)
{
	uint32_t seen = packet->caplen < SEEN ? packet->caplen : SEEN;
	return bpf_filter(row->classic.bf_insns, bytes + packet->at, packet->len, seen);
}

static void open_row(pcap_t *link, const char *expression)
{
	struct bpfrt_refusal why = {0};
	struct row *row = calloc(1, sizeof *row);
	if (!row || nr_rows == ROWS)
		fail("there is no room", expression);
	row->expression = expression;
	if (pcap_compile(link, &row->classic, expression, 1, 0))
		fail(pcap_geterr(link), expression);
	if (bpfrt_prog_open_filter(&row->prog, row->classic.bf_insns, row->classic.bf_len * sizeof *row->classic.bf_insns, &why))
		fail(why.words, expression);
	rows[nr_rows++] = row;
}

static void open_rows(const char *path)
{
	static char text[1 << 16];
	pcap_t *link = pcap_open_dead(DLT_EN10MB, SNAPSHOT);
	text[read_file(path, (unsigned char *)text, sizeof text - 1)] = 0;
	if (!link)
		fail("libpcap has no memory", path);
	for (char *line = strtok(text, "\n"); line; line = strtok(NULL, "\n"))
		open_row(link, line);
	pcap_close(link);
}

/* The same verdicts by all three, on all packets. */
static void compare(struct row *row)
{
	uint64_t value;
	if (bpfrt_prog_run_packets(&row->prog, bytes, size, places, values, (size_t)nr_packets))
		fail("does not run", row->expression);
	for (int number = 0; number < nr_packets; number++) {
		const struct bpfrt_packet *packet = &places[number];
		rights[number] = judged(row, packet);
		if (bpfrt_prog_run_packet(&row->prog, bytes + packet->at, packet->caplen, packet->len, &value))
			fail("does not run", row->expression);
		if (value != rights[number] || values[number] != rights[number]) {
			fprintf(stderr, "filters_speed: packet %d: libpcap says %llu, a call %llu, a call for all %llu\n", number,
				(unsigned long long)rights[number], (unsigned long long)value, (unsigned long long)values[number]);
			fail("does not agree", row->expression);
		}
	}
}

/* The kind of a packet; of a longer cut, none. */
static enum kind kind_of(const struct bpfrt_packet *packet, uint64_t verdict)
{
	if (packet->caplen < packet->len && packet->caplen < SEEN)
		return packet->caplen >= 14 && packet->caplen <= 40 ? CUT : KINDS;
	return verdict ? PASSING : STOPPED;
}

static void put(struct set *set, const struct bpfrt_packet *packet, uint64_t verdict)
{
	if (set->distinct < SET) {
		set->places[set->distinct++] = *packet;
		set->passing += verdict != 0;
	}
}

static void repeat(struct set *set)
{
	for (int number = set->distinct; set->distinct && number < SET; number++)
		set->places[number] = set->places[number - set->distinct];
}

/* As many of each kind that there is, the kinds as chance has them. */
static void mix(struct row *row)
{
	uint32_t chance = 1;
	for (int number = 0; number < SET; number++) {
		enum kind kind;
		do {
			chance ^= chance << 13;
			chance ^= chance >> 17;
			chance ^= chance << 5;
			kind = chance % MIXED;
		} while (!row->sets[kind].distinct);
		const struct bpfrt_packet *packet = &row->sets[kind].places[number];
		put(&row->sets[MIXED], packet, judged(row, packet));
	}
}

static void fill(struct row *row)
{
	for (int number = 0; number < nr_packets; number++) {
		enum kind kind = kind_of(&places[number], rights[number]);
		if (kind != KINDS)
			put(&row->sets[kind], &places[number], rights[number]);
		if (number < nr_sample && strcmp(row->expression, "udp port 53") == 0)
			put(&row->sets[SAMPLE], &places[number], rights[number]);
	}
	for (enum kind kind = PASSING; kind < KINDS; kind++)
		repeat(&row->sets[kind]);
	mix(row);
}

static void by_libpcap(struct row *row, const struct set *set)
{
	for (int number = 0; number < SET; number++)
		sink += judged(row, &set->places[number]);
}

static void by_each_packet(struct row *row, const struct set *set)
{
	uint64_t value;
	for (int number = 0; number < SET; number++) {
		const struct bpfrt_packet *packet = &set->places[number];
		if (bpfrt_prog_run_packet(&row->prog, bytes + packet->at, packet->caplen, packet->len, &value))
			fail("does not run", row->expression);
		sink += value;
	}
}

static void by_all_packets(struct row *row, const struct set *set)
{
	if (bpfrt_prog_run_packets(&row->prog, bytes, size, set->places, values, SET))
		fail("does not run", row->expression);
	sink += values[SET - 1];
}

static void (*const ways[WAYS])(struct row *, const struct set *) = {by_libpcap, by_each_packet, by_all_packets};

/* Times one way on one set, behind a pass that is not counted. The first time finds how many passes are long enough. */
static void measure(struct row *row, struct set *set, int way)
{
	double took;
	bool is_long;
	ways[way](row, set);
	do {
		long passes = set->passes[way] ? set->passes[way] : 1;
		double start = now();
		for (long pass = 0; pass < passes; pass++)
			ways[way](row, set);
		took = now() - start;
		is_long = set->best[way] != 0 || took >= LEAST;
		set->passes[way] = is_long ? passes : 2 * passes;
	} while (!is_long);
	double cost = took / ((double)set->passes[way] * SET);
	if (set->best[way] == 0 || cost < set->best[way])
		set->best[way] = cost;
}

/* Each round goes through all, so that what disturbs it meets no expression alone. */
static void measure_all(void)
{
	for (int round = 0; round < ROUNDS; round++)
		for (int number = 0; number < nr_rows; number++)
			for (enum kind kind = PASSING; kind < KINDS; kind++)
				for (int way = 0; way < WAYS && rows[number]->sets[kind].distinct; way++)
					measure(rows[number], &rows[number]->sets[kind], way);
}

static void print_row(int number)
{
	const struct row *row = rows[number];
	printf("program\t%d\t", number);
	for (size_t at = 0; at < row->classic.bf_len * sizeof *row->classic.bf_insns; at++)
		printf("%02x", ((const unsigned char *)row->classic.bf_insns)[at]);
	printf("\n");
	for (enum kind kind = PASSING; kind < KINDS; kind++) {
		const struct set *set = &row->sets[kind];
		if (set->distinct)
			printf("cost\t%d\t%s\t%d\t%d\t%.3f\t%.3f\t%.3f\n", number, names[kind], set->distinct, set->passing, set->best[0],
			       set->best[1], set->best[2]);
	}
}

/* Gives a socket a filter, in place of the one that it has. */
static bool attach(int to, const struct bpf_program *classic)
{
	const struct {
		unsigned short len;
		const void *filter;
	} given = {(unsigned short)classic->bf_len, classic->bf_insns};
	return setsockopt(to, SOL_SOCKET, SO_ATTACH_FILTER, &given, sizeof given) == 0;
}

/* Sends a packet, and tells whether it comes out. */
static bool comes_through(const int *ends, const struct bpfrt_packet *packet)
{
	unsigned char room[SEEN];
	if (send(ends[0], bytes + packet->at, packet->caplen, 0) != packet->caplen)
		fail("send", strerror(errno));
	return recv(ends[1], room, sizeof room, MSG_DONTWAIT) >= 0;
}

/* What a packet costs; each is sent, and received only where it passes. */
static double cost_of_sending(const int *ends, const struct bpfrt_packet *sent, int count, bool passes)
{
	unsigned char room[SEEN];
	double start = now();
	for (int number = 0; number < SET; number++) {
		const struct bpfrt_packet *packet = &sent[number % count];
		sink += (uint64_t)send(ends[0], bytes + packet->at, packet->caplen, 0);
		if (passes)
			sink += (uint64_t)recv(ends[1], room, sizeof room, 0);
	}
	return (now() - start) / SET;
}

/* Packets that are there with all their bytes: to the kernel a packet is as long as what is sent. */
static int whole_ones(const struct set *set, struct bpfrt_packet *whole)
{
	int count = 0;
	for (int number = 0; number < set->distinct; number++)
		if (set->places[number].caplen == set->places[number].len && set->places[number].len > 0 && set->places[number].len <= SEEN)
			whole[count++] = set->places[number];
	return count;
}

static int by_size(const void *one, const void *other)
{
	double a = *(const double *)one, b = *(const double *)other;
	return (a > b) - (a < b);
}

static double median(double *costs, int count)
{
	qsort(costs, (size_t)count, sizeof *costs, by_size);
	return costs[count / 2];
}

/* What a filter costs in the kernel beyond one that only returns; and what that one costs beyond itself, which tells how coarse the
   other number is. Both are medians of differences of neighbours: a send costs far more than a filter, and no two cost the same. */
static void ask_kernel(const int *ends, int number, enum kind kind)
{
	enum { TRIES = 16 * ROUNDS };
	static struct bpfrt_packet whole[SET];
	struct bpf_insn one = {BPF_RET | BPF_K, 0, 0, kind == PASSING ? 65535 : 0};
	const struct bpf_program returns = {1, &one}, *const filters[3] = {&returns, &rows[number]->classic, &returns};
	int count = whole_ones(&rows[number]->sets[kind], whole);
	double costs[3], beyond[TRIES], apart[TRIES];
	if (count == 0)
		return;
	if (!attach(ends[1], filters[1])) {
		printf("refused\t%s\n", strerror(errno));
		return;
	}
	for (int at = 0; at < count; at++)
		if (comes_through(ends, &whole[at]) != (kind == PASSING))
			fail("the kernel judges otherwise", rows[number]->expression);
	for (int at = 0; at < TRIES; at++) {
		for (int way = 0; way < 3; way++) {
			if (!attach(ends[1], filters[way]))
				fail("a filter is not attached", strerror(errno));
			costs[way] = cost_of_sending(ends, whole, count, kind == PASSING);
		}
		beyond[at] = costs[1] - (costs[0] + costs[2]) / 2;
		apart[at] = costs[2] - costs[0];
	}
	printf("kernel\t%d\t%s\t%.3f\t%.3f\n", number, names[kind], median(beyond, TRIES), median(apart, TRIES));
}

int main(int argc, char **argv)
{
	int ends[2];
	if (argc < 4)
		fail("usage", "filters_speed EXPRESSIONS CAPTURE COUNT [NUMBER..]");
	open_rows(argv[1]);
	read_packets(argv[2]);
	nr_sample = atoi(argv[3]);
	for (int number = 0; number < nr_rows; number++) {
		compare(rows[number]);
		fill(rows[number]);
	}
	measure_all();
	for (int number = 0; number < nr_rows; number++)
		print_row(number);
	if (argc > 4 && socketpair(AF_UNIX, SOCK_DGRAM, 0, ends))
		fail("socketpair", strerror(errno));
	for (int at = 4; at < argc; at++)
		for (enum kind kind = PASSING; kind <= STOPPED && atoi(argv[at]) < nr_rows; kind++)
			ask_kernel(ends, atoi(argv[at]), kind);
	for (int number = 0; number < nr_rows; number++) {
		bpfrt_prog_close(&rows[number]->prog);
		pcap_freecode(&rows[number]->classic);
		free(rows[number]);
	}
	return 0;
}
