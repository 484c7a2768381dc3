/* Writes the packets that pass a filter to standard output, as they come: live_filter INTERFACE EXPRESSION
   or of a capture: live_filter -r FILE EXPRESSION

   libpcap compiles the expression, and hands over each packet; the library judges it. `| tcpdump -r -` shows them. */
#define _DEFAULT_SOURCE
#include <bpfrt.h>
#include <pcap/pcap.h>
#include <signal.h>
#include <stdio.h>
#include <stdlib.h>
#include <string.h>

static pcap_t *source;

struct filtered {
	struct bpfrt_prog filter;
	pcap_dumper_t *out;
};

static void fail(const char *what)
{
	fprintf(stderr, "live_filter: %s\n", what);
	exit(1);
}

static void end(int number)
{
	(void)number;
	pcap_breakloop(source);
}

/* The expression is compiled for what a packet is on this link, and not for what the kernel knows of it besides. */
static void open_filter(struct bpfrt_prog *filter, const char *expression)
{
	struct bpf_program program;
	struct bpfrt_refusal why = {0};
	pcap_t *link = pcap_open_dead(pcap_datalink(source), 1 << 18);
	if (!link || pcap_compile(link, &program, expression, 1, PCAP_NETMASK_UNKNOWN))
		fail(link ? pcap_geterr(link) : "memory ran out");
	int32_t status = bpfrt_prog_open_filter(filter, program.bf_insns, program.bf_len * sizeof *program.bf_insns, &why);
	pcap_freecode(&program);
	pcap_close(link);
	if (status)
		fail(why.words);
}

static void judge(u_char *data, const struct pcap_pkthdr *head, const u_char *packet)
{
	struct filtered *all = (void *)data;
	uint64_t verdict;
	if (bpfrt_prog_run_packet(&all->filter, packet, head->caplen, head->len, &verdict))
		fail("the filter does not run");
	if (verdict) {
		pcap_dump((u_char *)all->out, head, packet);
		if (pcap_dump_flush(all->out))
			fail("standard output cannot be written");
	}
}

int main(int argc, char **argv)
{
	char error[PCAP_ERRBUF_SIZE] = "";
	struct filtered all = {.out = NULL};
	int is_file = argc == 4 && strcmp(argv[1], "-r") == 0;
	if (argc != 3 && !is_file) {
		fputs("usage: live_filter INTERFACE EXPRESSION, or live_filter -r FILE EXPRESSION\n", stderr);
		return 2;
	}
	source = is_file ? pcap_open_offline(argv[2], error) : pcap_open_live(argv[1], 1 << 18, 1, 100, error);
	if (!source)
		fail(error);
	open_filter(&all.filter, argv[argc - 1]);
	if (!(all.out = pcap_dump_fopen(source, stdout)))
		fail(pcap_geterr(source));
	signal(SIGINT, end);
	signal(SIGTERM, end);
	if (pcap_loop(source, -1, judge, (u_char *)&all) == PCAP_ERROR)
		fail(pcap_geterr(source));
	pcap_dump_close(all.out);
	pcap_close(source);
	bpfrt_prog_close(&all.filter);
	return 0;
}
