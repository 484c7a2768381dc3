/* Eight threads judge the same packets by one filter, each by a handle of its own: threads FILTER, which `tcpdump -ddd` wrote */
#include <bpfrt.h>
#include <pthread.h>
#include <stdio.h>
#include <stdlib.h>
#include <string.h>

enum { THREADS = 8, PACKETS = 4096, SIZE = 100, LONGEST_FILTER = 1 << 18 };

struct judge {
	struct bpfrt_prog filter;
	uint64_t verdicts[PACKETS];
	int32_t status;
};

static unsigned char packets[PACKETS][SIZE];
static struct judge judges[THREADS];

static void fail(const char *what)
{
	fprintf(stderr, "threads: %s\n", what);
	exit(1);
}

static void open_filter(const char *path)
{
	static char text[LONGEST_FILTER];
	struct bpfrt_refusal why = {0};
	FILE *file = fopen(path, "rb");
	size_t size = file ? fread(text, 1, sizeof text, file) : 0;
	if (!file || ferror(file))
		fail("the filter cannot be read");
	fclose(file);
	if (bpfrt_prog_open_tcpdump(&judges[0].filter, text, size, &why))
		fail(why.words);
}

/* Packets of UDP, some of them to port 53. */
static void make_packets(void)
{
	for (int number = 0; number < PACKETS; number++) {
		unsigned char *packet = packets[number];
		packet[12] = 8;
		packet[14] = 0x45;
		packet[23] = 17;
		packet[37] = number % 3 ? 80 : 53;
	}
}

static void *run(void *data)
{
	struct judge *judge = data;
	for (int number = 0; number < PACKETS && !judge->status; number++)
		judge->status = bpfrt_prog_run_packet(&judge->filter, packets[number], SIZE, SIZE, &judge->verdicts[number]);
	if (!judge->status)
		judge->status = bpfrt_prog_close(&judge->filter);
	return NULL;
}

int main(int argc, char **argv)
{
	pthread_t threads[THREADS];
	int passed = 0;
	if (argc != 2)
		fail("usage: threads FILTER");
	open_filter(argv[1]);
	make_packets();
	for (int number = 1; number < THREADS; number++)
		if (bpfrt_prog_share(&judges[number].filter, &judges[0].filter))
			fail("the filter is not shared");
	for (int number = 0; number < THREADS; number++)
		if (pthread_create(&threads[number], NULL, run, &judges[number]))
			fail("no thread is started");
	for (int number = 0; number < THREADS; number++) {
		pthread_join(threads[number], NULL);
		if (judges[number].status || memcmp(judges[0].verdicts, judges[number].verdicts, sizeof judges[0].verdicts))
			fail("a thread says something else");
	}
	for (int number = 0; number < PACKETS; number++)
		passed += judges[0].verdicts[number] != 0;
	printf("%d threads: %d of %d packets passed\n", THREADS, passed, PACKETS);
	return 0;
}
