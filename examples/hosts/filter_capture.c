/* Writes the packets of a capture that a filter lets pass: filter_capture FILTER IN OUT

   FILTER is what `tcpdump -ddd` wrote, for the link type of the capture. IN is a file in the pcap format, of either byte order and
   with microseconds or nanoseconds. OUT becomes one, and is another file than IN. */
#define _POSIX_C_SOURCE 200809L
#include <bpfrt.h>
#include <stdbool.h>
#include <stdio.h>
#include <stdlib.h>
#include <string.h>
#include <sys/stat.h>

enum { LONGEST_FILTER = 1 << 18, LONGEST_PACKET = 1 << 18, HEAD = 24, RECORD = 16 };

static void fail(const char *subject, const char *what)
{
	fprintf(stderr, "filter_capture: %s %s\n", subject, what);
	exit(1);
}

static FILE *opened(const char *path, const char *mode)
{
	FILE *file = fopen(path, mode);
	if (!file)
		fail(path, "cannot be opened");
	return file;
}

static void open_filter(struct bpfrt_prog *filter, const char *path)
{
	static char text[LONGEST_FILTER];
	struct bpfrt_refusal why = {0};
	FILE *file = opened(path, "rb");
	size_t size = fread(text, 1, sizeof text, file);
	if (ferror(file) || size == sizeof text)
		fail(path, "cannot be read, or is too long");
	fclose(file);
	if (bpfrt_prog_open_tcpdump(filter, text, size, &why)) {
		fprintf(stderr, "filter_capture: refused %u\n", why.code);
		fail(path, why.words);
	}
}

/* Whether the numbers of a capture have the high byte first. */
static bool is_big_endian(const unsigned char *head)
{
	static const unsigned char magics[4][4] = {
		{0xd4, 0xc3, 0xb2, 0xa1}, {0x4d, 0x3c, 0xb2, 0xa1}, {0xa1, 0xb2, 0xc3, 0xd4}, {0xa1, 0xb2, 0x3c, 0x4d}};
	for (int number = 0; number < 4; number++)
		if (memcmp(head, magics[number], 4) == 0)
			return number >= 2;
	fail("IN", "is no file in the pcap format");
	return false;
}

static uint32_t number_at(const unsigned char *at, bool big)
{
	return big ? (uint32_t)at[0] << 24 | at[1] << 16 | at[2] << 8 | at[3] : (uint32_t)at[3] << 24 | at[2] << 16 | at[1] << 8 | at[0];
}

static void write_all(const unsigned char *bytes, size_t size, FILE *out)
{
	if (fwrite(bytes, 1, size, out) != size)
		fail("OUT", "cannot be written");
}

/* The next record of a capture, its head and its packet: how long the packet is, or -1 at the end. */
static long next_record(unsigned char *record, bool big, FILE *in)
{
	size_t got = fread(record, 1, RECORD, in);
	if (got == 0 && !ferror(in))
		return -1;
	uint32_t captured = got == RECORD ? number_at(record + 8, big) : 0;
	if (captured > LONGEST_PACKET)
		fail("IN", "has a packet that is longer than any");
	if (got < RECORD || fread(record + RECORD, 1, captured, in) != captured)
		fail("IN", "ends inside a packet, or cannot be read");
	return captured;
}

static void copy_passing(struct bpfrt_prog *filter, FILE *in, FILE *out)
{
	static unsigned char record[RECORD + LONGEST_PACKET], head[HEAD];
	unsigned long passed = 0, count = 0;
	long captured;
	if (fread(head, 1, HEAD, in) != HEAD)
		fail("IN", "is no file in the pcap format");
	bool big = is_big_endian(head);
	write_all(head, HEAD, out);
	for (; (captured = next_record(record, big, in)) >= 0; count++) {
		uint64_t verdict;
		if (bpfrt_prog_run_packet(filter, record + RECORD, captured, number_at(record + 12, big), &verdict))
			fail("the filter", "does not run");
		if (verdict == 0)
			continue;
		write_all(record, RECORD + captured, out);
		passed++;
	}
	fprintf(stderr, "%lu of %lu packets passed\n", passed, count);
}

static bool is_one_file(FILE *in, const char *out)
{
	struct stat of_in, of_out;
	return fstat(fileno(in), &of_in) == 0 && stat(out, &of_out) == 0 && S_ISREG(of_in.st_mode)
	       && of_in.st_dev == of_out.st_dev && of_in.st_ino == of_out.st_ino;
}

int main(int argc, char **argv)
{
	struct bpfrt_prog filter = {0};
	if (argc != 4) {
		fputs("usage: filter_capture FILTER IN OUT\n", stderr);
		return 2;
	}
	open_filter(&filter, argv[1]);
	FILE *in = opened(argv[2], "rb");
	if (is_one_file(in, argv[3]))
		fail("OUT", "is the same file as IN");
	FILE *out = opened(argv[3], "wb");
	copy_passing(&filter, in, out);
	bpfrt_prog_close(&filter);
	fclose(in);
	if (fclose(out))
		fail("OUT", "cannot be written");
	return 0;
}
