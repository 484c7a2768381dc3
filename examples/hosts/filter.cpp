// Counts the packets of a capture that pass a filter: filter FILTER CAPTURE
//
// FILTER is what `tcpdump -ddd` wrote. CAPTURE is a pcap file of this machine's byte order.
#include <bpfrt.h>

#include <cstdio>
#include <cstring>
#include <exception>
#include <fstream>
#include <iterator>
#include <memory>
#include <stdexcept>
#include <string>

// A program that was verified. It can be moved, and not be copied: `share` makes another, for another thread.
class Program {
public:
	static Program of_tcpdump(const std::string &text)
	{
		Program made;
		bpfrt_refusal why{};
		if (bpfrt_prog_open_tcpdump(made.handle.get(), text.data(), text.size(), &why))
			throw std::invalid_argument("refused " + std::to_string(why.code) + ": " + why.words);
		return made;
	}

	Program share()
	{
		Program made;
		checked(bpfrt_prog_share(made.handle.get(), handle.get()));
		return made;
	}

	std::uint64_t run_packet(const char *packet, std::size_t captured, std::uint32_t length)
	{
		std::uint64_t value;
		checked(bpfrt_prog_run_packet(handle.get(), packet, captured, length, &value));
		return value;
	}

private:
	struct Close {
		void operator()(bpfrt_prog *prog) const
		{
			bpfrt_prog_close(prog);
			delete prog;
		}
	};

	static void checked(std::int32_t status)
	{
		if (status)
			throw std::runtime_error("the call answers " + std::to_string(status));
	}

	std::unique_ptr<bpfrt_prog, Close> handle{new bpfrt_prog()};
};

static std::string read_all(const char *path)
{
	std::ifstream file(path, std::ios::binary);
	std::string text{std::istreambuf_iterator<char>(file), {}};
	if (!file)
		throw std::runtime_error(std::string(path) + " cannot be read");
	return text;
}

static void count_passing(Program &filter, const std::string &capture)
{
	unsigned long passed = 0, count = 0;
	std::uint32_t magic = 0, lengths[2];
	if (capture.size() >= 24)
		std::memcpy(&magic, capture.data(), sizeof magic);
	if (magic != 0xa1b2c3d4 && magic != 0xa1b23c4d)
		throw std::runtime_error("the capture is no pcap file of this machine's byte order");
	for (std::size_t at = 24; at < capture.size(); at += std::size_t{16} + lengths[0], count++) {
		if (capture.size() - at < 16)
			throw std::runtime_error("the capture ends inside a packet's head");
		std::memcpy(lengths, capture.data() + at + 8, sizeof lengths);
		if (capture.size() - at - 16 < lengths[0])
			throw std::runtime_error("the capture ends inside a packet");
		passed += filter.run_packet(capture.data() + at + 16, lengths[0], lengths[1]) != 0;
	}
	std::printf("%lu of %lu packets passed\n", passed, count);
}

int main(int argc, char **argv)
{
	if (argc != 3) {
		std::fputs("usage: filter FILTER CAPTURE\n", stderr);
		return 2;
	}
	try {
		Program filter = Program::of_tcpdump(read_all(argv[1]));
		Program other = filter.share();
		filter = std::move(other);
		count_passing(filter, read_all(argv[2]));
	} catch (const std::exception &error) {
		std::fprintf(stderr, "filter: %s\n", error.what());
		return 1;
	}
	return 0;
}
