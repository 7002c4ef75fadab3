// Gives a million messages a run to spdlog's bare formatter and ostream sink, or with the path of a folder to its file sinks,
// whose files are in the folders memory, rotating and daily there: what `bench sink` of crates/bench does by alog_sink.
#include <algorithm>
#include <chrono>
#include <cstdio>
#include <filesystem>
#include <functional>
#include <memory>
#include <sstream>
#include <string>
#include <vector>

#include <spdlog/details/log_msg.h>
#include <spdlog/pattern_formatter.h>
#include <spdlog/sinks/basic_file_sink.h>
#include <spdlog/sinks/daily_file_sink.h>
#include <spdlog/sinks/ostream_sink.h>
#include <spdlog/sinks/rotating_file_sink.h>

namespace {

using Clock = std::chrono::steady_clock;
using std::chrono::nanoseconds;

constexpr int count = 1000000;
constexpr int runs = 7;
constexpr nanoseconds start{1700000000000000000};
constexpr nanoseconds step{1000};
const std::string logger = "server";
const std::string text = "request 123 of client 12 served by worker 3 in 861 microseconds";

std::unique_ptr<spdlog::formatter> formatter() {
    return std::make_unique<spdlog::pattern_formatter>("[%Y-%m-%d %H:%M:%S.%e] [%n] [%l] %v",
                                                       spdlog::pattern_time_type::utc, "\n");
}

// This is what is timed.
template <typename Give, typename Flush> double nanos_a_message(Give give, Flush flush) {
    spdlog::details::log_msg message(spdlog::source_loc{}, logger, spdlog::level::info, text);
    nanoseconds time = start;
    auto began = Clock::now();
    for (int i = 0; i < count; i++) {
        message.time = spdlog::log_clock::time_point(std::chrono::duration_cast<spdlog::log_clock::duration>(time));
        time += step;
        give(message);
    }
    flush();
    return std::chrono::duration<double, std::nano>(Clock::now() - began).count() / count;
}

double bare() {
    auto lines = formatter();
    spdlog::memory_buf_t line;
    return nanos_a_message(
        [&](const spdlog::details::log_msg &message) {
            line.clear();
            lines->format(message, line);
        },
        [] {});
}

double given_to(spdlog::sinks::sink &sink) {
    sink.set_formatter(formatter());
    return nanos_a_message([&](const spdlog::details::log_msg &message) { sink.log(message); }, [&] { sink.flush(); });
}

double ostream() {
    std::ostringstream out;
    spdlog::sinks::ostream_sink_st sink(out);
    return given_to(sink);
}

// A folder without the files of earlier runs.
std::string emptied(const std::filesystem::path &folder) {
    std::filesystem::remove_all(folder);
    std::filesystem::create_directory(folder);
    return folder / "log.txt";
}

double basic(const std::filesystem::path &folder) {
    spdlog::sinks::basic_file_sink_st sink(emptied(folder));
    return given_to(sink);
}

double rotating(const std::filesystem::path &folder) {
    spdlog::sinks::rotating_file_sink_st sink(emptied(folder), 1 << 20, 3);
    return given_to(sink);
}

double daily(const std::filesystem::path &folder) {
    spdlog::sinks::daily_file_sink_st sink(emptied(folder), 0, 0, false, 3);
    return given_to(sink);
}

void measure(const char *name, const std::function<double()> &run) {
    std::vector<double> times;
    for (int i = 0; i < runs; i++) {
        times.push_back(run());
    }
    std::sort(times.begin(), times.end());
    std::printf("spdlog %s  best %6.1f ns  middle %6.1f ns\n", name, times.front(), times[times.size() / 2]);
}

}

int main(int argc, char **argv) {
    if (argc < 2) {
        measure("bare     ", bare);
        measure("ostream  ", ostream);
        return 0;
    }
    const std::filesystem::path folder = argv[1];
    measure("basic    ", [&] { return basic(folder / "memory"); });
    measure("rotating ", [&] { return rotating(folder / "rotating"); });
    measure("daily    ", [&] { return daily(folder / "daily"); });
}
