// Formats a million messages a run by spdlog's pattern_formatter: what `bench format` of crates/bench does by alog_format::format.
#include <algorithm>
#include <chrono>
#include <cstdint>
#include <cstdio>
#include <memory>
#include <string>
#include <vector>

#include <spdlog/details/log_msg.h>
#include <spdlog/pattern_formatter.h>

namespace {

using Clock = std::chrono::steady_clock;
using std::chrono::nanoseconds;

constexpr int count = 1000;
constexpr int rounds = 1000;
constexpr int runs = 7;
constexpr nanoseconds start{1700000000000000000};
const std::string logger = "server";

struct Case {
    const char *name;
    bool is_long;
    nanoseconds step;
};

const Case cases[] = {
    {" 64 bytes 1 us", false, nanoseconds(1000)},
    {"200 bytes 1 us", true, nanoseconds(1000)},
    {" 64 bytes 1 s ", false, nanoseconds(1000000000)},
    {"200 bytes 1 s ", true, nanoseconds(1000000000)},
};

std::string text_of(bool is_long, int number) {
    std::string one = fmt::format("request {} of client {} served by worker {} in {} microseconds", number, number % 37,
                                  number % 8, number * 7 % 5003);
    return is_long ? one + "; " + one + "; " + one : one;
}

struct Bench {
    std::vector<std::string> texts;
    std::vector<spdlog::details::log_msg> messages;
    std::unique_ptr<spdlog::formatter> formatter;
    spdlog::memory_buf_t line;
    nanoseconds step;

    explicit Bench(const Case &c) : step(c.step) {
        for (int i = 0; i < count; i++) {
            texts.push_back(text_of(c.is_long, i));
        }
        for (int i = 0; i < count; i++) {
            auto level = static_cast<spdlog::level::level_enum>(i % 6);
            messages.emplace_back(spdlog::source_loc{}, logger, level, texts[i]);
        }
        formatter = std::make_unique<spdlog::pattern_formatter>("[%Y-%m-%d %H:%M:%S.%e] [%n] [%l] %v",
                                                                spdlog::pattern_time_type::utc, "\n");
    }

    void write_line(spdlog::details::log_msg &message, nanoseconds time) {
        message.time = spdlog::log_clock::time_point(std::chrono::duration_cast<spdlog::log_clock::duration>(time));
        line.clear();
        formatter->format(message, line);
    }

    // This is what is timed.
    uint64_t write_lines() {
        uint64_t bytes = 0;
        nanoseconds time = start;
        for (int round = 0; round < rounds; round++) {
            for (auto &message : messages) {
                write_line(message, time);
                time += step;
                bytes += line.size();
            }
        }
        return bytes;
    }

    // A number of all bytes of the lines of one round.
    uint64_t checksum() {
        uint64_t sum = 0;
        nanoseconds time = start;
        for (auto &message : messages) {
            write_line(message, time);
            time += step;
            for (char byte : line) {
                sum = sum * 31 + static_cast<unsigned char>(byte);
            }
        }
        return sum;
    }
};

double nanos_a_line(nanoseconds time) {
    return static_cast<double>(time.count()) / (double(count) * rounds);
}

double speed(nanoseconds time, uint64_t bytes) {
    return static_cast<double>(bytes) * 1e3 / static_cast<double>(time.count());
}

bool measure_case(const Case &c) {
    Bench bench(c);
    std::vector<nanoseconds> times;
    uint64_t wanted = bench.write_lines();
    for (int run = 0; run < runs; run++) {
        auto begin = Clock::now();
        uint64_t bytes = bench.write_lines();
        times.push_back(Clock::now() - begin);
        if (bytes != wanted) {
            return false;
        }
    }
    std::sort(times.begin(), times.end());
    nanoseconds best = times.front(), middle = times[runs / 2];
    std::printf("spdlog %s  best %6.1f ns %5.0f MB/s  middle %6.1f ns %5.0f MB/s  sum %20llu\n", c.name,
                nanos_a_line(best), speed(best, wanted), nanos_a_line(middle), speed(middle, wanted),
                static_cast<unsigned long long>(bench.checksum()));
    std::fflush(stdout);
    return true;
}

} // namespace

int main() {
    for (const Case &c : cases) {
        if (!measure_case(c)) {
            std::fputs("two runs differ\n", stderr);
            return 1;
        }
    }
}
