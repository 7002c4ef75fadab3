// One program that logs, from one or more threads, by spdlog's calls through spdlog's own asynchronous logger, through alog's sink, or, by `none`,
// to a sink that drops what it gets; or, by `fmt`, by alog's logger over fmt:
//   c spdlog|alog|none|fmt FOLDER THREADS rate     how many messages go in a second, from the first log to the last line in the file
//   c spdlog|alog|none|fmt FOLDER THREADS times    the 50th, 99th and 99.9th percentile of the nanoseconds that one log takes
#include "alog_fmt.h"
#include "alog_spdlog.h"

#include <algorithm>
#include <chrono>
#include <cstdint>
#include <cstdio>
#include <memory>
#include <stdexcept>
#include <string>
#include <thread>
#include <vector>

#include <spdlog/async.h>
#include <spdlog/sinks/basic_file_sink.h>
#include <spdlog/sinks/null_sink.h>
#include <spdlog/spdlog.h>

namespace {

using Clock = std::chrono::steady_clock;

constexpr std::size_t places = 8192;
constexpr std::size_t messages = 1000000; // of all threads, as in spdlog's own bench/async_bench.cpp
constexpr char pattern[] = "[%Y-%m-%d %H:%M:%S.%e] [%n] [%l] %v";

// spdlog's asynchronous logger, with one thread and the policy that blocks.
std::shared_ptr<spdlog::logger> by_spdlog(const std::string &folder) {
    spdlog::init_thread_pool(places, 1);
    auto logger = spdlog::create_async<spdlog::sinks::basic_file_sink_mt>("server", folder + "/log.txt", true);
    logger->set_pattern(pattern, spdlog::pattern_time_type::utc);
    return logger;
}

// alog with one worker, and its policy that blocks.
std::shared_ptr<alog::host> started(const std::string &folder) {
    const std::string document = "queue = " + std::to_string(places) + "\n[[sink]]\nname = \"file\"\nkind = \"memory\"\nfile = \"log.txt\"\npattern = \"" +
                                 pattern + "\"\n[[logger]]\nname = \"server\"\nsinks = [\"file\"]\n";
    return alog::make_host(document, folder, 1);
}

// Ends it, when all lines are in the file.
void end(alog::host &host) {
    const alog_report report = host.stop();
    if (report.handled != report.asked || report.faults != 0 || host.failures() != 0 || host.refused() != 0)
        throw std::runtime_error("not all lines were written");
}

// The front end alone, which is the same in front of both: the text, the time and the level of each message, which then goes nowhere.
std::shared_ptr<spdlog::logger> by_none() { return std::make_shared<spdlog::logger>("server", std::make_shared<spdlog::sinks::null_sink_st>()); }

template <typename Logger> void log_all(Logger &logger, int each, int thread) {
    for (int i = 0; i < each; i++)
        logger.info("request {} of client {} served by worker {} in {} microseconds", i, i % 100, thread, 861);
}

template <typename Logger> void log_timed(Logger &logger, int each, int thread, std::vector<std::int64_t> &times) {
    for (int i = 0; i < each; i++) {
        const auto start = Clock::now();
        logger.info("request {} of client {} served by worker {} in {} microseconds", i, i % 100, thread, 861);
        const std::chrono::nanoseconds taken = Clock::now() - start;
        times.push_back(taken.count());
    }
}

void print_times(const std::vector<std::vector<std::int64_t>> &times) {
    std::vector<std::int64_t> all;
    for (const auto &own : times)
        all.insert(all.end(), own.begin(), own.end());
    std::sort(all.begin(), all.end());
    for (const std::size_t per_mille : {500U, 990U, 999U})
        std::printf("%lld ", static_cast<long long>(all.at(all.size() / 1000 * per_mille)));
    std::puts("");
}

// Logs by so many threads to this, ends what is behind it, and prints what was measured.
template <typename Logger, typename End> void run(std::shared_ptr<Logger> to, std::size_t count, bool timed, End end) {
    const auto each = static_cast<int>(messages / std::max<std::size_t>(count, 1));
    std::vector<std::vector<std::int64_t>> times(count);
    for (auto &own : times)
        own.reserve(timed ? static_cast<std::size_t>(each) : 0);
    std::vector<std::thread> threads;
    const auto start = Clock::now();
    for (std::size_t number = 0; number < count; number++)
        threads.emplace_back([&to, &times, each, number, timed] {
            if (timed)
                log_timed(*to, each, static_cast<int>(number), times[number]);
            else
                log_all(*to, each, static_cast<int>(number));
        });
    for (std::thread &it : threads)
        it.join();
    to.reset();
    end();
    const std::chrono::duration<double> seconds = Clock::now() - start;
    if (timed)
        print_times(times);
    else
        std::printf("%.0f\n", static_cast<double>(count) * each / seconds.count());
}

void run_by(const std::string &by, const std::string &folder, std::size_t count, bool timed) {
    if (by == "spdlog")
        return run(by_spdlog(folder), count, timed, [] { spdlog::shutdown(); });
    if (by == "none")
        return run(by_none(), count, timed, [] {});
    const auto host = started(folder);
    if (by == "fmt")
        return run(std::make_shared<const alog::logger>(host, "server"), count, timed, [&host] { end(*host); });
    run(alog::make_logger(host, "server"), count, timed, [&host] { end(*host); });
}

} // namespace

int main(int argc, char **argv) try {
    const std::vector<std::string> words(argv + 1, argv + argc);
    const bool known = words.size() == 4 && (words[0] == "spdlog" || words[0] == "alog" || words[0] == "none" || words[0] == "fmt");
    if (!known || (words[3] != "rate" && words[3] != "times")) {
        std::fputs("c: wanted are spdlog, alog, none or fmt, a folder, a number of threads, and rate or times\n", stderr);
        return 1;
    }
    run_by(words[0], words[1], std::stoul(words[2]), words[3] == "times");
    return 0;
} catch (const std::exception &error) {
    std::fprintf(stderr, "c: %s\n", error.what());
    return 1;
}
