// Does one run by spdlog's asynchronous logger: what a call of crates/bench with the word load does by alog_pool.
//   run STORE PATTERN PRODUCERS LENGTH rate     how many messages go in a second, from the first log to the last line written
//   run STORE PATTERN PRODUCERS LENGTH OFFERED  the 50th, 99th and 99.9th percentile of the nanoseconds that one log takes, where so
//                                               many messages are offered in a second, or as many as go where that is 0
//   idle WORKERS SECONDS                        the microseconds of a processor that a pool takes in a second in which nothing is logged
#include <algorithm>
#include <atomic>
#include <chrono>
#include <cstdint>
#include <cstdio>
#include <cstdlib>
#include <cstring>
#include <ctime>
#include <filesystem>
#include <memory>
#include <mutex>
#include <string>
#include <thread>
#include <vector>

#include <spdlog/async.h>
#include <spdlog/sinks/base_sink.h>
#include <spdlog/sinks/basic_file_sink.h>
#include <spdlog/spdlog.h>

namespace {

using Clock = std::chrono::steady_clock;

constexpr std::size_t queue = 8192;
constexpr int messages = 1000000; // of all producers, as in spdlog's own bench/async_bench.cpp
constexpr int offered_messages = 100000;
const std::string sentence = "request 123 of client 12 served by worker 3 in 861 microseconds";

// A text of so many bytes: the sentence, as often as there is room.
std::string text_of(std::size_t length) {
    if (length == 16) {
        return "request 123 done";
    }
    std::string text = sentence;
    while (text.size() < length) {
        text += ", " + sentence;
    }
    text.resize(length);
    return text;
}

// Formats each line, and gives it to no one.
class null_sink : public spdlog::sinks::base_sink<std::mutex> {
  public:
    std::size_t lines = 0;

  protected:
    void sink_it_(const spdlog::details::log_msg &message) override {
        spdlog::memory_buf_t line;
        formatter_->format(message, line);
        lines++;
    }
    void flush_() override {}
};

// Formats each line, and appends it to one block, which grows as a Vec does.
class memory_sink : public spdlog::sinks::base_sink<std::mutex> {
  public:
    ~memory_sink() override { std::free(block); }

  protected:
    void sink_it_(const spdlog::details::log_msg &message) override {
        spdlog::memory_buf_t line;
        formatter_->format(message, line);
        if (room - length < line.size()) {
            room = std::max(2 * room, length + line.size());
            block = static_cast<char *>(std::realloc(block, room));
        }
        std::memcpy(block + length, line.data(), line.size());
        length += line.size();
    }
    void flush_() override {}

  private:
    char *block = nullptr;
    std::size_t length = 0;
    std::size_t room = 0;
};

struct Order {
    int count;
    std::chrono::nanoseconds gap;
    std::string text;
    bool timed;
};

void log_all(spdlog::logger &logger, const Order &order) {
    for (int i = 0; i < order.count; i++) {
        logger.info(order.text);
    }
}

void log_timed(spdlog::logger &logger, const Order &order, std::vector<std::uint64_t> &times) {
    auto next = Clock::now();
    for (int i = 0; i < order.count; i++) {
        if (order.gap.count() > 0) {
            while (Clock::now() < next) {
                std::this_thread::yield();
            }
            next += order.gap;
        }
        auto start = Clock::now();
        logger.info(order.text);
        auto end = Clock::now();
        times.push_back(static_cast<std::uint64_t>((end - start).count()));
    }
}

std::shared_ptr<spdlog::logger> logger_on(const std::string &store) {
    if (store == "null") {
        return spdlog::create_async<null_sink>("server");
    }
    if (store == "memory") {
        return spdlog::create_async<memory_sink>("server");
    }
    return spdlog::create_async<spdlog::sinks::basic_file_sink_mt>("server", store + "/log.txt", true);
}

int run(const std::string &store, const std::string &pattern, int producers, std::size_t length, const std::string &how) {
    Order order{messages / std::max(producers, 1), std::chrono::nanoseconds(0), text_of(length), how != "rate"};
    const int offered = order.timed ? std::stoi(how) : 0;
    if (offered > 0) {
        order.count = offered_messages / producers;
        order.gap = std::chrono::nanoseconds(1000000000LL * producers / offered);
    }
    spdlog::init_thread_pool(queue, 1);
    auto logger = logger_on(store);
    auto sink = logger->sinks().front();
    logger->set_pattern(pattern == "short" ? "%n %L %v" : "[%Y-%m-%d %H:%M:%S.%e] [%n] [%l] %v",
                        spdlog::pattern_time_type::utc);
    std::vector<std::vector<std::uint64_t>> times(producers);
    for (auto &own : times) {
        own.reserve(order.timed ? order.count : 0);
    }
    const auto start = Clock::now();
    std::vector<std::thread> threads;
    for (int i = 0; i < producers; i++) {
        threads.emplace_back([&, i] {
            if (order.timed) {
                log_timed(*logger, order, times[i]);
            } else {
                log_all(*logger, order);
            }
        });
    }
    for (auto &thread : threads) {
        thread.join();
    }
    logger.reset();
    spdlog::shutdown(); // waits until the worker has written all
    sink->flush();
    const double seconds = std::chrono::duration<double>(Clock::now() - start).count();
    if (!order.timed) {
        std::printf("%.0f\n", producers * static_cast<double>(order.count) / seconds);
        return 0;
    }
    std::vector<std::uint64_t> all;
    for (auto &own : times) {
        all.insert(all.end(), own.begin(), own.end());
    }
    std::sort(all.begin(), all.end());
    auto at = [&](std::size_t per_mille) { return static_cast<unsigned long long>(all.at(all.size() / 1000 * per_mille)); };
    std::printf("%llu %llu %llu\n", at(500), at(990), at(999));
    return 0;
}

int idle(std::size_t workers, int seconds) {
    spdlog::init_thread_pool(queue, workers);
    auto logger = logger_on("null");
    const std::clock_t before = std::clock();
    std::this_thread::sleep_for(std::chrono::seconds(seconds));
    const double taken = static_cast<double>(std::clock() - before) / CLOCKS_PER_SEC;
    logger.reset();
    spdlog::shutdown();
    std::printf("%.0f\n", taken * 1e6 / seconds);
    return 0;
}

}

int main(int argc, char **argv) {
    const std::vector<std::string> words(argv + 1, argv + argc);
    if (words.size() == 6 && words[0] == "run") {
        return run(words[1], words[2], std::stoi(words[3]), std::stoul(words[4]), words[5]);
    }
    if (words.size() == 3 && words[0] == "idle") {
        return idle(std::stoul(words[1]), std::stoi(words[2]));
    }
    return 0;
}
