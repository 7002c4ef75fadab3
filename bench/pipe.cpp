// Logs each line of standard input by spdlog's asynchronous logger, to a file that rotates: pipe_spdlog FILE SIZE PATTERN
// With one thread, a queue of 8,192 places, and the policy that waits where it is full.
#include <cstdlib>
#include <cstring>
#include <spdlog/async.h>
#include <spdlog/sinks/rotating_file_sink.h>
#include <spdlog/spdlog.h>
#include <string>
#include <unistd.h>

int main(int, char **words) {
    spdlog::init_thread_pool(8192, 1);
    auto log = spdlog::create_async<spdlog::sinks::rotating_file_sink_mt>("app", words[1], std::strtoul(words[2], nullptr, 10), 3);
    log->set_pattern(words[3]);
    static char chunk[65536];
    std::string part;
    for (ssize_t count; (count = read(0, chunk, sizeof chunk)) > 0;) {
        const char *at = chunk, *const end = chunk + count;
        while (const void *found = std::memchr(at, '\n', end - at)) {
            const char *newline = static_cast<const char *>(found);
            if (part.empty()) {
                log->info(spdlog::string_view_t(at, newline - at));
            } else {
                part.append(at, newline);
                log->info(spdlog::string_view_t(part));
                part.clear();
            }
            at = newline + 1;
        }
        part.append(at, end);
    }
    if (!part.empty()) {
        log->info(spdlog::string_view_t(part));
    }
    spdlog::shutdown();
}
