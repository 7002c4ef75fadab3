// A sink of spdlog that hands each message to alog. A program makes a host, and changes the line that makes its logger:
//
//     auto host = alog::make_host(document, folder, 1);
//     spdlog::set_default_logger(alog::make_logger(host, "net"));
//     ..
//     spdlog::shutdown();
//     alog_report report = host->stop();
//
// The logger of this name is one of the document, a configuration of alog: it has the sinks, the patterns and the policy, so a pattern that
// is set by spdlog has no effect. A message goes on where the levels of both, of spdlog's logger and of alog's, let it: alog's is info where
// the configuration says none. alog_clients.h has the host, and says what becomes of a thread's client.
//
// A message that is refused, as a text that is not UTF-8 or is too long, becomes an alog::error, which spdlog hands to its error handler: its default
// handler prints at most one in a second. How many they were `refused` of the host says. What the level of alog's logger hides is none of them, whatever
// its text is. A message whose source is too long, or no UTF-8, goes without it. What is discarded since the queue is full is told by the report alone.
//
// Times are UTC unless the document says `offset` or `zone`, where spdlog's are local; `%t` is the number of the client that the message goes by, from
// 0 on, and not the system's. `spdlog::register_logger` makes a logger known to `spdlog::get`.
//
// C++11, and spdlog 1.5 or later.
#ifndef ALOG_SPDLOG_H
#define ALOG_SPDLOG_H

#include "alog_clients.h"

#include <chrono>
#include <memory>
#include <string>
#include <utility>

#include <spdlog/logger.h>
#include <spdlog/sinks/sink.h>

namespace alog {

// Hands messages to one logger of a host. Threads may use it side by side, and none waits for another.
class spdlog_sink : public spdlog::sinks::sink {
  public:
    spdlog_sink(std::shared_ptr<host> to, const std::string &logger) : host_(present(std::move(to))), logger_(host_->find(logger)) {}

    void log(const spdlog::details::log_msg &message) override {
        const std::chrono::nanoseconds time = message.time.time_since_epoch();
        alog_source source;
        const alog_source *from = nullptr;
        if (!message.source.empty()) {
            source = source_of(message.source);
            from = &source;
        }
        const alog_level level = static_cast<alog_level>(message.level);
        const alog_message it = {logger_, level, time.count(), message.payload.data(), message.payload.size(), from};
        try {
            alog::expect(host_->with_client([&it](alog_client &client) { return alog::post(client, it); }));
        } catch (...) {
            if (host_->refuse(it.logger, it.level))
                throw;
        }
    }

    // Posts a flush: what was logged before is in its files when a worker comes to it. Where the queue is full the flush is discarded and
    // counted, unless the policy overruns; the key `flush_on` of the document wants no place in the queue.
    void flush() override {
        const std::uint32_t logger = logger_;
        alog::expect(host_->with_client([logger](alog_client &client) { return alog_flush_now(&client, logger); }));
    }

    void set_pattern(const std::string &) override {}
    void set_formatter(std::unique_ptr<spdlog::formatter>) override {}

  private:
    static alog_source source_of(const spdlog::source_loc &place) {
        const char *file = place.filename == nullptr ? "" : place.filename, *function = place.funcname == nullptr ? "" : place.funcname;
        return {file, static_cast<std::uint32_t>(place.line), function};
    }

    const std::shared_ptr<host> host_;
    const std::uint32_t logger_;
};

// A logger of spdlog whose messages go to the logger of this name.
inline std::shared_ptr<spdlog::logger> make_logger(const std::shared_ptr<host> &to, const std::string &name) {
    return std::make_shared<spdlog::logger>(name, std::make_shared<spdlog_sink>(to, name));
}

} // namespace alog

#endif
