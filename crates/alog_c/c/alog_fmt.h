// Loggers for C++ over fmt, whose texts are formatted as by fmt::format, and checked by the compiler where it is C++20:
//
//     auto host = alog::make_host(document, folder, 1);
//     const alog::logger net(host, "net");
//     net.info("request {} of client {}", 7, "a");
//     net.log(ALOG_HERE, ALOG_ERROR, "no answer for {} ms", 3);
//     alog_report report = host->stop();
//
// The logger of this name is one of the document, a configuration of alog. Threads may use one logger side by side. alog_clients.h has the host.
//
// No call that logs throws: it answers what became of its message, and waits where the queue is full and the logger's policy is to block. What the
// logger does not read, since its level hides it and no backtrace keeps it, is not formatted, and answers ALOG_FILTERED, also where its thread gets no
// client; so does what is only kept.
// What is refused, as a text that is too long or not UTF-8, is missing, and `refused` of the host counts it, as what cannot be formatted, which answers
// ALOG_NOT_UTF8, or ALOG_NO_MEMORY for want of memory. A message whose source is too long, or no UTF-8, goes without it. What is discarded since the
// queue is full is told by the answer and by the report. A text that is no format is logged as `net.info("{}", text)`.
//
// C++11, and fmt 8 or later.
#ifndef ALOG_FMT_H
#define ALOG_FMT_H

#include "alog_clients.h"

#include <cstdint>
#include <memory>
#include <new>
#include <string>
#include <utility>

#include <fmt/format.h>

// (a macro, so that it names the place where it is written)
#define ALOG_HERE (::alog_source{__FILE__, static_cast<::std::uint32_t>(__LINE__), static_cast<const char *>(__func__)})

namespace alog {

// Logs to one logger of a host, which it keeps. A copy logs to the same; one that was moved away may only be assigned or destroyed.
class logger {
  public:
    // Throws an alog::error where there is no logger of this name.
    logger(std::shared_ptr<host> to, const std::string &name) : host_(present(std::move(to))), number_(host_->find(name)) {}

    template <typename... Args> alog_answer trace(fmt::format_string<Args...> text, Args &&...args) const noexcept {
        return log_as(nullptr, ALOG_TRACE, text, args...);
    }

    template <typename... Args> alog_answer debug(fmt::format_string<Args...> text, Args &&...args) const noexcept {
        return log_as(nullptr, ALOG_DEBUG, text, args...);
    }

    template <typename... Args> alog_answer info(fmt::format_string<Args...> text, Args &&...args) const noexcept {
        return log_as(nullptr, ALOG_INFO, text, args...);
    }

    template <typename... Args> alog_answer warning(fmt::format_string<Args...> text, Args &&...args) const noexcept {
        return log_as(nullptr, ALOG_WARNING, text, args...);
    }

    template <typename... Args> alog_answer error(fmt::format_string<Args...> text, Args &&...args) const noexcept {
        return log_as(nullptr, ALOG_ERROR, text, args...);
    }

    template <typename... Args> alog_answer critical(fmt::format_string<Args...> text, Args &&...args) const noexcept {
        return log_as(nullptr, ALOG_CRITICAL, text, args...);
    }

    template <typename... Args> alog_answer log(alog_level level, fmt::format_string<Args...> text, Args &&...args) const noexcept {
        return log_as(nullptr, level, text, args...);
    }

    // The same from a place in the program, as ALOG_HERE.
    template <typename... Args> alog_answer log(const alog_source &from, alog_level level, fmt::format_string<Args...> text, Args &&...args) const noexcept {
        return log_as(&from, level, text, args...);
    }

    // Whether the logger reads a message of this level: it is posted, or kept for a backtrace. Not so where there is no client for the call.
    bool is_on(alog_level level) const noexcept {
        return answer_of([this, level](alog_client &client) { return alog_is_on(&client.producer, number_, level); }) == ALOG_DONE;
    }

    // Sets the level of this logger for all threads, from the next message on.
    alog_answer set_level(alog_level level) const noexcept {
        return answer_of([this, level](alog_client &client) { return alog_set_level(&client.producer, number_, level); });
    }

    // Posts a flush of its sinks, and never waits: where the queue is full it is discarded, unless the policy is to overrun.
    alog_answer flush() const noexcept {
        return answer_of([this](alog_client &client) { return alog_flush_now(&client, number_); });
    }

    // Posts what its backtrace kept, between two markers, as alog_dump_now does.
    alog_answer dump() const noexcept {
        return answer_of([this](alog_client &client) { return alog_dump_now(&client, number_); });
    }

  private:
    // What a call that threw answers, within the handler of that.
    static alog_answer thrown() noexcept {
        try {
            throw;
        } catch (const alog::error &it) {
            return is_refusal(it.answer()) ? it.answer() : ALOG_NOT_UTF8;
        } catch (const std::bad_alloc &) {
            return ALOG_NO_MEMORY;
        } catch (...) {
            return ALOG_NOT_UTF8;
        }
    }

    // What this call answers by a client, or why there is none.
    template <typename Call> alog_answer answer_of(const Call &call) const noexcept {
        try {
            return host_->with_client(call);
        } catch (...) {
            return thrown();
        }
    }

    // Makes a message, where its logger reads it, and posts it.
    template <typename... Args> alog_answer log_as(const alog_source *from, alog_level level, fmt::string_view text, Args &...args) const noexcept {
        alog_answer answer;
        try {
            answer = host_->with_client([this, from, level, text, &args...](alog_client &client) {
                const alog_answer is_on = alog_is_on(&client.producer, number_, level);
                return is_on == ALOG_DONE ? write(client, from, level, text, fmt::make_format_args(args...)) : is_on;
            });
        } catch (...) {
            answer = thrown();
        }
        return is_refusal(answer) && !host_->refuse(number_, level) ? ALOG_FILTERED : answer;
    }

    alog_answer write(alog_client &client, const alog_source *from, alog_level level, fmt::string_view text, fmt::format_args args) const {
        fmt::memory_buffer bytes;
        fmt::vformat_to(fmt::appender(bytes), text, args);
        alog_message it = {number_, level, alog_now(), bytes.data(), bytes.size(), from};
        return alog::post(client, it);
    }

    std::shared_ptr<host> host_;
    std::uint32_t number_;
};

} // namespace alog

#endif
