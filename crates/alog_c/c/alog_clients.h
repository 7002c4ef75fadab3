// A host for C++: a pool with its workers' threads, and a client of each thread that logs. alog_spdlog.h and alog_fmt.h have loggers over it,
// and include it.
//
//     auto host = alog::make_host(document, folder, 1);
//     ..
//     alog_report report = host->stop();
//
// Each thread that logs has a client of its own, which goes to the next new thread when it ends. What it logs after that, in destructors of its
// thread-local objects, and in the thread that calls exit in destructors of static objects and handlers of atexit, goes by a client that is lent for
// the call: one that no thread has, or a new one if the host may open one more. Where it may not, or was stopped, that is refused. It is written if
// the host ends behind it, as one does that is let go then.
//
// A thread whose first log is in a destructor of a key of pthreads keeps its client: it goes to no other thread.
//
// A child of a fork has none of the host's threads, and may not log by it: what it logs is refused. It may end by exit: the host is left as it is
// there. It holds the folder with its parent, as alog_host.h says.
//
// C++11 or later.
#ifndef ALOG_CLIENTS_H
#define ALOG_CLIENTS_H

#include "alog_host.h"

#include <atomic>
#include <chrono>
#include <memory>
#include <mutex>
#include <stdexcept>
#include <string>
#include <thread>
#include <utility>

namespace alog {

// A refusal: what was answered, and in words why.
class error : public std::runtime_error {
  public:
    error(alog_answer answer, const std::string &words) : std::runtime_error("alog: " + words), answer_(answer) {}

    alog_answer answer() const noexcept { return answer_; }

  private:
    alog_answer answer_;
};

// Whether an answer is a refusal, and no account of what became of a message.
inline bool is_refusal(alog_answer answer) { return answer >= ALOG_NO_THREAD; }

// Throws what a refusal says, with more words where there are some.
[[noreturn]] ALOG_RARE inline void throw_refusal(alog_answer answer, const char *more) {
    throw error(answer, std::string(alog_says(answer)) + (*more == 0 ? "" : " ") + more);
}

// Throws what an answer says, where it is a refusal. (No text is made before that: each log by a sink comes here.)
inline void expect(alog_answer answer, const char *more = "") {
    if (is_refusal(answer))
        throw_refusal(answer, more);
}

inline void expect(alog_answer answer, const std::string &more) { expect(answer, more.c_str()); }

// Posts a message without its source, and waits for room.
ALOG_RARE inline alog_answer post_bare(alog_client &client, const alog_message &it) {
    alog_message bare = it;
    bare.source = nullptr;
    return alog_post_wait(&client, &bare);
}

// Posts a message and waits for room: without its source where that is what is refused, as one that is too long or has no names.
inline alog_answer post(alog_client &client, const alog_message &it) {
    const alog_answer answer = alog_post_wait(&client, &it);
    const bool may_be_source = answer == ALOG_SOURCE_TOO_LONG || answer == ALOG_NOT_UTF8 || answer == ALOG_NULL;
    return may_be_source && it.source != nullptr ? post_bare(client, it) : answer;
}

class host;

std::shared_ptr<host> make_host(const std::string &document, const std::string &folder, const alog_options &options);

// A pool with its workers' threads, and the clients of all threads that log. It is held by shared pointers, and ends with the last of them.
class host {
  public:
    ~host() {
        alog_report report;
        if (!lot_->is_own())
            return;
        close_all();
        alog_stop(&host_, &report);
    }

    host(const host &) = delete;
    host &operator=(const host &) = delete;

    // Ends it, when all that was logged is written, and reports what became of it; once. No thread may log by it meanwhile, but by a client that
    // is lent for the call; who does so later is refused.
    alog_report stop() {
        alog_report report{};
        alog::expect(lot_->is_own() ? ALOG_DONE : ALOG_NO_HANDLE);
        close_all();
        alog::expect(alog_stop(&host_, &report));
        return report;
    }

    // How many calls on files failed since the start.
    std::uint64_t failures() const { return alog_failures(&host_, nullptr); }

    // The same, with the errno of the first one, or 0.
    std::uint64_t failures(int &first_errno) const { return alog_failures(&host_, &first_errno); }

    // How many turns at sinks were faults since the start: above 0 a sink, or a member of a fan, found no empty area, and its lines are missing from
    // then on. How many they are the number does not say: a flush of it is one, too.
    std::uint64_t faults() const { return alog_faults(&host_); }

    // How many messages were refused: they are missing, and no total of the report counts them.
    std::uint64_t refused() const { return refused_; }

    // Counts a message that was refused, unless the level of its logger hides it; answers whether it is counted. The level is asked for behind a refusal
    // alone, under the lock of the clients, since a thread may have none; where the host ends or has ended there is none, and the message counts.
    bool refuse(std::uint32_t logger, alog_level level) {
        const bool is_hidden = entered([this, logger, level] { return is_on(logger, level); }) == ALOG_FILTERED;
        refused_ += !is_hidden;
        return !is_hidden;
    }

    // The number of a logger. Refused where the host ends or has ended.
    std::uint32_t find(const std::string &name) {
        std::uint32_t logger = 0;
        alog::expect(entered([&] { return find_in(name, logger); }), name);
        return logger;
    }

    // Sets the level of a logger, for all threads, from the next message on. Refused where the host ends or has ended.
    void set_level(const std::string &name, alog_level level) {
        alog::expect(entered([&] {
                         std::uint32_t logger = 0;
                         const alog_answer found = find_in(name, logger);
                         return found == ALOG_DONE ? alog_host_set_level(&host_, logger, level) : found;
                     }),
                     name);
    }

    // Calls this with the client of this thread, which is opened at its first use; where the thread ends, and has none any more, with one that
    // is lent for the call. Throws an error where there is none.
    template <typename Call> alog_answer with_client(const Call &call) {
        alog_client *const own = mine();
        return own != nullptr ? call(*own) : with_another(call);
    }

  private:
    friend std::shared_ptr<host> make_host(const std::string &document, const std::string &folder, const alog_options &options);

    host(const std::string &document, const std::string &folder, const alog_options &options) {
        static const int known = pthread_atfork(nullptr, nullptr, forget);
        // (a name ends by its first zero there, and would be that of another folder)
        alog::expect(folder.find('\0') == std::string::npos ? ALOG_DONE : ALOG_NO_STORE, "no folder has a zero byte in its name");
        const alog_answer answer = alog_start_with(&host_, document.data(), document.size(), folder.c_str(), &options);
        alog_report report;
        (void)known;
        // (where its workers could not be started, nor the pool be ended, for want of memory)
        if (is_refusal(answer) && host_.is_open)
            alog_stop(&host_, &report);
        alog::expect(answer, host_.told);
    }

    // A client by itself on its lines of the cache, since each of its calls writes into it; and which follow it in the lists of its lot.
    struct apart {
        apart *next, *next_free;
        char before[64];
        alog_client client;
        char after[64];
    };

    // The clients of a host, which threads give back here, also those that end when it has ended. Under its lock no memory is taken by operator
    // new, whose handler may log. The list of all is whole at each moment, so that a child of a fork may let go of it.
    struct lot {
        std::mutex lock;
        // all of them, and those that no thread has
        apart *all = nullptr, *free = nullptr;
        // how many are lent for a call, and whether none is lent any more, since the host ends
        std::size_t loans = 0;
        bool is_ending = false;
        const pid_t process = getpid();

        lot() = default;
        lot(const lot &) = delete;
        lot &operator=(const lot &) = delete;

        ~lot() {
            while (all != nullptr) {
                const std::unique_ptr<apart> it(all);
                all = it->next;
            }
        }

        // Whether this is the process that started the host, and no child, which has none of its threads, and a lock that one may have held.
        bool is_own() const { return process == getpid(); }

        // Takes back what a thread had, or what was lent for a call.
        void take_back(apart *one, std::size_t lent) {
            if (!is_own())
                return;
            const std::lock_guard<std::mutex> guard(lock);
            one->next_free = free;
            free = one;
            loans -= lent;
        }
    };

    // A client that a thread has until it ends, of a host that may end before. As long as it points to the lot, no other lot is at its place.
    struct lease {
        std::weak_ptr<lot> from;
        const lot *at;
        apart *one;
        lease *next;
    };

    // The first lease of this thread, with the others behind it: a list that is whole while memory for one more is taken, whose handler may log. The
    // pointer has no destructor, and so is there to the thread's end; so is whether the thread is over, which has no leases any more.
    static lease *&leases() {
        static thread_local lease *first = nullptr;
        return first;
    }

    static bool &is_over() {
        static thread_local bool over = false;
        return over;
    }

    // Takes one out of the list.
    static std::unique_ptr<lease> taken(lease *&at) {
        std::unique_ptr<lease> it(at);
        at = it->next;
        return it;
    }

    // Lets go of a list, which is this thread's no more: what is let go of here may log, and change that.
    static void let_go(lease *list) {
        while (list != nullptr)
            taken(list);
    }

    // Lets go of those whose host has ended.
    static void tidy() {
        lease *ended = nullptr;
        for (lease **at = &leases(); *at != nullptr;) {
            lease *const it = *at;
            if (it->from.expired()) {
                *at = it->next;
                it->next = ended;
                ended = it;
            } else {
                at = &it->next;
            }
        }
        let_go(ended);
    }

    // Gives back the clients of a thread when that ends, each when it is in the list no more, since what is let go of here may log.
    struct thread_end {
        ~thread_end() {
            is_over() = true;
            while (leases() != nullptr) {
                const std::unique_ptr<lease> it = taken(leases());
                if (const std::shared_ptr<lot> from = it->from.lock())
                    from->take_back(it->one, 0);
            }
        }
    };

    // In a child of a fork its thread has no client any more: what it logs by a host of its parent, as in a destructor, is refused.
    static void forget() {
        lease *const all = leases();
        leases() = nullptr;
        let_go(all);
    }

    // A client for one call.
    struct loan {
        lot &from;
        apart &one;
        explicit loan(host &of) : from(*of.lot_), one(of.take(1)) {}
        ~loan() { from.take_back(&one, 1); }
        loan(const loan &) = delete;
        loan &operator=(const loan &) = delete;
    };

    // What this call answers under the lock of the clients, of a host that has not ended, nor ends. It throws nothing.
    template <typename Call> alog_answer entered(const Call &call) {
        if (!lot_->is_own())
            return ALOG_NO_HANDLE;
        const std::lock_guard<std::mutex> guard(lot_->lock);
        return lot_->is_ending ? ALOG_NO_HANDLE : call();
    }

    // (a name ends by its first zero there)
    alog_answer find_in(const std::string &name, std::uint32_t &logger) {
        return name.find('\0') == std::string::npos ? alog_host_find(&host_, name.c_str(), &logger) : ALOG_NO_LOGGER;
    }

    // Whether a logger reads a message of this level, without a client.
    alog_answer is_on(std::uint32_t logger, alog_level level) {
        const alog_answer entered = alog_host_enter(&host_);
        if (entered != ALOG_DONE)
            return entered;
        const alog_answer answer = alog_is_on_in_pool(&host_.pool, logger, level);
        pthread_mutex_unlock(&host_.lock);
        return answer;
    }

    // Calls this where this thread has no client: with one that it has from then on, or where it is over with one that is lent for the call.
    template <typename Call> ALOG_RARE alog_answer with_another(const Call &call) {
        if (!is_over())
            return call(lend());
        const loan own(*this);
        return call(own.one.client);
    }

    // The client of this thread, or null where it has none.
    alog_client *mine() {
        for (const lease *it = leases(); it != nullptr; it = it->next)
            if (it->at == lot_.get())
                return &it->one->client;
        return nullptr;
    }

    // One for this thread, until it ends.
    alog_client &lend() {
        static thread_local const thread_end end{};
        tidy();
        std::unique_ptr<lease> made(new lease{lot_, lot_.get(), nullptr, nullptr});
        made->one = &take(0);
        made->next = leases();
        leases() = made.release();
        return leases()->one->client;
    }

    // One that no thread has, or a new one; counted where it is a loan.
    apart &take(std::size_t loans) {
        apart *one = nullptr;
        alog_answer answer = entered([&] { return pick(one, loans); });
        if (answer == ALOG_DONE && one == nullptr) {
            std::unique_ptr<apart> made(new apart{});
            answer = entered([&] { return add(made, one, loans); });
        }
        alog::expect(answer);
        return *one;
    }

    // Picks the first one that no thread has, where there is one, and opens it, if it is not open. Called under the lock.
    alog_answer pick(apart *&one, std::size_t loans) {
        apart *const first = lot_->free;
        if (first == nullptr)
            return ALOG_DONE;
        const alog_answer answer = first->client.host == nullptr ? alog_client_open(&host_, &first->client) : ALOG_DONE;
        if (answer == ALOG_DONE) {
            lot_->free = first->next_free;
            lot_->loans += loans;
            one = first;
        }
        return answer;
    }

    // Adds one to those that no thread has, and picks it, or another one that came meanwhile. Called under the lock.
    alog_answer add(std::unique_ptr<apart> &made, apart *&one, std::size_t loans) {
        made->next = lot_->all;
        made->next_free = lot_->free;
        lot_->all = lot_->free = made.release();
        return pick(one, loans);
    }

    // Closes all clients, when those are back that are lent: whoever has one needs at most room for one message, which workers make.
    void close_all() {
        while (ends_beside_loans())
            std::this_thread::sleep_for(std::chrono::microseconds(100));
        const std::lock_guard<std::mutex> guard(lot_->lock);
        for (apart *it = lot_->all; it != nullptr; it = it->next)
            alog_client_close(&it->client);
    }

    // Lends none any more, and answers whether some are lent.
    bool ends_beside_loans() {
        const std::lock_guard<std::mutex> guard(lot_->lock);
        lot_->is_ending = true;
        return lot_->loans > 0;
    }

    std::atomic<std::uint64_t> refused_{0};
    // (one piece of memory with its counts, which stays as long as a thread's lease points to it)
    const std::shared_ptr<lot> lot_ = std::make_shared<lot>();
    alog_host host_{};
};

// The host, where there is one.
inline std::shared_ptr<host> present(std::shared_ptr<host> it) {
    alog::expect(it == nullptr ? ALOG_NULL : ALOG_DONE);
    return it;
}

// Starts a host with a configuration, over the files of a folder.
inline std::shared_ptr<host> make_host(const std::string &document, const std::string &folder, const alog_options &options) {
    return std::shared_ptr<host>(new host(document, folder, options));
}

// The same with so many workers.
inline std::shared_ptr<host> make_host(const std::string &document, const std::string &folder, std::size_t workers) {
    return make_host(document, folder, alog_options{workers, 0, 0, 0});
}

} // namespace alog

#endif
