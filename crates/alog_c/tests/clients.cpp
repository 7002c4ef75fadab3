// Clients of threads in C++: a host that ends beside others, children of a fork, handlers of operator new and of operator delete that log, and what is
// refused and in which words: clients FOLDER
#include "alog_fmt.h"
#include "trial.hpp"

#include <atomic>
#include <cstdlib>
#include <new>
#include <string>
#include <thread>

#ifndef HAS_NO_NEW
namespace {

// Which allocation of this thread fails next, from 0 on; none where it is less.
thread_local int failing = -1;

// What this thread calls once behind the next memory that it lets go of.
thread_local void (*behind_release)() = nullptr;

void *allocated(std::size_t size) {
    for (;;) {
        void *const got = failing-- == 0 ? nullptr : std::malloc(size > 0 ? size : 1);
        const std::new_handler handler = std::get_new_handler();
        if (got != nullptr)
            return got;
        if (handler == nullptr)
            throw std::bad_alloc();
        handler();
    }
}

void release(void *at) {
    void (*const call)() = behind_release;
    behind_release = nullptr;
    std::free(at);
    if (call != nullptr)
        call();
}

} // namespace

// (where one of them is inlined and the other is not, gcc takes them for two that do not match)
__attribute__((noinline)) void *operator new(std::size_t size) { return allocated(size); }
__attribute__((noinline)) void operator delete(void *at) noexcept { release(at); }
__attribute__((noinline)) void operator delete(void *at, std::size_t) noexcept { release(at); }
#endif

// A value that cannot be formatted for want of memory.
struct large {};

template <> struct fmt::formatter<large> : fmt::formatter<int> {
    template <typename Context> auto format(const large &, Context &context) const -> decltype(context.out()) {
        throw std::bad_alloc();
        return context.out();
    }
};

namespace {

const std::string config = "queue = 2\n[[sink]]\nname = \"file\"\nkind = \"memory\"\nfile = \"log.txt\"\npattern = \"%v %s %!\"\n"
                           "[[logger]]\nname = \"net\"\nsinks = [\"file\"]\n";

// A sink that makes a thousand records for each line, and so wants more areas than the options say for lines in a row: it is broken, which the host tells
// while it runs. The report counts that, and the flush of the end.
void areas_that_run_out(const std::string &folder) {
    const std::string name(60, 'r');
    const auto host = alog::make_host("queue = 64\ntext = 8191\n[[sink]]\nname = \"file\"\nkind = \"rotating\"\nfile = \"" + name +
                                          ".txt\"\nmax_size = 1\nmax_files = 1000\npattern = \"%v%v%v%v\"\n[[logger]]\nname = \"net\"\nsinks = [\"file\"]\n",
                                      folder, 1);
    const alog::logger net(host, "net");
    const std::string text(8191, 'x');
    EXPECT(host->faults(), 0);
    std::uint64_t count = 0;
    while (host->faults() == 0 && count < 1000) {
        net.info("{}", text);
        count++;
    }
    EXPECT(host->faults() > 0, 1);
    const alog_report report = host->stop();
    EXPECT(report.handled, count);
    EXPECT(report.faults, host->faults() + 1);
    EXPECT(host->failures() + host->refused(), 0);
}

// Who sets levels and finds loggers while a host stops is refused at its end, and the stop goes.
void calls_beside_stop(const std::string &folder) {
    for (int round = 0; round < 100; round++) {
        const auto host = alog::make_host(config, folder, 1);
        std::atomic<bool> has_begun{false};
        std::string words;
        std::thread thread([&host, &has_begun, &words] {
            words = thrown([&host, &has_begun] {
                for (;; has_begun = true) {
                    host->set_level("net", ALOG_INFO);
                    host->find("net");
                }
            });
        });
        while (!has_begun)
            std::this_thread::yield();
        EXPECT(thrown([&host] { host->stop(); }).empty(), 1);
        thread.join();
        EXPECT_TEXT(words.c_str(), "alog: The handle holds nothing. net");
    }
}

#ifndef HAS_NO_NEW
const alog::logger *short_of_memory;

void log_once() {
    failing = -1;
    std::set_new_handler(nullptr);
    EXPECT(short_of_memory->critical("memory is short"), ALOG_DONE);
}

// A handler that logs may do so wherever its thread's first log wants memory.
void handlers_of_memory(const std::string &folder) {
    std::uint64_t handled = 2;
    for (int number = 0; handled == 2; number++) {
        const auto host = alog::make_host(config, folder, 1);
        const alog::logger net(host, "net");
        short_of_memory = &net;
        std::thread([&net, number] {
            std::set_new_handler(log_once);
            failing = number;
            EXPECT(net.info("x"), ALOG_DONE);
            failing = -1;
            std::set_new_handler(nullptr);
        }).join();
        handled = host->stop().handled;
        EXPECT(number < 20, 1);
    }
    EXPECT(handled, 1);
}

alog::host *of_one_client;
const alog::logger *by_one_client;

// Logs while the one client is another thread's.
void log_beside_another() {
    std::atomic<bool> has_client{false}, may_end{false};
    std::thread other([&has_client, &may_end] {
        of_one_client->with_client([&has_client, &may_end](alog_client &) {
            for (has_client = true; !may_end;)
                std::this_thread::yield();
            return ALOG_DONE;
        });
    });
    while (!has_client)
        std::this_thread::yield();
    EXPECT(by_one_client->info("late"), ALOG_TOO_MANY);
    may_end = true;
    other.join();
}

// What its thread lets go of next is what pointed to its client.
struct last {
    const bool is_armed;
    ~last() { behind_release = is_armed ? log_beside_another : nullptr; }
};

// What logs while its thread lets go of its client has that no more: another thread may have it by then.
void releases_that_log(const std::string &folder) {
    const auto host = alog::make_host(config, folder, alog_options{1, 1, 0, 0});
    const alog::logger net(host, "net");
    of_one_client = host.get();
    by_one_client = &net;
    std::thread([&net] {
        EXPECT(net.info("x"), ALOG_DONE);
        static thread_local const last own{true};
        EXPECT(own.is_armed, 1);
    }).join();
    EXPECT(host->refused(), 1);
    EXPECT(host->stop().handled, 1);
}

std::shared_ptr<alog::host> ending;
const alog::logger *by_new_host;

// Logs by a host of which this thread has no client yet, when another thread has ended one of which it has.
void log_behind_end() {
    std::thread([] { ending.reset(); }).join();
    EXPECT(by_new_host->info("late"), ALOG_DONE);
}

// What logs while its thread lets go of its client of a host that has ended may let go of others, beside it. (That is shown by a sanitizer of memory.)
void releases_beside_ends(const std::string &folder) {
    const std::string places[] = {folder, folder + "/ending", folder + "/new", folder + "/last"};
    for (int i = 1; i < 4; i++)
        EXPECT(trial_folder(places[i].c_str()), 0);
    auto ended = alog::make_host(config, places[0], 1);
    ending = alog::make_host(config, places[1], 1);
    const auto first = alog::make_host(config, places[2], 1), last = alog::make_host(config, places[3], 1);
    const alog::logger by_first(first, "net"), by_last(last, "net");
    by_new_host = &by_first;
    for (const auto &host : {ended, ending})
        EXPECT(host->with_client([](alog_client &) { return ALOG_DONE; }), ALOG_DONE);
    ended.reset();
    behind_release = log_behind_end;
    EXPECT(by_last.info("x"), ALOG_DONE);
    EXPECT(ending == nullptr, 1);
    EXPECT(first->stop().handled, 1);
    EXPECT(last->stop().handled, 1);
}
#endif

// What is refused, in which words, and what a source shows.
void refusals(const std::string &folder) {
    const auto host = alog::make_host(config, folder, 1);
    const alog::logger net(host, "net");
    EXPECT(alog::is_refusal(ALOG_NO_THREAD), 1);
    EXPECT(alog::is_refusal(ALOG_ENDED), 0);
    EXPECT_TEXT(thrown([&host] { host->set_level("net", static_cast<alog_level>(7)); }).c_str(), "alog: There is no such level: levels are 0 to 6. net");
    EXPECT_TEXT(thrown([&host] { host->find("nobody"); }).c_str(), "alog: There is no such logger. nobody");
    EXPECT(net.info("{}", large()), ALOG_NO_MEMORY);
    std::remove(path_of(folder.c_str(), "log.txt"));
    EXPECT(net.log(ALOG_HERE, ALOG_INFO, "here"), ALOG_DONE);
    EXPECT(host->stop().handled, 1);
    EXPECT_TEXT(thrown([&host] { host->stop(); }).c_str(), "alog: The handle holds nothing.");
    EXPECT_TEXT(thrown([&host] { host->find("net"); }).c_str(), "alog: The handle holds nothing. net");
    std::size_t length = 0;
    char *bytes = bytes_of(path_of(folder.c_str(), "log.txt"), &length);
    EXPECT_TEXT(bytes, "here clients.cpp refusals\n");
    std::free(bytes);
}

// A call with a client has its own answer, and what it throws, and its client is back then; one without a client throws why, and is not made. What is
// thrown has the answer with its sentence.
void calls_with_clients(const std::string &folder) {
    const auto host = alog::make_host(config, folder, alog_options{1, 1, 0, 0});
    const alog_client *mine = nullptr;
    int calls = 0;
    EXPECT(host->with_client([&mine](alog_client &client) {
        mine = &client;
        return ALOG_HELD;
    }),
           ALOG_HELD);
    EXPECT(host->with_client([&mine](alog_client &client) { return mine == &client ? ALOG_DONE : ALOG_NULL; }), ALOG_DONE);
    for (int times = 0; times < 2; times++)
        EXPECT_TEXT(thrown([&host] { host->with_client([](alog_client &) -> alog_answer { throw alog::error(ALOG_BUSY, "mine"); }); }).c_str(), "alog: mine");
    std::thread([&host, &calls] {
        try {
            host->with_client([&calls](alog_client &) {
                calls++;
                return ALOG_DONE;
            });
        } catch (const alog::error &error) {
            EXPECT(error.answer(), ALOG_TOO_MANY);
            EXPECT_TEXT(error.what(), "alog: The pool may make no more of these.");
        }
    }).join();
    EXPECT(calls, 0);
    alog::expect(ALOG_ENDED, "no refusal");
    EXPECT_TEXT(thrown([] { alog::expect(ALOG_NO_THREAD, std::string("none")); }).c_str(), "alog: The system gave no thread. none");
    EXPECT(host->stop().handled, 0);
}

// A folder whose name has a zero in it is none, and not the one whose name ends there.
void odd_folder(const std::string &folder) {
    EXPECT_TEXT(thrown([&folder] { alog::make_host(config, folder + std::string("\0x", 2), 1); }).c_str(),
                "alog: The folder takes no files, or another program holds it, or a sink cannot write to its file. no folder has a zero byte in its name");
    EXPECT(alog::make_host(config, folder, 1)->stop().handled, 0);
}

// What holds the client that was lent to it when its thread ends, until it may end.
struct holds {
    alog::host &host;
    std::atomic<bool> &is_lent, &may_end;
    ~holds() {
        host.with_client([this](alog_client &) {
            for (is_lent = true; !may_end;)
                std::this_thread::yield();
            return ALOG_DONE;
        });
    }
};

// A host does not end while a client is lent.
void stops_behind_loans(const std::string &folder) {
    const auto host = alog::make_host(config, folder, 1);
    std::atomic<bool> is_lent{false}, may_end{false}, has_ended{false};
    std::thread lender([&host, &is_lent, &may_end] {
        static thread_local const holds behind{*host, is_lent, may_end};
        EXPECT(alog::logger(host, "net").info("{}", !behind.is_lent), ALOG_DONE);
    });
    while (!is_lent)
        std::this_thread::yield();
    std::thread stopper([&host, &has_ended] {
        EXPECT(host->stop().handled, 1);
        has_ended = true;
    });
    std::this_thread::sleep_for(std::chrono::milliseconds(20));
    EXPECT(has_ended, 0);
    may_end = true;
    lender.join();
    stopper.join();
}

// A file that cannot be written is told.
void failures(const std::string &folder) {
    const std::string place = folder + "/failures";
    EXPECT(trial_folder(place.c_str()), 0);
    const auto host = alog::make_host(config, place, 1);
    const alog::logger net(host, "net");
    int first = 0;
    EXPECT(trial_folder((place + "/log.txt").c_str()), 0);
    EXPECT(net.info("x"), ALOG_DONE);
    EXPECT(host->stop().handled, 1);
    EXPECT(host->failures(), 1);
    EXPECT(host->failures(first), 1);
    EXPECT(first, EISDIR);
}

#ifndef IS_SANITIZED
// What logs more than there is room for when its thread ends.
struct late {
    const alog::logger &to;
    const pid_t process;
    ~late() {
        for (int i = 0; i < 4; i++)
            if (to.info("late") != (process == getpid() ? ALOG_DONE : ALOG_NO_HANDLE))
                std::_Exit(1);
    }
};

// A child that ends by exit logs in destructors of its thread, where that is refused; and what it asks of its parent's host is refused, too.
void children(const std::string &folder) {
    const auto host = alog::make_host(config, folder, 1);
    const alog::logger net(host, "net");
    std::thread([&host, &net] {
        static thread_local const late own{net, getpid()};
        EXPECT(net.info("{}", own.process == getpid()), ALOG_DONE);
        pid_t child = fork();
        if (child == 0)
            std::exit(0);
        EXPECT(has_ended(child), 1);
        child = fork();
        if (child == 0)
            std::_Exit(thrown([&host] { host->stop(); }).empty() || thrown([&host] { host->find("net"); }).empty() || net.info("x") != ALOG_NO_HANDLE);
        EXPECT(has_ended(child), 1);
    }).join();
    EXPECT(host->stop().handled, 5);
}

const alog::logger *by_parent;
alog_answer said_in_child;

// What a child logs while its thread lets go of its clients is refused, whichever host of its parent it is by.
void children_that_release(const std::string &folder) {
    const std::string place = folder + "/other";
    EXPECT(trial_folder(place.c_str()), 0);
    const auto host = alog::make_host(config, folder, 1), other = alog::make_host(config, place, 1);
    const alog::logger net(host, "net"), of_other(other, "net");
    by_parent = &net;
    EXPECT(net.info("x"), ALOG_DONE);
    EXPECT(of_other.info("x"), ALOG_DONE);
    behind_release = [] { said_in_child = by_parent->info("late"); };
    const pid_t child = fork();
    if (child == 0)
        std::_Exit(said_in_child != ALOG_NO_HANDLE);
    behind_release = nullptr;
    EXPECT(has_ended(child), 1);
    EXPECT(host->stop().handled, 1);
    EXPECT(other->stop().handled, 1);
}

// A child of a host that waits for what is lent ends, though its copy of the host is destroyed.
void children_beside_stop(const std::string &folder) {
    static std::shared_ptr<alog::host> host;
    host = alog::make_host(config, folder, 1);
    std::atomic<bool> is_lent{false}, may_end{false};
    std::thread lender([&is_lent, &may_end] {
        static thread_local const holds behind{*host, is_lent, may_end};
        EXPECT(alog::logger(host, "net").info("{}", !behind.is_lent), ALOG_DONE);
    });
    while (!is_lent)
        std::this_thread::yield();
    std::thread stopper([] { EXPECT(host->stop().handled, 1); });
    std::this_thread::sleep_for(std::chrono::milliseconds(20));
    const pid_t child = fork();
    if (child == 0) {
        host.reset();
        std::_Exit(0);
    }
    EXPECT(has_ended(child), 1);
    may_end = true;
    lender.join();
    stopper.join();
    host.reset();
}
#endif

} // namespace

int main(int argc, char **argv) {
    if (argc != 2)
        return 2;
    calls_beside_stop(argv[1]);
#ifndef HAS_NO_NEW
    handlers_of_memory(argv[1]);
    releases_that_log(argv[1]);
    releases_beside_ends(argv[1]);
#endif
    refusals(argv[1]);
    calls_with_clients(argv[1]);
    odd_folder(argv[1]);
    stops_behind_loans(argv[1]);
    failures(argv[1]);
    areas_that_run_out(argv[1]);
#ifndef IS_SANITIZED
    children(argv[1]);
    children_that_release(argv[1]);
    children_beside_stop(argv[1]);
#endif
    return trial_end();
}
