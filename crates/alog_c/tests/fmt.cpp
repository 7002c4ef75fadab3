// The loggers over fmt: what is formatted and what is not, levels, sources, what is refused, and threads that come and go: fmt FOLDER
#include "alog_fmt.h"
#include "trial.h"

#include <atomic>
#include <string>
#include <thread>
#include <vector>

namespace {

const std::string config = "queue = 64\nworkers = 2\ntext = 2000\n[[sink]]\nname = \"file\"\nkind = \"memory\"\nfile = \"log.txt\"\npattern = \"%n %L %s:%# %v\"\n"
                           "[[logger]]\nname = \"net\"\nsinks = [\"file\"]\n[[logger]]\nname = \"disk\"\nlevel = \"error\"\nbacktrace = 2\nsinks = [\"file\"]\n";

// A value that counts how often it is formatted, and may not be.
struct counted {
    int value;
    mutable int times;
};

} // namespace

template <> struct fmt::formatter<counted> : fmt::formatter<int> {
    template <typename Context> auto format(const counted &it, Context &context) const -> decltype(context.out()) {
        it.times++;
        if (it.value < 0)
            throw std::runtime_error("a value below zero");
        return fmt::formatter<int>::format(it.value, context);
    }
};

namespace {

// A value that is turned into a text, and may not be.
struct turned {
    mutable int times;
    operator fmt::string_view() const {
        times++;
        throw std::runtime_error("no text");
    }
};

// What logs in a destructor.
struct logs_at_its_end {
    const alog::logger &to;
    const turned &value;
    ~logs_at_its_end() { to.info("{}", value); }
};

std::string content(const std::string &folder) {
    std::size_t length = 0;
    char *bytes = bytes_of(path_of(folder.c_str(), "log.txt"), &length);
    const std::string text(bytes, length);
    std::free(bytes);
    std::remove(path_of(folder.c_str(), "log.txt"));
    return text;
}

// One message by each call, all at its level.
void calls(const std::string &folder) {
    const auto host = alog::make_host(config, folder, 1);
    const alog::logger net(host, "net");
    EXPECT(net.set_level(ALOG_TRACE), ALOG_DONE);
    EXPECT(net.trace("{}", 1), ALOG_DONE);
    EXPECT(net.debug("{:>3}|", 2), ALOG_DONE);
    EXPECT(net.info("{1} {0}", "a", std::string("b")), ALOG_DONE);
    EXPECT(net.warning("four"), ALOG_DONE);
    EXPECT(net.error("{{}}"), ALOG_DONE);
    EXPECT(net.critical("{:.2f}", 1.005), ALOG_DONE);
    EXPECT(net.log(ALOG_OFF, "{}", '7'), ALOG_DONE);
    EXPECT(net.log(alog_source{"src/a.cpp", 7, "f"}, ALOG_INFO, "eight {}", 8), ALOG_DONE);
    EXPECT(net.info("{}", std::string(2000, 'x')), ALOG_DONE);
    EXPECT(net.flush(), ALOG_DONE);
    EXPECT(host->refused(), 0);
    EXPECT(host->stop().handled, 10);
    EXPECT_TEXT(content(folder).c_str(), ("net T : 1\nnet D :   2|\nnet I : b a\nnet W : four\nnet E : {}\nnet C : 1.00\nnet O : 7\n"
                                          "net I a.cpp:7 eight 8\nnet I : " + std::string(2000, 'x') + "\n").c_str());
}

// What a level hides is not formatted, unless it is kept.
void levels(const std::string &folder) {
    const auto host = alog::make_host(config, folder, 1);
    const alog::logger net(host, "net"), disk(host, "disk");
    const counted it{1, 0};
    EXPECT(net.is_on(ALOG_DEBUG), 0);
    EXPECT(net.is_on(ALOG_INFO), 1);
    EXPECT(disk.is_on(ALOG_TRACE), 1);
    EXPECT(net.debug("{}", it), ALOG_FILTERED);
    EXPECT(it.times, 0);
    EXPECT(disk.debug("kept {}", it), ALOG_FILTERED);
    EXPECT(it.times, 1);
    EXPECT(disk.dump(), ALOG_DONE);
    host->set_level("net", ALOG_DEBUG);
    EXPECT(net.debug("{}", it), ALOG_DONE);
    EXPECT(it.times, 2);
    EXPECT(net.set_level(ALOG_WARNING), ALOG_DONE);
    EXPECT(net.info("{}", it), ALOG_FILTERED);
    EXPECT(it.times, 2);
    EXPECT(net.set_level(static_cast<alog_level>(7)), ALOG_NO_LEVEL);
    EXPECT(net.log(static_cast<alog_level>(7), "{}", it), ALOG_NO_LEVEL);
    EXPECT(it.times, 2);
    EXPECT(host->refused(), 1);
    EXPECT(host->stop().handled, 4);
    const std::string lines = content(folder);
    EXPECT(lines.find("disk D : kept 1\n") != std::string::npos && lines.find("net D : 1\n") != std::string::npos, 1);
}

// What is refused, or cannot be formatted, is counted, and in no file; a source that is too long is left out.
void refusals(const std::string &folder) {
    const auto host = alog::make_host(config, folder, 1);
    const alog::logger net(host, "net");
    const counted it{-1, 0};
    const std::string file(257, 'f');
    EXPECT(net.info("{}", it), ALOG_NOT_UTF8);
    EXPECT(it.times, 1);
    EXPECT(net.info(fmt::runtime("{} {}"), 1), ALOG_NOT_UTF8);
    const turned value{0};
    EXPECT(net.debug("{}", value), ALOG_FILTERED);
    EXPECT(value.times, 0);
    EXPECT(net.info("{}", value), ALOG_NOT_UTF8);
    {
        const logs_at_its_end last{net, value};
    }
    EXPECT(value.times, 2);
    EXPECT(net.info("{}", "\xff"), ALOG_NOT_UTF8);
    EXPECT(net.info("{}", std::string(2001, 'x')), ALOG_TEXT_TOO_LONG);
    EXPECT(net.info("{}", std::string(8193, 'x')), ALOG_TEXT_TOO_LONG);
    EXPECT(net.log(alog_source{"\xff", 7, "f"}, ALOG_INFO, "{}", "\xff"), ALOG_NOT_UTF8);
    EXPECT(host->refused(), 8);
    EXPECT(net.log(alog_source{nullptr, 7, nullptr}, ALOG_INFO, "zero"), ALOG_DONE);
    EXPECT(net.log(alog_source{file.c_str(), 7, "f"}, ALOG_INFO, "one"), ALOG_DONE);
    EXPECT(net.log(alog_source{"\xff", 7, "f"}, ALOG_INFO, "two"), ALOG_DONE);
    EXPECT(net.log(ALOG_HERE, ALOG_INFO, "three"), ALOG_DONE);
    const std::string here = "net I fmt.cpp:" + std::to_string(__LINE__ - 1) + " three\n";
    EXPECT(host->stop().handled, 4);
    // behind the end nothing is on, and each log is refused
    EXPECT(net.info("late"), ALOG_NO_HANDLE);
    EXPECT(net.is_on(ALOG_CRITICAL), 0);
    EXPECT(net.set_level(ALOG_INFO), ALOG_NO_HANDLE);
    EXPECT(net.flush(), ALOG_NO_HANDLE);
    EXPECT(net.dump(), ALOG_NO_HANDLE);
    EXPECT(host->refused(), 9);
    EXPECT_TEXT(content(folder).c_str(), ("net I : zero\nnet I : one\nnet I : two\n" + here).c_str());
}

// A thread that gets no client: what its logger's level hides is filtered, and is not refused; what would be posted or kept is.
void without_client(const std::string &folder) {
    const auto host = alog::make_host(config, folder, alog_options{1, 1, 0, 0});
    const alog::logger net(host, "net"), disk(host, "disk");
    EXPECT(net.info("mine"), ALOG_DONE);
    std::thread([&host, &net, &disk] {
        const counted it{1, 0};
        EXPECT(net.debug("{}", it), ALOG_FILTERED);
        EXPECT(host->refused(), 0);
        EXPECT(net.info("{}", it), ALOG_TOO_MANY);
        EXPECT(host->refused(), 1);
        EXPECT(disk.debug("{}", it), ALOG_TOO_MANY);
        EXPECT(host->refused(), 2);
        host->set_level("net", ALOG_ERROR);
        EXPECT(net.warning("{}", it), ALOG_FILTERED);
        EXPECT(net.error("{}", it), ALOG_TOO_MANY);
        EXPECT(net.log(static_cast<alog_level>(7), "{}", it), ALOG_TOO_MANY);
        EXPECT(host->refused(), 4);
        EXPECT(net.is_on(ALOG_CRITICAL), 0);
        EXPECT(it.times, 0);
    }).join();
    EXPECT(host->stop().handled, 1);
    EXPECT_TEXT(content(folder).c_str(), "net I : mine\n");
    // behind the end nobody knows its level
    EXPECT(net.debug("late"), ALOG_NO_HANDLE);
    EXPECT(host->refused(), 5);
}

// A logger keeps its host, and one of no such name is refused.
void hosts(const std::string &folder) {
    auto host = alog::make_host(config, folder, 1);
    alog_answer answer = ALOG_DONE;
    try {
        const alog::logger nobody(host, "nobody");
    } catch (const alog::error &error) {
        answer = error.answer();
        EXPECT_TEXT(error.what(), "alog: There is no such logger. nobody");
    }
    EXPECT(answer, ALOG_NO_LOGGER);
    answer = ALOG_DONE;
    try {
        const alog::logger none(nullptr, "net");
    } catch (const alog::error &error) {
        answer = error.answer();
    }
    EXPECT(answer, ALOG_NULL);
    {
        alog::logger net(host, "disk");
        net = alog::logger(host, "net");
        host.reset();
        EXPECT(net.info("x"), ALOG_DONE);
    }
    EXPECT_TEXT(content(folder).c_str(), "net I : x\n");
}

// A host has ended where its last owner let it go, though a thread that logged by it ends at the same time: its folder is free.
void ends_with_its_last_owner(const std::string &folder) {
    for (int round = 0; round < 200; round++) {
        auto host = alog::make_host(config, folder, 1);
        std::atomic<bool> has_logged{false};
        std::thread thread([&host, &has_logged] {
            alog::logger(host, "net").info("x");
            has_logged = true;
        });
        while (!has_logged)
            std::this_thread::yield();
        host.reset();
        if (!EXPECT(alog::make_host(config, folder, 1)->stop().handled, 0))
            round = 200;
        thread.join();
    }
    EXPECT(content(folder).size(), 200 * std::string("net I : x\n").size());
}

// What logs when its thread ends, before the client of the thread is gone or behind that.
struct late {
    const alog::logger &to;
    ~late() {
        EXPECT(to.is_on(ALOG_INFO), 1);
        EXPECT(to.info("late"), ALOG_DONE);
    }
};

// What logs when its thread ends, until that is refused.
struct persistent {
    const alog::logger &to;
    std::atomic<std::uint64_t> &done;
    ~persistent() {
        while (to.info("late") == ALOG_DONE)
            done++;
    }
};

// A host that stops while a thread logs by clients that are lent: each of its messages is written, or is refused.
void stops_beside_late_logs(const std::string &folder) {
    for (int round = 0; round < 100; round++) {
        const auto host = alog::make_host(config, folder, 1);
        const alog::logger net(host, "net");
        std::atomic<std::uint64_t> done{0};
        std::thread thread([&net, &done] {
            static thread_local const persistent behind{net, done};
            EXPECT(net.info("{}", &behind.to == &net), ALOG_DONE);
        });
        while (done == 0)
            std::this_thread::yield();
        const alog_report report = host->stop();
        thread.join();
        EXPECT(report.handled, done + 1);
        EXPECT(host->refused(), 1);
        EXPECT(content(folder).size(), std::string("net I : true\n").size() + done * std::string("net I : late\n").size());
    }
}

// A hundred times four threads use four clients, since those of threads that ended go on.
void threads_that_come_and_go(const std::string &folder) {
    const auto host = alog::make_host(config, folder, alog_options{2, 4, 0, 0});
    const alog::logger net(host, "net");
    for (int round = 0; round < 100; round++) {
        std::vector<std::thread> threads;
        for (int thread = 0; thread < 4; thread++)
            threads.emplace_back([&net] {
                for (int i = 0; i < 10; i++)
                    net.info("x");
            });
        for (std::thread &it : threads)
            it.join();
    }
    std::thread([&net] {
        static thread_local const late behind{net};
        EXPECT(net.info("{}", &behind.to == &net), ALOG_DONE);
        static thread_local const late before{net};
        EXPECT(net.info("{}", &before.to == &net), ALOG_DONE);
    }).join();
    EXPECT(host->refused(), 0);
    const alog_report report = host->stop();
    EXPECT(report.handled, 4004);
    EXPECT(report.faults, 0);
    EXPECT(content(folder).size(), 4000 * std::string("net I : x\n").size() + 2 * std::string("net I : true\n").size() + 2 * std::string("net I : late\n").size());
}

} // namespace

int main(int argc, char **argv) {
    if (argc != 2)
        return 2;
    calls(argv[1]);
    levels(argv[1]);
    refusals(argv[1]);
    without_client(argv[1]);
    hosts(argv[1]);
    ends_with_its_last_owner(argv[1]);
    stops_beside_late_logs(argv[1]);
    threads_that_come_and_go(argv[1]);
    return trial_end();
}
