// The sink for spdlog: threads that come and go, levels, sources, and what is refused: sink FOLDER
#include "alog_spdlog.h"
#include "trial.hpp"

#include <string>
#include <thread>
#include <vector>

#include <malloc.h>
#include <spdlog/pattern_formatter.h>

namespace {

const std::string config = "queue = 64\nworkers = 2\ntext = 100\n[[sink]]\nname = \"file\"\nkind = \"memory\"\nfile = \"log.txt\"\npattern = \"%n %L %s:%# %v\"\n"
                           "[[logger]]\nname = \"net\"\nsinks = [\"file\"]\n[[logger]]\nname = \"disk\"\nlevel = \"error\"\nsinks = [\"file\"]\n";

std::string content(const std::string &folder) {
    std::size_t length = 0;
    char *bytes = bytes_of(path_of(folder.c_str(), "log.txt"), &length);
    const std::string text(bytes, length);
    std::free(bytes);
    return text;
}

// A hundred times four threads use four clients, since those of threads that ended go on.
void threads_that_come_and_go(const std::string &folder) {
    const auto host = alog::make_host(config, folder, alog_options{2, 4, 0, 0});
    const auto logger = alog::make_logger(host, "net");
    std::size_t errors = 0;
    logger->set_error_handler([&errors](const std::string &) { errors++; });
    for (int round = 0; round < 100; round++) {
        std::vector<std::thread> threads;
        for (int thread = 0; thread < 4; thread++)
            threads.emplace_back([&logger] {
                for (int i = 0; i < 10; i++)
                    logger->info("x");
            });
        for (std::thread &it : threads)
            it.join();
    }
    const alog_report report = host->stop();
    EXPECT(errors, 0);
    EXPECT(report.handled, 4000);
    EXPECT(report.faults, 0);
    EXPECT(host->failures(), 0);
    EXPECT(content(folder).size(), 4000 * std::string("net I : x\n").size());
    std::remove(path_of(folder.c_str(), "log.txt"));
}

void messages(const std::string &folder) {
    const auto host = alog::make_host(config, folder, 1);
    const auto net = alog::make_logger(host, "net"), disk = alog::make_logger(host, "disk");
    std::vector<std::string> errors;
    net->set_error_handler([&errors](const std::string &words) { errors.push_back(words); });
    net->set_level(spdlog::level::trace);
    net->debug("below the level of alog");
    net->debug(std::string(9000, 'x'));
    net->info("one {}", 1);
    net->log(spdlog::source_loc{"src/a.cpp", 7, "f"}, spdlog::level::critical, "two");
    disk->warn("below the level of alog");
    disk->error("three");
    host->set_level("disk", ALOG_WARNING);
    disk->warn("four");
    EXPECT(thrown([&host] { host->set_level("nobody", ALOG_WARNING); }).find("no such logger") != std::string::npos, 1);
    net->set_level(spdlog::level::err);
    net->info("below the level of spdlog");
    net->error(std::string("\xff"));
    net->error(std::string(101, 'x'));
    net->flush();
    disk->flush();
    EXPECT(errors.size(), 2);
    EXPECT(host->refused(), 2);
    EXPECT(errors.empty() ? 0 : errors[0].find("UTF-8") != std::string::npos, 1);
    EXPECT(alog::make_logger(host, "net")->level() == spdlog::level::info, 1);
    EXPECT(thrown([&host] { alog::make_logger(host, "nobody"); }).find("no such logger") != std::string::npos, 1);
    const alog_report report = host->stop();
    EXPECT(report.handled, 4 + 2);
    EXPECT_TEXT(content(folder).c_str(), "net I : one 1\nnet C a.cpp:7 two\ndisk E : three\ndisk W : four\n");
    // behind the end each log is refused
    net->error("late");
    EXPECT(errors.size(), 3);
    EXPECT(host->refused(), 3);
    int first_errno = 1;
    EXPECT(host->failures(first_errno), 0);
    EXPECT(first_errno, 0);
    EXPECT(thrown([&host] { host->stop(); }).empty(), 0);
}

// The time of a message is spdlog's, to the nanosecond; a logger has its name; and what is no host, or has ended, is refused.
void times_and_names(const std::string &folder) {
    const auto host = alog::make_host("[[sink]]\nname = \"file\"\nkind = \"memory\"\nfile = \"log.txt\"\npattern = \"%E.%F %v\"\n"
                                      "[[logger]]\nname = \"net\"\nsinks = [\"file\"]\n",
                                      folder, 1);
    const auto net = alog::make_logger(host, "net");
    std::vector<std::string> errors;
    net->set_error_handler([&errors](const std::string &words) { errors.push_back(words); });
    std::remove(path_of(folder.c_str(), "log.txt"));
    EXPECT_TEXT(net->name().c_str(), "net");
    const std::chrono::nanoseconds time(1706974546123456789);
    net->log(spdlog::log_clock::time_point(std::chrono::duration_cast<spdlog::log_clock::duration>(time)), spdlog::source_loc{}, spdlog::level::info, "x");
    EXPECT_TEXT(thrown([] { alog::make_logger(nullptr, "net"); }).c_str(), "alog: A pointer is null.");
    EXPECT(host->stop().handled, 1);
    EXPECT_TEXT(content(folder).c_str(), "1706974546.123456789 x\n");
    net->flush();
    EXPECT(errors.size(), 1);
}

// A pattern of spdlog's has no effect, by whichever call it is set; a sink by itself is refused as a logger is.
void patterns(const std::string &folder) {
    const auto host = alog::make_host(config, folder, 1);
    const auto sink = std::make_shared<alog::spdlog_sink>(host, "net");
    spdlog::logger net("other", sink);
    std::remove(path_of(folder.c_str(), "log.txt"));
    net.info("one");
    net.set_pattern("[%l] %v");
    net.info("two");
    sink->set_pattern("[%l] %v");
    net.info("three");
    sink->set_formatter(std::unique_ptr<spdlog::formatter>(new spdlog::pattern_formatter("[%l] %v")));
    net.info("four");
    net.set_formatter(std::unique_ptr<spdlog::formatter>());
    sink->set_level(spdlog::level::err);
    net.info("below the level of the sink");
    EXPECT_TEXT(thrown([] { alog::spdlog_sink(nullptr, "net"); }).c_str(), "alog: A pointer is null.");
    EXPECT_TEXT(thrown([&host] { alog::spdlog_sink(host, "nobody"); }).c_str(), "alog: There is no such logger. nobody");
    EXPECT(host->stop().handled, 4);
    EXPECT_TEXT(content(folder).c_str(), "net I : one\nnet I : two\nnet I : three\nnet I : four\n");
    EXPECT(thrown([&sink] { sink->flush(); }).empty(), 0);
    EXPECT(host->refused(), 0);
}

// A source without names, and one that is too long or no UTF-8, without which the message goes.
void sources(const std::string &folder) {
    const auto host = alog::make_host(config, folder, 1);
    const auto net = alog::make_logger(host, "net");
    const std::string file(257, 'f'), function(129, 'f');
    std::size_t errors = 0;
    net->set_error_handler([&errors](const std::string &) { errors++; });
    std::remove(path_of(folder.c_str(), "log.txt"));
    net->log(spdlog::source_loc{nullptr, 7, nullptr}, spdlog::level::info, "one");
    net->log(spdlog::source_loc{file.c_str(), 7, "f"}, spdlog::level::info, "two");
    net->log(spdlog::source_loc{"a.cpp", 7, function.c_str()}, spdlog::level::info, "three");
    net->log(spdlog::source_loc{"\xff.cpp", 7, "f"}, spdlog::level::info, "four");
    net->log(spdlog::source_loc{"\xff.cpp", 7, "f"}, spdlog::level::info, std::string("\xff"));
    EXPECT(host->stop().handled, 4);
    EXPECT(errors, 1);
    EXPECT(host->refused(), 1);
    EXPECT_TEXT(content(folder).c_str(), "net I :7 one\nnet I : two\nnet I : three\nnet I : four\n");
}

// What logs when its thread ends, before the client of the thread is gone or behind that.
struct late {
    const std::shared_ptr<spdlog::logger> to;
    ~late() {
        to->info("late");
        to->flush();
    }
};

void ends_of_threads(const std::string &folder) {
    const auto host = alog::make_host(config, folder, 1);
    const auto net = alog::make_logger(host, "net");
    std::vector<std::string> errors;
    net->set_error_handler([&errors](const std::string &words) { errors.push_back(words); });
    std::remove(path_of(folder.c_str(), "log.txt"));
    std::thread([&net] {
        static thread_local const late behind{net};
        net->info("{}", behind.to == net);
        static thread_local const late before{net};
        net->info("{}", before.to == net);
    }).join();
    EXPECT(errors.size(), 0);
    EXPECT(host->refused(), 0);
    EXPECT(host->stop().handled, 6);
    EXPECT_TEXT(content(folder).c_str(), "net I : true\nnet I : true\nnet I : late\nnet I : late\n");
}

// A host that allows one client: what a thread logs behind the end of its own goes by the same, and is refused where another thread has it.
void one_client(const std::string &folder) {
    const auto host = alog::make_host(config, folder, alog_options{1, 1, 0, 0});
    const auto net = alog::make_logger(host, "net");
    std::size_t errors = 0;
    net->set_error_handler([&errors](const std::string &) { errors++; });
    std::remove(path_of(folder.c_str(), "log.txt"));
    const auto ends = [&net] {
        std::thread([&net] {
            static thread_local const late behind{net};
            net->info("{}", behind.to == net);
        }).join();
    };
    ends();
    EXPECT(errors, 0);
    net->info("mine");
    ends();
    EXPECT(errors, 3);
    EXPECT(host->refused(), 2);
    // what alog's level hides is not refused, though there is no client for it
    net->set_level(spdlog::level::trace);
    std::thread([&net] {
        net->debug("hidden");
        net->trace(std::string(9000, 'x'));
    }).join();
    EXPECT(errors, 3);
    EXPECT(host->refused(), 2);
    std::thread([&net] { net->info("mine, and none"); }).join();
    EXPECT(errors, 4);
    EXPECT(host->refused(), 3);
    EXPECT(host->stop().handled, 4);
    EXPECT_TEXT(content(folder).c_str(), "net I : true\nnet I : late\nnet I : mine\n");
    ends();
    EXPECT(host->refused(), 5);
}

#ifndef IS_SANITIZED
// Children that end by exit, which destroys their copy of a host: they end, and write nothing.
void children(const std::string &folder) {
    static std::shared_ptr<alog::host> host;
    static std::shared_ptr<spdlog::logger> net;
    host = alog::make_host(config, folder, 1);
    net = alog::make_logger(host, "net");
    std::remove(path_of(folder.c_str(), "log.txt"));
    for (int i = 0; i < 20; i++) {
        net->info("x");
        // (a worker that sleeps, and one that does not yet)
        std::this_thread::sleep_for(std::chrono::milliseconds(i % 2 * 5));
        const pid_t child = fork();
        if (child == 0)
            std::exit(0);
        EXPECT(has_ended(child), 1);
    }
    net.reset();
    EXPECT(host->stop().handled, 20);
    host.reset();
    EXPECT(content(folder).size(), 20 * std::string("net I : x\n").size());
}
#endif

// How many bytes are allocated, where the C library tells.
std::size_t allocated() {
#if defined(__GLIBC__) && __GLIBC_PREREQ(2, 33)
    return mallinfo2().uordblks;
#else
    return 0;
#endif
}

void one_host(const std::string &folder) {
    const auto host = alog::make_host(config, folder, 1);
    alog::make_logger(host, "net")->info("x");
    EXPECT(host->stop().handled, 1);
}

// Nothing stays of hosts that have ended, though the thread that logged goes on.
void hosts_that_come_and_go(const std::string &folder) {
    for (int round = 0; round < 10; round++)
        one_host(folder);
    const std::size_t before = allocated();
    for (int round = 0; round < 50; round++)
        one_host(folder);
    EXPECT(allocated() < before + 50 * 100, 1);
}

void refusals(const std::string &folder) {
    const auto host = alog::make_host(config, folder, 1);
    EXPECT(thrown([&host] { host->find(std::string("net\0work", 8)); }).find("There is no such logger.") != std::string::npos, 1);
    host->stop();
    EXPECT(thrown([&folder] { alog::make_host("queue = 3", folder, 1); }).find("it may have a power of two, 2 to 65536") != std::string::npos, 1);
    EXPECT(thrown([&folder] { alog::make_host(config, folder + "/absent", 1); }).find("no files can be written") != std::string::npos, 1);
    EXPECT(thrown([&folder] { alog::make_host(config, folder, 3); }).empty(), 0);
    // a host that is let go without its end is ended
    alog::make_host(config, folder, 1);
    alog::make_host(config, folder, 1);
}

} // namespace

int main(int argc, char **argv) {
    if (argc != 2)
        return 2;
    threads_that_come_and_go(argv[1]);
    messages(argv[1]);
    times_and_names(argv[1]);
    patterns(argv[1]);
    sources(argv[1]);
    ends_of_threads(argv[1]);
    one_client(argv[1]);
    hosts_that_come_and_go(argv[1]);
    refusals(argv[1]);
#ifndef IS_SANITIZED
    children(argv[1]);
#endif
    return trial_end();
}
