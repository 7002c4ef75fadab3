// A server that logs by spdlog's calls, and whose lines alog writes: spdlog CONFIG FOLDER
#include "alog_spdlog.h"

#include <fstream>
#include <iostream>
#include <iterator>
#include <string>
#include <thread>
#include <vector>

#include <spdlog/spdlog.h>

int main(int argc, char **argv) try {
    if (argc != 3) {
        std::cerr << "spdlog: wanted are a configuration and a folder\n";
        return 1;
    }
    std::ifstream file(argv[1], std::ios::binary);
    const std::string document{std::istreambuf_iterator<char>(file), {}};
    const auto host = alog::make_host(document, argv[2], 2);
    spdlog::set_default_logger(alog::make_logger(host, "net"));
    std::vector<std::thread> threads;
    for (int thread = 0; thread < 4; thread++)
        threads.emplace_back([thread] {
            for (int request = 0; request < 1000; request++)
                spdlog::info("thread {} served request {}", thread, request);
        });
    for (std::thread &it : threads)
        it.join();
    spdlog::shutdown();
    const alog_report report = host->stop();
    std::cout << "asked " << report.asked << "\nposted " << report.posted << "\ndiscarded " << report.discarded << "\noverrun " << report.overrun
              << "\nhandled " << report.handled << "\nfaults " << report.faults << "\nfailures " << host->failures() << '\n';
    return report.faults == 0 && host->refused() == 0 && host->failures() == 0 ? 0 : 1;
} catch (const alog::error &error) {
    std::cerr << "spdlog: " << error.what() << '\n';
    return 1;
}
