// A server whose four threads log texts that fmt makes, and whose lines two workers of alog write: fmt CONFIG FOLDER
#include "alog_fmt.h"

#include <fstream>
#include <iostream>
#include <iterator>
#include <string>
#include <thread>
#include <vector>

int main(int argc, char **argv) try {
    if (argc != 3) {
        std::cerr << "fmt: wanted are a configuration and a folder\n";
        return 1;
    }
    std::ifstream file(argv[1], std::ios::binary);
    const std::string document{std::istreambuf_iterator<char>(file), {}};
    const auto host = alog::make_host(document, argv[2], 2);
    const alog::logger net(host, "net");
    std::vector<std::thread> threads;
    for (int thread = 0; thread < 4; thread++)
        threads.emplace_back([&net, thread] {
            for (int request = 0; request < 1000; request++)
                net.info("thread {} served request {}", thread, request);
        });
    for (std::thread &it : threads)
        it.join();
    const alog_report report = host->stop();
    std::cout << "asked " << report.asked << "\nposted " << report.posted << "\ndiscarded " << report.discarded << "\noverrun " << report.overrun
              << "\nhandled " << report.handled << "\nfaults " << report.faults << "\nfailures " << host->failures() << '\n';
    return report.faults == 0 && host->refused() == 0 && host->failures() == 0 ? 0 : 1;
} catch (const alog::error &error) {
    std::cerr << "fmt: " << error.what() << '\n';
    return 1;
}
