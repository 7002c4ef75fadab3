// A server in C++: four threads serve requests and log them, and two workers write the lines. server CONFIG FOLDER
#include "alog_host.h"

#include <fstream>
#include <functional>
#include <iostream>
#include <iterator>
#include <stdexcept>
#include <string>
#include <thread>
#include <vector>

// What an answer that is a refusal, or a loss, becomes.
void expect(alog_answer answer) {
    if (answer != ALOG_DONE && answer != ALOG_FILTERED)
        throw std::runtime_error(alog_says(answer));
}

// What one thread logs with, as long as it lives.
class Client {
  public:
    explicit Client(alog_host &host) { expect(alog_client_open(&host, &client)); }
    ~Client() { alog_client_close(&client); }
    Client(const Client &) = delete;
    Client &operator=(const Client &) = delete;

    uint32_t logger(const std::string &name) {
        uint32_t number = 0;
        expect(alog_find(&client.producer, name.c_str(), &number));
        return number;
    }

    void log(uint32_t logger, alog_level level, const std::string &text) { expect(alog_log_wait(&client, logger, level, text.data(), text.size())); }

  private:
    alog_client client{};
};

void serve(alog_host &host, int thread) try {
    Client client(host);
    const uint32_t net = client.logger("net");
    for (int request = 0; request < 1000; request++)
        client.log(net, ALOG_INFO, "thread " + std::to_string(thread) + " served request " + std::to_string(request));
} catch (const std::runtime_error &error) {
    std::cerr << "server: thread " << thread << ": " << error.what() << '\n';
}

int main(int argc, char **argv) try {
    static alog_host host;
    if (argc != 3) {
        std::cerr << "server: wanted are a configuration and a folder\n";
        return 1;
    }
    std::ifstream file(argv[1], std::ios::binary);
    const std::string config{std::istreambuf_iterator<char>(file), {}};
    const alog_answer answer = alog_start(&host, config.data(), config.size(), argv[2], 2);
    if (answer != ALOG_DONE) {
        std::cerr << "server: " << alog_says(answer) << ' ' << host.told << '\n';
        return 1;
    }
    std::vector<std::thread> threads;
    for (int number = 0; number < 4; number++)
        threads.emplace_back(serve, std::ref(host), number);
    for (std::thread &it : threads)
        it.join();
    alog_report report{};
    expect(alog_stop(&host, &report));
    std::cout << "asked " << report.asked << "\nposted " << report.posted << "\ndiscarded " << report.discarded << "\noverrun " << report.overrun
              << "\nhandled " << report.handled << "\nfaults " << report.faults << "\nfailures " << host.failures << '\n';
    return report.faults == 0 && host.failures == 0 ? 0 : 1;
} catch (const std::runtime_error &error) {
    std::cerr << "server: " << error.what() << '\n';
    return 1;
}
