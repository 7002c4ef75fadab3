// What the test programs in C++ share beside trial.h.
#ifndef TRIAL_HPP
#define TRIAL_HPP

#include "alog_clients.h"
#include "trial.h"

#include <chrono>
#include <string>
#include <thread>

#include <signal.h>
#include <sys/wait.h>

// (under a sanitizer a child that ends by exit ends otherwise, and that of threads has an operator new of its own)
#if defined(__SANITIZE_THREAD__)
#define IS_SANITIZED
#define HAS_NO_NEW
#elif defined(__SANITIZE_ADDRESS__)
#define IS_SANITIZED
#elif defined(__has_feature)
#if __has_feature(thread_sanitizer)
#define IS_SANITIZED
#define HAS_NO_NEW
#elif __has_feature(address_sanitizer)
#define IS_SANITIZED
#endif
#endif

// What a call throws, or nothing.
template <typename Call> std::string thrown(Call call) {
    try {
        call();
    } catch (const alog::error &error) {
        return error.what();
    }
    return "";
}

// Whether a child has ended by itself with status 0 within ten seconds; one that has not is ended.
inline bool has_ended(pid_t child) {
    int status = 1;
    for (int i = 0; i < 10000 && trial_failed < 8; i++) {
        if (waitpid(child, &status, WNOHANG) == child)
            return status == 0;
        std::this_thread::sleep_for(std::chrono::milliseconds(1));
    }
    kill(child, SIGKILL);
    waitpid(child, nullptr, 0);
    return false;
}

#endif
