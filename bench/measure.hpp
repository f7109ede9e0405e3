// Timing: every runner of a cell is warmed up once, then all take turns in four rounds; the best run counts. Taking
// turns spreads a disturbance of the machine over all of them.
#pragma once
#include <algorithm>
#include <chrono>
#include <functional>
#include <string>
#include <vector>

struct Runner {
    std::string name;
    std::function<void()> run;
    double best = 1e18; // microseconds
};

inline double microseconds(const std::function<void()> &run)
{
    auto start = std::chrono::steady_clock::now();
    run();
    return std::chrono::duration<double, std::micro>(std::chrono::steady_clock::now() - start).count();
}

inline void measure(std::vector<Runner> &runners, double round_us = 40000)
{
    for (Runner &r : runners)
        r.run();
    for (int round = 0; round < 4; round++) {
        for (Runner &r : runners) {
            double spent = 0;
            for (int runs = 0; runs < 1 || spent < round_us; runs++) {
                double us = microseconds(r.run);
                r.best = std::min(r.best, us);
                spent += us;
            }
        }
    }
}
