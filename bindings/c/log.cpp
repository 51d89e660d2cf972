// Eight threads log the clock with milliseconds. Built over an installed library by
//     c++ -std=c++17 log.cpp -pthread $(pkg-config --cflags --libs movaliren)
#include <chrono>
#include <iostream>
#include <movaliren.hpp>
#include <string>
#include <thread>
#include <vector>

int main()
{
    using clock = std::chrono::system_clock;
    for (int milliseconds : { -1, -999, -1000, -86399999 })
        std::cout << movaliren::format(movaliren::iso8601(3), clock::time_point(std::chrono::milliseconds(milliseconds))) << " before 1970\n";
    std::vector<std::thread> threads;
    for (char name = 'a'; name <= 'h'; name++)
        threads.emplace_back([name] {
            for (char line = '0'; line < '3'; line++)
                std::cout << movaliren::format(movaliren::iso8601(3), clock::now()).value() + ' ' + name + " line " + line + '\n';
        });
    for (auto &thread : threads)
        thread.join();
}
