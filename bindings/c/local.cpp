// Logs local time with milliseconds: the clock's, and that of each moment on the standard input, by its seconds since 1970
// and its nanosecond. Built over an installed library by
//     c++ -std=c++17 local.cpp $(pkg-config --cflags --libs movaliren)
#include <chrono>
#include <ctime>
#include <iostream>
#include <movaliren.hpp>

static void log(movaliren::sys_time<std::chrono::nanoseconds> now)
{
    const std::time_t second = std::chrono::floor<std::chrono::seconds>(now).time_since_epoch().count();
    std::tm local;
    localtime_r(&second, &local);
    std::cout << movaliren::format(movaliren::iso8601(3), now, std::chrono::seconds(local.tm_gmtoff)) << " opened\n";
}

int main()
{
    log(std::chrono::system_clock::now());
    for (long seconds, nanosecond; std::cin >> seconds >> nanosecond;)
        log(movaliren::sys_time<std::chrono::nanoseconds>(
            std::chrono::seconds(seconds) + std::chrono::nanoseconds(nanosecond)));
}
