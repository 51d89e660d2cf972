// A line of a log with the time of now, in UTC with milliseconds.
#include <iostream>
#include <movaliren.hpp>

int main()
{
    std::cout << movaliren::format(movaliren::iso8601(3), std::chrono::system_clock::now()) << " opened\n";
}
