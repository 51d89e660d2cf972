// A line of RFC 3339 for each number of a column of milliseconds since 1970.
#include <iostream>
#include <movaliren.hpp>
#include <vector>

int main()
{
    std::vector<movaliren::sys_time<std::chrono::milliseconds>> column;
    for (const std::int64_t number : { 0LL, 1795362906120LL, -1LL, 253402300799999LL })
        column.emplace_back(std::chrono::milliseconds(number));
    std::cout << movaliren::lines(movaliren::rfc3339, column);
}
