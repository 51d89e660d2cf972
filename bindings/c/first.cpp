#include <iostream>
#include <movaliren.hpp>

int main()
{
    std::cout << movaliren::format(movaliren::rfc3339, std::chrono::system_clock::now()) << " started\n";
}
