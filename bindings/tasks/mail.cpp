// The dates of mail on the standard input, as RFC 3339, or why they are none.
#include <iostream>
#include <movaliren.hpp>

int main()
{
    for (std::string date; std::getline(std::cin, date);)
        if (const auto moment = movaliren::read_local(movaliren::rfc2822_lenient, date))
            std::cout << movaliren::format(movaliren::rfc3339, moment.value()) << '\n';
        else
            std::cout << "no date: " << moment.message() << '\n';
}
