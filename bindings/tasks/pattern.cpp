// A moment by the pattern in the syntax of strftime that a file has, whose path is the argument.
#include <fstream>
#include <iostream>
#include <movaliren.hpp>

int main(int, char **words)
{
    std::string text;
    std::getline(std::ifstream(words[1]), text);
    const auto pattern = movaliren::description::parse_strftime(text);
    std::cout << movaliren::format(pattern, movaliren_utc_moment{ 1795362906, 0 }) << '\n';
}
