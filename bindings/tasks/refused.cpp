// A value that a format refuses, and a text that is no description, are told.
#include <iostream>
#include <movaliren.hpp>

int main()
{
    const auto text = movaliren::format(movaliren::rfc3339, movaliren_moment{ 10000, 1, 1, 0, 0, 0, 0, 0, 0, 0 });
    if (!text)
        std::cout << "no text: " << text.error().message() << '\n';
    try {
        movaliren::description::parse_strftime("at %Q");
    } catch (const movaliren::invalid_description &error) {
        std::cout << "no description: " << error.what() << '\n';
    }
}
