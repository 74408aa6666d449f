// Prints the entries of a request's contact sheet, from C++. With the release archive:
//
//   c++ -std=c++17 include/example.cpp $(pkg-config --cflags --libs ukhtvaresh) -o example_cpp
//   ./example_cpp < examples/moscow1954.bin
#include <array>
#include <cstdint>
#include <iostream>
#include <iterator>
#include <vector>

#include "ukhtvaresh.h"

static int refused(std::uint64_t number, std::uint64_t place)
{
    std::cerr << "refused " << number << ' ' << place << '\n';
    return 1;
}

int main()
{
    const std::vector<char> input{std::istreambuf_iterator<char>(std::cin), {}};
    const std::vector<std::uint8_t> request(input.begin(), input.end());
    std::array<std::uint32_t, UKHTVARESH_SINES_LENGTH> sines{};
    std::vector<std::uint8_t> sheet(65536);
    // No pointer may be null, also that of an empty vector.
    const std::uint8_t none = 0;
    std::uint64_t length = 0;
    std::uint64_t number = ukhtvaresh_sheet(request.empty() ? &none : request.data(), request.size(), sines.data(), sines.size(),
                                            sheet.data(), sheet.size(), &length);
    if (number != 0)
        return refused(number, length);

    // An entry is five numbers; as many numbers as the sheet has bytes are always enough.
    std::vector<std::uint32_t> entries(length);
    std::uint64_t count = 0;
    number = ukhtvaresh_read(sheet.data(), length, entries.data(), entries.size(), &count);
    if (number != 0)
        return refused(number, count);
    for (std::uint64_t entry = 0; entry < count; ++entry) {
        std::cout << std::hex << entries[5 * entry] << std::dec;
        for (std::uint64_t field = 1; field < 5; ++field)
            std::cout << ' ' << entries[5 * entry + field];
        std::cout << '\n';
    }
    std::cerr << "ukhtvaresh " << UKHTVARESH_VERSION << '\n';
    return 0;
}
