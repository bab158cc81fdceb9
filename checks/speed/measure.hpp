// What the drivers of the peers in C++ share: reading a file, the least time of some calls, and the most memory.
#pragma once
#include <algorithm>
#include <chrono>
#include <cstdint>
#include <cstdio>
#include <cstdlib>
#include <fstream>
#include <iterator>
#include <limits>
#include <string>

inline std::string file_bytes(const char *path) {
    std::ifstream in(path, std::ios::binary);
    return {std::istreambuf_iterator<char>(in), std::istreambuf_iterator<char>()};
}

// The most resident memory in kB, as Linux says it.
inline std::string peak() {
    std::ifstream in("/proc/self/status");
    for (std::string line; std::getline(in, line);)
        if (line.rfind("VmHWM:", 0) == 0) return line.substr(line.find_first_not_of(" \t", 6));
    return "0 kB";
}

// Calls `call` some times, each of which gives what it made, and prints the least nanoseconds of a call, `count` of the last, and the memory.
template <typename Call, typename Count>
void measure(int times, Call call, Count count) {
    long long least = std::numeric_limits<long long>::max();
    unsigned long long given = 0;
    for (int i = 0; i < times; i++) {
        auto start = std::chrono::steady_clock::now();
        auto made = call();
        auto taken = std::chrono::steady_clock::now() - start;
        least = std::min<long long>(least, std::chrono::duration_cast<std::chrono::nanoseconds>(taken).count());
        given = count(made);
    }
    std::printf("%lld %llu %s\n", least, given, peak().c_str());
}
