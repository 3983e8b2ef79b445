// What each peer does: read standard input as JSON so many times and print how many values it had in
// all, and how many bytes its strings and names had behind their escapes, in 64 bits; or `fault`.
#pragma once
#include <cstdint>
#include <cstdio>
#include <cstdlib>
#include <optional>
#include <string>

struct Counts {
    std::uint64_t values = 0;
    std::uint64_t bytes = 0;
};

inline std::string read_all(std::FILE *file) {
    std::string all;
    char piece[65536];
    std::size_t n;
    while ((n = std::fread(piece, 1, sizeof piece, file)) > 0) {
        all.append(piece, n);
    }
    return all;
}

// `once` adds what one reading counts, and tells whether the bytes are a text.
template <typename Once>
int run(int argc, char **argv, Once once) {
    if (argc != 2) {
        return 2;
    }
    long times = std::strtol(argv[1], nullptr, 10);
    std::string bytes = read_all(stdin);
    Counts counts;
    bool is_text = true;
    for (long i = 0; i < times; i++) {
        is_text = once(bytes, counts);
    }
    if (is_text) {
        std::printf("values=%llu bytes=%llu\n", (unsigned long long)counts.values, (unsigned long long)counts.bytes);
    } else {
        std::printf("fault\n");
    }
    return 0;
}
