// growth.cpp: how long a set takes to grow, and what that costs a program that asks for no size.
// Compiled and run by bench/growth:
//
//     growth pause KEYS      writes how long the growth of a set takes when it has that many keys
//     growth insert KEYS     four threads insert that many random keys into a set without a size,
//                            and into one that was made large enough; writes both times
//     growth memory KEYS     one thread inserts random keys into a set without a size; writes for each
//                            growth below KEYS keys the resident memory before, at most, and after,
//                            in bytes for each key
//
// The times are of the clock, in milliseconds.
#include "nm_set.hpp"

#include <chrono>
#include <cstdio>
#include <cstdlib>
#include <cstring>
#include <fstream>
#include <malloc.h>
#include <string>
#include <thread>
#include <vector>

namespace {

constexpr int threads = 4;

double millis(std::chrono::steady_clock::time_point from) {
    return std::chrono::duration<double, std::milli>(std::chrono::steady_clock::now() - from)
        .count();
}

// Scattered keys, all different: the numbers from 0 on, by two steps that lose nothing.
std::uint64_t scattered(std::uint64_t number) {
    number = (number ^ number >> 30) * 0xbf58476d1ce4e5b9;
    number = (number ^ number >> 27) * 0x94d049bb133111eb;
    return (number ^ number >> 31) >> 1;
}

// Inserts the keys of some numbers by four threads; returns how long that took.
double filled(nm::Set &set, std::uint64_t keys) {
    auto begun = std::chrono::steady_clock::now();
    std::vector<std::thread> all;
    for (int one = 0; one < threads; one++)
        all.emplace_back([&, one] {
            for (std::uint64_t number = one; number < keys; number += threads)
                set.insert(scattered(number));
        });
    for (std::thread &thread : all) thread.join();
    return millis(begun);
}

void write_pause(std::uint64_t keys) {
    nm::Options options;
    options.timeout_ms = 600'000;
    nm::Set set(2 * keys + 5, options);
    filled(set, keys);
    auto begun = std::chrono::steady_clock::now();
    set.reserve(4 * keys);
    std::printf("%12llu keys: %9.1f ms\n", static_cast<unsigned long long>(keys), millis(begun));
}

void write_insert(std::uint64_t keys) {
    nm::Options options;
    options.timeout_ms = 600'000;
    auto begun = std::chrono::steady_clock::now();
    double growing = 0, sized = 0;
    {
        nm::Set set(options);
        filled(set, keys);
        growing = millis(begun);
        std::printf("without a size: %9.1f ms, with room for %llu keys in the end\n", growing,
                    static_cast<unsigned long long>(set.capacity()));
    }
    begun = std::chrono::steady_clock::now();
    nm::Set set(2 * keys + 5 + 2 * options.workers, options);
    double made = millis(begun);
    filled(set, keys);
    sized = millis(begun);
    std::printf("large enough:   %9.1f ms, of which its making takes %.1f ms\n", sized, made);
    std::printf("ratio: %.2f\n", growing / sized);
}

// A field of /proc/self/status in kilobytes, as bytes.
double field(const char *name) {
    std::ifstream status("/proc/self/status");
    std::string word;
    double kilobytes = 0;
    while (status >> word)
        if (word == name) status >> kilobytes;
    return kilobytes * 1024;
}

// Grows a set once, so that the program's own code is in memory before that of a set is measured.
void write_once() {
    nm::Set set;
    for (std::uint64_t key = 0; key <= 10000; key++) set.insert(scattered(key));
}

void write_memory(std::uint64_t most) {
    write_once(), malloc_trim(0);
    double begun = field("VmRSS:");
    nm::Set set;
    for (std::uint64_t keys = 0;; keys++) {
        std::uint64_t capacity = set.capacity();
        if (keys < capacity) {
            set.insert(scattered(keys));
            continue;
        }
        if (keys > most) return;
        double before = field("VmRSS:") - begun;
        std::ofstream("/proc/self/clear_refs") << 5; // the greatest memory begins anew
        set.insert(scattered(keys));
        std::printf("%12llu keys: %4.0f bytes a key before, %4.0f at most, %4.0f after\n",
                    static_cast<unsigned long long>(keys), before / keys,
                    (field("VmHWM:") - begun) / keys, (field("VmRSS:") - begun) / keys);
    }
}

}  // namespace

int main(int count, char **words) {
    std::uint64_t keys = count > 2 ? std::strtoull(words[2], nullptr, 10) : 0;
    if (keys != 0 && std::strcmp(words[1], "pause") == 0) return write_pause(keys), 0;
    if (keys != 0 && std::strcmp(words[1], "insert") == 0) return write_insert(keys), 0;
    if (keys != 0 && std::strcmp(words[1], "memory") == 0) return write_memory(keys), 0;
    std::fputs("growth pause KEYS, growth insert KEYS, or growth memory KEYS\n", stderr);
    return 2;
}
