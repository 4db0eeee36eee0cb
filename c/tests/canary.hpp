// What the tests of maps in C++ share: an object that knows whether it was destroyed, and counts.
#ifndef CANARY_HPP
#define CANARY_HPP

#include "holds.h"

#include <atomic>
#include <cstdint>

// An object of a key. Whoever reads it after its end finds another mark, unless the memory is in
// use again, which the sanitizers find.
class Canary {
public:
    inline static std::atomic<std::uint64_t> made{0}, destroyed{0};

    explicit Canary(std::uint64_t key) noexcept : key_(key), mark_(mark_of(key)) { made++; }

    Canary(const Canary &) = delete;
    Canary &operator=(const Canary &) = delete;

    virtual ~Canary() {
        CHECK(is_of(key_));
        mark_ = 0;
        destroyed++;
    }

    [[nodiscard]] bool is_of(std::uint64_t key) const noexcept {
        return key_ == key && mark_ == mark_of(key);
    }

    [[nodiscard]] static std::uint64_t alive() noexcept { return made - destroyed; }

private:
    static std::uint64_t mark_of(std::uint64_t key) noexcept { return ~key ^ 0x9e3779b97f4a7c15; }

    std::uint64_t key_;
    volatile std::uint64_t mark_;  // so that the compiler keeps the last write to it
};

#endif
