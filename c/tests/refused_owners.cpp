// Tests owners in C++ if memory is refused: it repeats each call, which then ends like without the
// refusal. If any one allocation is refused, it writes the same text: refused_owners.out.
#include "thrown.hpp"

#include <algorithm>
#include <cstdio>

namespace {

constexpr std::uint32_t nodes = 512, workers = 2;
constexpr std::uint64_t keys = 100, step = 37, modulus = 101;

// Repeats a call each time that memory was refused, to the library or to its header: both are
// faults.
template <typename Call>
auto at_last(Call call) {
    for (;;) {
        try {
            return call();
        } catch (const nm::Fault &fault) {
            CHECK(fault.outcome() == NM_NO_MEMORY);
        }
    }
}

// A worker that was refused is at home still.
nm::Worker attached(nm::Set &set) {
    nm::Worker worker;
    nm_outcome told;
    while ((told = set.try_attach(worker)) == NM_NO_MEMORY) CHECK(!worker.is_open());
    CHECK(told == NM_DONE);
    return worker;
}

// A fault has its outcome, even if memory for its text is refused.
bool is_full() {
    try {
        nm::Set(7, nm::keys, {1u, 2u});
    } catch (const nm::Fault &fault) {
        return fault.outcome() == NM_NO_MEMORY ||
               (fault.outcome() == NM_FULL && *fault.what() != '\0');
    }
    return false;
}

// Removes all keys and inserts them again, by calls for several keys. A refusal loses no key, and
// no answer: if answers were lost, keys that are inserted again would be present.
void change_several() {
    nm::Set set = at_last([] { return unbalanced_set(4'096, workers); });
    constexpr std::uint64_t many = 1'200;
    for (std::uint64_t key = 0; key < many; key++) CHECK(at_last([&] { return set.insert(key); }));
    std::vector<std::uint64_t> popped, rest;
    std::vector<bool> answers;
    at_last([&] { nm::detail::in_memory([&] { popped.reserve(many), rest.reserve(many); }); });
    while (popped.size() < many) {
        auto some = at_last([&] { return set.pop_first_many(UINT64_MAX, SIZE_MAX); });
        popped.insert(popped.end(), some.begin(), some.end());
    }
    CHECK(set.size() == 0 && popped.front() == 0 && popped.back() == many - 1);
    while (answers.size() < many) {
        rest.assign(popped.begin() + static_cast<std::ptrdiff_t>(answers.size()), popped.end());
        try {
            set.insert_many(rest, answers);
        } catch (const nm::Fault &fault) {
            CHECK(fault.outcome() == NM_NO_MEMORY);
        }
    }
    CHECK(std::count(answers.begin(), answers.end(), true) == many && set.size() == many);
}

}  // namespace

int main() {
    nm::Set set = at_last([] { return unbalanced_set(nodes, workers); });
    nm::Worker worker = attached(set);
    for (std::uint64_t number = 0; number < keys; number += 2) {
        nm_outcome told;
        while ((told = worker.try_insert(number * step % modulus)) == NM_NO_MEMORY) {}
        CHECK(told == NM_YES);
        CHECK(at_last([&] { return set.insert((number + 1) * step % modulus); }));
    }
    worker.close();
    CHECK(is_full());
    change_several();
    const nm::Report report = at_last([&] { return set.close(); });
    CHECK(!set.is_open() && at_last([&] { return report.keys(); }).size() == keys);
    nm::Slots slots = report.slots();
    std::printf("keys %llu free %u reached %u\n",
                static_cast<unsigned long long>(report.size()), slots.free, slots.reached);
}
