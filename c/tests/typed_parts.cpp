// Sets of floats, strings and values of several parts: each answers like a std::set of its type, and
// values that have no place in the order are refused.
#include "typed.hpp"

#include <cmath>
#include <cstdio>

namespace {

enum class Answer : std::uint8_t { no, yes };

// A value that has no place in the order is refused by each call that takes a key or a bound.
template <typename T>
void has_no_place(const T &none, const T &some, const std::string &shown) {
    const std::string text = "the value " + shown + " is no key: it has no place in the order";
    constexpr std::chrono::milliseconds soon(1);
    nm::SetOf<T> set(64, nm::keys, {some});
    CHECK(!set.contains(none) && set.count(none) == 0 && set.find(none) == set.end());
    CHECK(set.try_insert(none) == NM_KEY && set.try_contains(none) == NM_KEY);
    CHECK(fault_of([&] { set.insert(none); }).text == text);
    CHECK(fault_of([&] { (void)set.range(none, some); }).text == text);
    CHECK(fault_of([&] { (void)set.count(some, none); }).text == text);
    CHECK(fault_of([&] { (void)set.lower_bound(none); }).text == text);
    CHECK(fault_of([&] { (void)set.at_most(none); }).text == text);
    CHECK(fault_of([&] { set.pop_first(none); }).text == text && set.size() == 1);
    CHECK(fault_of([&] { (void)set.wait_first(none, soon); }).text == text);
    nm::MapOf<T, int> map(64, {{some, 5}});
    auto worker = map.attach();
    CHECK(fault_of([&] { worker.insert(none, 5); }).text == text && !worker.contains(none));
    CHECK(fault_of([&] { (void)worker.get(none); }).text == text);
    CHECK(fault_of([&] { (void)worker.keys(none); }).text == text && worker.count(none) == 0);
    CHECK(fault_of([&] { (void)worker.pin().contains(none); }).outcome == NM_DONE);
}

void numbers_that_are_none() {
    constexpr double none = std::numeric_limits<double>::quiet_NaN();
    has_no_place<double>(none, 1.5, "nan");
    has_no_place<double>(-none, 1.5, "nan");
    has_no_place<float>(static_cast<float>(none), 1.5f, "nan");
    has_no_place<std::pair<float, std::uint32_t>>({static_cast<float>(none), 0u}, {1, 0u}, "(nan, 0)");
    has_no_place<std::pair<std::uint8_t, float>>({7, static_cast<float>(none)}, {7, 0.5f}, "(7, nan)");
    has_no_place<std::chrono::duration<double>>(std::chrono::duration<double>(none),
                                                std::chrono::duration<double>(1), "nan");
    CHECK(nm::detail::shown(std::pair(0.1f, -2.5f)) == "(0.1, -2.5)" &&
          nm::detail::shown(1e300 / 3) == "3.3333333333333335e+299");
}

// 0.0 and -0.0 are equal, and one key.
template <typename T>
void zeros_are_one_key() {
    nm::SetOf<T> set;
    CHECK(set.insert(T(-0.0)) && !set.insert(T(0)) && set.contains(T(-0.0)));
    CHECK(!std::signbit(*set.first()) && set.remove(T(0)) && set.empty());
}

void strings_are_bytes() {
    using Four = nm::ShortString<4>;
    nm::SetOf<Four> set(nm::keys, {"tea", "", "salt", std::string("a\0b", 3), "\x80"});
    const std::vector<std::string> wanted{"", std::string("a\0b", 3), "salt", "tea", "\x80"};
    std::vector<std::string> all;
    for (const Four &each : set) all.emplace_back(each.view());
    CHECK(all == wanted && set.contains("tea") && set.first()->size() == 0);
    Thrown longer = fault_of([] { Four text("sugar"); });
    CHECK(longer.outcome == NM_KEY && longer.text == "the string \"sugar\" is no key: it has 5 bytes, "
                                                     "and the type has room for 4");
    CHECK(fault_of([] { Four text(std::string("a\0", 2)); }).text ==
          R"(the string "a\x00" is no key: its last byte is zero, which would be lost)");
    CHECK(fault_of([] { Four text(std::string(99, 'a')); }).text.find("aaa\".. is no key") < 99);
    // A std::array has all its bytes, also zero bytes at its end.
    nm::SetOf<std::array<char, 3>> arrays(nm::keys, {{'a'}, {'a', 'b'}});
    CHECK(arrays.contains({'a', '\0', '\0'}) && *arrays.first() == (std::array<char, 3>{'a'}));
}

}  // namespace

int main() {
    answers_like<std::pair<std::uint32_t, std::uint32_t>>({{1, 2}, {1, 0}, {0, 9}, {7, 0}, {1, 1}});
    answers_like<std::pair<std::int16_t, std::int8_t>>({{1, -2}, {-1, 0}, {-1, -9}, {7, 0}, {1, 1}});
    answers_like<std::pair<nm::Bits<40>, nm::Bits<24>>>(
        {{1700000000, 7}, {1700000000, 6}, {1699999999, 9}, {1800000000, 0}, {5, 1}});
    answers_like<double>({1.5, -2.5, 0, HUGE_VAL, -HUGE_VAL, 5e-324, -5e-324, 1e300});
    answers_like<nm::ShortString<3>>({"tea", "te", "\xff\xff\xff", "\x80", "b", ""});
    answers_like<std::array<char, 8>>({{'t', 'e'}, {}, {'t'}, {'\xff', 'a'}, {'t', 'e', '\1'}});
    answers_like<std::tuple<std::pair<std::int8_t, nm::ShortString<2>>, char, Answer>>(
        {{{-1, "a"}, 'x', Answer::no}, {{-1, "a"}, 'x', Answer::yes}, {{-1, ""}, 'y', Answer::no},
         {{5, "b"}, 'x', Answer::no}});
    zeros_are_one_key<float>();
    zeros_are_one_key<double>();
    numbers_that_are_none();
    strings_are_bytes();
    std::puts("a set of floats, strings and tuples answers like std::set");
}
