// Sets and maps whose keys are of another type than std::uint64_t, over nm_set.hpp and nm_map.hpp:
//
//     nm::SetOf<std::int64_t> numbers;                       // negative numbers too
//     numbers.insert(-5);
//     nm::SetOf<std::pair<nm::Bits<40>, nm::Bits<24>>> due;  // a time, and a number at that time
//     due.insert({1700000000, 7});
//     nm::MapOf<nm::ShortString<8>, double> prices(4096);    // a map
//     prices.attach().insert("tea", 2.5);
//
// `nm::Set` is the set of std::uint64_t. A name of C++ is either a class or a template, so this
// one is `nm::SetOf`. `nm::KeyOf<T>` maps the values of a type to keys and back, and keeps their
// order. It is there for integers, float, double, enums, std::chrono durations and time points,
// `nm::Bits`, `nm::ShortString`, and for std::pair, std::tuple and std::array of these that have
// 64 bits together at most. A specialization of `nm::KeyOf` adds a type. Three keys are no keys,
// 2^64 - 3 and above: so of a type with 64 bits the three greatest values cannot be inserted,
// such as INT64_MAX - 2: NM_KEY, with the value in the text. No float or double is refused but
// NaN, which has no place in the order. -0.0 and 0.0 are one key, which comes back as 0.0.
//
// The mappings are tested by `c/check`, and not proved. At compile time each mapping is checked for
// some values: they ascend as their keys do, and each comes back.
#ifndef NM_KEYS_HPP
#define NM_KEYS_HPP

#include "nm_map.hpp"

#include <array>
#include <cstdio>
#include <cstdlib>
#include <iosfwd>
#include <limits>
#include <string_view>
#include <tuple>

namespace nm {

// Maps a type T to keys. A specialization has:
//     static constexpr unsigned bits;                             // keys are below 2^bits
//     static constexpr std::uint64_t key(const T &) noexcept;     // ascends with the values
//     static constexpr T value(std::uint64_t) noexcept;           // value(key(x)) == x
//     static constexpr std::array<T, N> samples;                  // ascending, for the check
// It may have:
//     static constexpr bool is_ordered(const T &) noexcept;       // false of NaN: it has no key
//     static std::string shown(const T &);                        // the value in a text
template <typename T, typename = void>
struct KeyOf;

// A number below 2^bits. Throws NM_KEY for a greater one; in a constant it does not compile.
template <unsigned bits_>
class Bits {
public:
    static_assert(bits_ >= 1 && bits_ <= 64, "a key has 1 to 64 bits");

    // Makes 0.
    constexpr Bits() noexcept = default;

    // Takes a number. Throws NM_KEY if it is negative or has more bits.
    template <typename Number, std::enable_if_t<std::is_integral_v<Number>, int> = 0>
    constexpr Bits(Number number) : number_(static_cast<std::uint64_t>(number)) {
        if (number < 0 || (bits_ < 64 && number_ >> (bits_ % 64) != 0))
            throw Fault(NM_KEY, detail::Literal{"the number has more bits than its type"});
    }

    // Returns the number.
    constexpr operator std::uint64_t() const noexcept { return number_; }

private:
    std::uint64_t number_ = 0;
};

namespace detail {

// 2^bits - 1.
constexpr std::uint64_t mask_of(unsigned bits) noexcept {
    return bits >= 64 ? UINT64_MAX : (std::uint64_t{1} << bits) - 1;
}

// Returns bytes as a text has them: in quotation marks, and all but printable ASCII by numbers.
inline std::string quoted(std::string_view bytes) {
    std::string text = "\"";
    for (char byte : bytes.substr(0, 64)) {
        char number[8];
        std::snprintf(number, sizeof number, "\\x%02x", static_cast<unsigned char>(byte));
        bool is_plain = byte >= ' ' && byte <= '~' && byte != '"' && byte != '\\';
        text += is_plain ? std::string(1, byte) : number;
    }
    return text + (bytes.size() > 64 ? "\".." : "\"");
}

}  // namespace detail

// A string of at most this many bytes, 8 or fewer. The order is that of the bytes as unsigned
// numbers, like that of std::string_view: "a" is before "ab". Zero bytes at the end would be lost,
// so a string that ends with one is refused, and one that is too long: NM_KEY, with the string in
// the text. In a constant it does not compile.
template <unsigned most_ = 8>
class ShortString {
public:
    static_assert(most_ >= 1 && most_ <= 8, "a key has 1 to 8 bytes");

    // Makes the empty string.
    constexpr ShortString() noexcept = default;

    // Takes what converts to a std::string_view, such as "abc" or a std::string.
    template <typename Text,
              std::enable_if_t<std::is_convertible_v<const Text &, std::string_view>, int> = 0>
    constexpr ShortString(const Text &text) {
        std::string_view bytes = text;
        if (bytes.size() > most_ || (!bytes.empty() && bytes.back() == '\0')) refuse(bytes);
        for (std::size_t at = 0; at < bytes.size(); at++) bytes_[at] = bytes[at];
    }

    // Returns the bytes, which exist as long as this string.
    [[nodiscard]] constexpr std::string_view view() const & noexcept {
        return {bytes_.data(), size()};
    }
    // A string that ends at once has no bytes to look at: str() returns a copy.
    std::string_view view() const && = delete;
    // Returns a copy of the bytes.
    [[nodiscard]] std::string str() const { return std::string(view()); }

    // Returns the number of bytes.
    [[nodiscard]] constexpr std::size_t size() const noexcept {
        std::size_t count = most_;
        while (count > 0 && bytes_[count - 1] == '\0') count--;
        return count;
    }

    // Two strings are equal if their bytes are.
    [[nodiscard]] friend constexpr bool operator==(const ShortString &one,
                                                   const ShortString &other) noexcept {
        return one.view() == other.view();
    }
    // Returns the opposite.
    [[nodiscard]] friend constexpr bool operator!=(const ShortString &one,
                                                   const ShortString &other) noexcept {
        return !(one == other);
    }
    // Returns whether the first one is before the other one.
    [[nodiscard]] friend constexpr bool operator<(const ShortString &one,
                                                  const ShortString &other) noexcept {
        return one.view() < other.view();
    }

    // Writes the bytes.
    template <typename Traits>
    friend std::basic_ostream<char, Traits> &operator<<(std::basic_ostream<char, Traits> &to,
                                                        const ShortString &text) {
        return to << text.str();
    }

private:
    [[noreturn]] static void refuse(std::string_view bytes) {
        detail::fail(NM_KEY, [=] {
            std::string why = "its last byte is zero, which would be lost";
            if (bytes.size() > most_)
                why = "it has " + std::to_string(bytes.size()) +
                      " bytes, and the type has room for " + std::to_string(most_);
            return "the string " + detail::quoted(bytes) + " is no key: " + why;
        });
    }

    std::array<char, most_> bytes_{};
};

namespace detail {

// Whether there is a mapping for a type.
template <typename T, typename = void>
inline constexpr bool is_mapped = false;
template <typename T>
inline constexpr bool is_mapped<T, std::void_t<decltype(KeyOf<T>::bits)>> = true;

// Whether the mapping of a type says which values have a place in the order.
template <typename T, typename = void>
inline constexpr bool says_order = false;
template <typename T>
inline constexpr bool
    says_order<T, std::void_t<decltype(KeyOf<T>::is_ordered(std::declval<const T &>()))>> = true;

// Whether the mapping of a type writes its values.
template <typename T, typename = void>
inline constexpr bool is_shown = false;
template <typename T>
inline constexpr bool
    is_shown<T, std::void_t<decltype(KeyOf<T>::shown(std::declval<const T &>()))>> = true;

// Returns whether a value has a place in the order of its type.
template <typename T>
constexpr bool is_ordered(const T &value) noexcept {
    if constexpr (says_order<T>)
        return KeyOf<T>::is_ordered(value);
    else
        return true;
}

// Returns a value as a text has it. Of a type whose mapping does not say how, it is the number to
// which the value converts, or that of the key.
template <typename T>
std::string shown(const T &value) {
    if constexpr (is_shown<T>)
        return KeyOf<T>::shown(value);
    else if constexpr (std::is_convertible_v<T, std::uint64_t>)
        return std::to_string(static_cast<std::uint64_t>(value));
    else
        return "with the key " + std::to_string(KeyOf<T>::key(value));
}

// Whether a type has parts, which its mapping compares: C++17 compares no std::array in constants.
template <typename T, typename = void>
inline constexpr bool has_parts = false;
template <typename T>
inline constexpr bool has_parts<T, std::enable_if_t<(KeyOf<T>::parts > 0)>> = true;

// Returns whether a value is before another one in the order of their type.
template <typename T>
constexpr bool is_before(const T &one, const T &other) noexcept {
    if constexpr (has_parts<T>)
        return KeyOf<T>::is_before(one, other);
    else
        return one < other;
}

// Returns whether two values are equal.
template <typename T>
constexpr bool is_equal(const T &one, const T &other) noexcept {
    if constexpr (has_parts<T>)
        return !is_before(one, other) && !is_before(other, one);
    else
        return one == other;
}

// Returns whether the samples of a mapping ascend as their keys do, and come back.
template <typename T>
constexpr bool keeps_order() {
    if constexpr (is_mapped<T>) {
        using Map = KeyOf<T>;
        const auto &samples = Map::samples;
        for (std::size_t at = 0; at < samples.size(); at++) {
            std::uint64_t key = Map::key(samples[at]);
            if (key > mask_of(Map::bits) || !is_ordered(samples[at])) return false;
            if (!is_equal(Map::value(key), samples[at])) return false;
            if (at == 0) continue;
            const T &before = samples[at - 1];
            if (!is_before(before, samples[at]) || Map::key(before) >= key) return false;
        }
        return samples.size() >= 2;
    }
    return true;  // there is an error of its own
}

template <typename T>
inline constexpr bool is_number =
    std::is_integral_v<T> && !std::is_same_v<T, bool> && sizeof(T) <= 8;

template <typename T>
inline constexpr bool is_float = std::is_floating_point_v<T> && std::numeric_limits<T>::is_iec559 &&
                                 (sizeof(T) == 4 || sizeof(T) == 8);

}  // namespace detail

template <typename T>
struct KeyOf<T, std::enable_if_t<detail::is_number<T> && std::is_unsigned_v<T>>> {
    static constexpr unsigned bits = std::numeric_limits<T>::digits;
    static constexpr std::uint64_t key(T value) noexcept { return value; }
    static constexpr T value(std::uint64_t key) noexcept { return static_cast<T>(key); }
    static std::string shown(T value) { return std::to_string(value); }
    static constexpr std::array<T, 3> samples{0, 1, std::numeric_limits<T>::max()};
};

// The sign bit is turned: the least number is key 0.
template <typename T>
struct KeyOf<T, std::enable_if_t<detail::is_number<T> && std::is_signed_v<T>>> {
    using Unsigned = std::make_unsigned_t<T>;
    static constexpr unsigned bits = std::numeric_limits<T>::digits + 1;
    static constexpr Unsigned sign = static_cast<Unsigned>(Unsigned{1} << (bits - 1));
    static constexpr std::uint64_t key(T value) noexcept {
        return static_cast<Unsigned>(static_cast<Unsigned>(value) ^ sign);
    }
    static constexpr T value(std::uint64_t key) noexcept {
        return static_cast<T>(static_cast<Unsigned>(static_cast<Unsigned>(key) ^ sign));
    }
    static std::string shown(T value) { return std::to_string(value); }
    static constexpr std::array<T, 5> samples{std::numeric_limits<T>::min(), -1, 0, 1,
                                              std::numeric_limits<T>::max()};
};

#ifdef __has_builtin
#if __has_builtin(__builtin_bit_cast)
// Of a number with a sign all bits are turned, and of another one the sign bit: so the bits ascend
// with the numbers. It looks at bits alone, because -ffast-math takes out a comparison with NaN.
template <typename T>
struct KeyOf<T, std::enable_if_t<detail::is_float<T>>> {
    using Number = std::conditional_t<sizeof(T) == 4, std::uint32_t, std::uint64_t>;
    using Limits = std::numeric_limits<T>;
    static constexpr unsigned bits = 8 * sizeof(T);
    static constexpr Number sign = Number{1} << (bits - 1);
    static constexpr Number infinity = sign - (Number{1} << (Limits::digits - 1));

    static constexpr std::uint64_t key(T value) noexcept {
        Number number = __builtin_bit_cast(Number, value);
        if (number == sign) return sign;  // -0.0
        return (number & sign) != 0 ? static_cast<Number>(~number) : number | sign;
    }
    static constexpr T value(std::uint64_t key) noexcept {
        Number number = static_cast<Number>(key);
        number = (number & sign) != 0 ? number ^ sign : static_cast<Number>(~number);
        return __builtin_bit_cast(T, number);
    }
    static constexpr bool is_ordered(T value) noexcept {
        return (__builtin_bit_cast(Number, value) & ~sign) <= infinity;
    }
    // Writes as few digits as give the number back.
    static std::string shown(T value) {
        char text[40] = "nan";
        for (int digits = is_ordered(value) ? 1 : 99; digits <= Limits::max_digits10; digits++) {
            std::snprintf(text, sizeof text, "%.*g", digits, static_cast<double>(value));
            if (key(static_cast<T>(std::strtod(text, nullptr))) == key(value)) break;
        }
        return text;
    }
    static constexpr std::array<T, 6> samples{Limits::lowest(), -1, 0, Limits::min(), 1,
                                              Limits::max()};
};
#endif
#endif

template <unsigned bits_>
struct KeyOf<Bits<bits_>> {
    static constexpr unsigned bits = bits_;
    static constexpr std::uint64_t key(Bits<bits_> value) noexcept { return value; }
    static constexpr Bits<bits_> value(std::uint64_t key) noexcept { return Bits<bits_>(key); }
    static constexpr std::array<Bits<bits_>, 2> samples{Bits<bits_>(0),
                                                        Bits<bits_>(detail::mask_of(bits_))};
};

// The first byte has the greatest bits of the key, and absent bytes are zero.
template <unsigned most>
struct KeyOf<ShortString<most>> {
    using T = ShortString<most>;
    static constexpr unsigned bits = 8 * most;
    static constexpr std::uint64_t key(const T &value) noexcept {
        std::uint64_t key = 0;
        for (unsigned at = 0; at < most; at++) {
            char byte = at < value.size() ? value.view()[at] : '\0';
            key = key << 8 | static_cast<unsigned char>(byte);
        }
        return key;
    }
    static constexpr T value(std::uint64_t key) noexcept {
        char bytes[most] = {};
        std::size_t size = 0;
        for (unsigned at = 0; at < most; at++) {
            bytes[at] = static_cast<char>(key >> 8 * (most - 1 - at) & 0xff);
            if (bytes[at] != '\0') size = at + 1;
        }
        return T(std::string_view(bytes, size));
    }
    static std::string shown(const T &value) { return detail::quoted(value.view()); }
    static constexpr std::array<T, 4> samples{T(), T("a"), T("b"), value(detail::mask_of(bits))};
};

template <typename T>
struct KeyOf<T, std::enable_if_t<std::is_enum_v<T>>> {
    using Number = std::underlying_type_t<T>;
    using Map = KeyOf<Number>;
    static constexpr unsigned bits = Map::bits;
    static constexpr std::uint64_t key(T value) noexcept {
        return Map::key(static_cast<Number>(value));
    }
    static constexpr T value(std::uint64_t key) noexcept {
        return static_cast<T>(Map::value(key));
    }
    static std::string shown(T value) { return Map::shown(static_cast<Number>(value)); }
    static constexpr std::array<T, 2> samples{static_cast<T>(std::numeric_limits<Number>::min()),
                                              static_cast<T>(std::numeric_limits<Number>::max())};
};

template <typename Rep, typename Period>
struct KeyOf<std::chrono::duration<Rep, Period>,
             std::enable_if_t<detail::is_mapped<Rep>>> {
    using T = std::chrono::duration<Rep, Period>;
    static constexpr unsigned bits = KeyOf<Rep>::bits;
    static constexpr std::uint64_t key(T value) noexcept { return KeyOf<Rep>::key(value.count()); }
    static constexpr T value(std::uint64_t key) noexcept { return T(KeyOf<Rep>::value(key)); }
    static constexpr bool is_ordered(T value) noexcept {
        return detail::is_ordered(value.count());
    }
    static std::string shown(T value) { return KeyOf<Rep>::shown(value.count()); }
    static constexpr std::array<T, 3> samples{T::min(), T(1), T::max()};
};

template <typename Clock, typename Span>
struct KeyOf<std::chrono::time_point<Clock, Span>, std::enable_if_t<detail::is_mapped<Span>>> {
    using T = std::chrono::time_point<Clock, Span>;
    static constexpr unsigned bits = KeyOf<Span>::bits;
    static constexpr std::uint64_t key(T value) noexcept {
        return KeyOf<Span>::key(value.time_since_epoch());
    }
    static constexpr T value(std::uint64_t key) noexcept { return T(KeyOf<Span>::value(key)); }
    static constexpr bool is_ordered(T value) noexcept {
        return detail::is_ordered(value.time_since_epoch());
    }
    static std::string shown(T value) { return KeyOf<Span>::shown(value.time_since_epoch()); }
    static constexpr std::array<T, 3> samples{T::min(), T(Span(1)), T::max()};
};

namespace detail {

// The mapping of a type that has parts: the first one decides, and then the next one.
template <typename T, typename Numbers = std::make_index_sequence<std::tuple_size_v<T>>>
struct KeyOfParts;

template <typename T, std::size_t... at>
struct KeyOfParts<T, std::index_sequence<at...>> {
    template <std::size_t part>
    using Part = KeyOf<std::tuple_element_t<part, T>>;

    static constexpr std::size_t parts = sizeof...(at);
    static constexpr unsigned bits = (Part<at>::bits + ...);
    static_assert(bits <= 64, "the parts of the key have more than 64 bits together: nm::Bits<40> "
                              "is a number of 40 bits");

    // Returns how many bits are below those of a part.
    static constexpr unsigned below(std::size_t part) noexcept {
        return ((at > part ? Part<at>::bits : 0) + ...);
    }
    static constexpr std::uint64_t key(const T &value) noexcept {
        return ((Part<at>::key(std::get<at>(value)) << below(at)) | ...);
    }
    static constexpr T value(std::uint64_t key) noexcept {
        return T{Part<at>::value(key >> below(at) & mask_of(Part<at>::bits))...};
    }
    static constexpr bool is_ordered(const T &value) noexcept {
        return (detail::is_ordered(std::get<at>(value)) && ...);
    }
    static constexpr bool is_before(const T &one, const T &other) noexcept {
        int order = 0;
        auto compare = [&order](const auto &part, const auto &by) {
            if (order == 0) order = detail::is_before(by, part) - detail::is_before(part, by);
        };
        (compare(std::get<at>(one), std::get<at>(other)), ...);
        return order < 0;
    }
    static std::string shown(const T &value) {
        std::string text;
        ((text += (at == 0 ? "(" : ", ") + detail::shown(std::get<at>(value))), ...);
        return text + ")";
    }

    // Returns a value in which these parts are great, and all others least: a bit for each part.
    static constexpr T sample(std::uint64_t great) noexcept {
        return T{(great >> at % 64 & 1) != 0 ? Part<at>::samples.back()
                                             : Part<at>::samples.front()...};
    }
    // The last part alone is great, then the one before, and so on; at last all are.
    template <std::size_t... number>
    static constexpr std::array<T, sizeof...(number)>
    samples_of(std::index_sequence<number...>) noexcept {
        return {sample(number == 0       ? 0
                       : number <= parts ? std::uint64_t{1} << (parts - number) % 64
                                         : UINT64_MAX)...};
    }
    static constexpr std::size_t sample_count = parts + (parts > 1 ? 2 : 1);
    static constexpr std::array<T, sample_count> samples =
        samples_of(std::make_index_sequence<sample_count>());
};

}  // namespace detail

template <typename First, typename Second>
struct KeyOf<std::pair<First, Second>,
             std::enable_if_t<detail::is_mapped<First> && detail::is_mapped<Second>>>
    : detail::KeyOfParts<std::pair<First, Second>> {};

template <typename First, typename... Others>
struct KeyOf<std::tuple<First, Others...>,
             std::enable_if_t<detail::is_mapped<First> && (detail::is_mapped<Others> && ...)>>
    : detail::KeyOfParts<std::tuple<First, Others...>> {};

// It has the order of std::array: of `char` that may be another one than that of nm::ShortString.
template <typename Part, std::size_t count>
struct KeyOf<std::array<Part, count>, std::enable_if_t<detail::is_mapped<Part> && (count > 0)>>
    : detail::KeyOfParts<std::array<Part, count>> {};

namespace detail {

// Returns the key of a value, which may be no key: UINT64_MAX if it has no place in the order.
template <typename T>
constexpr std::uint64_t key_or_none(const T &value) noexcept {
    return is_ordered(value) ? KeyOf<T>::key(value) : UINT64_MAX;
}

// Returns the key of a bound, which may be no key. Throws NM_KEY if it has no place in the order.
template <typename T>
std::uint64_t bound_of(const T &value) {
    if (!is_ordered(value))
        fail(NM_KEY, [&] {
            return "the value " + shown(value) + " is no key: it has no place in the order";
        });
    return KeyOf<T>::key(value);
}

// Returns the key of a value. Throws NM_KEY if it has none.
template <typename T>
std::uint64_t checked_key(const T &value) {
    std::uint64_t key = bound_of(value);
    if (key > most_key)
        fail(NM_KEY, [&] {
            return "the value " + shown(value) + " is no key: of a type with 64 bits the three "
                   "greatest values are none";
        });
    return key;
}

// Returns the keys of values. Throws NM_KEY for the first one that has none.
template <typename T>
std::vector<std::uint64_t> checked_keys(const std::vector<T> &values) {
    std::vector<std::uint64_t> all;
    in_memory([&] { all.reserve(values.size()); });
    for (const T &value : values) all.push_back(checked_key(value));
    return all;
}

// What a call returns for a key, or for a key with its value, if the keys are of a type.
template <typename T, typename Entry>
struct TypedEntry;
template <typename T>
struct TypedEntry<T, std::uint64_t> {
    using Type = T;
    static Type of(std::uint64_t key) { return KeyOf<T>::value(key); }
};
template <typename T, typename Value>
struct TypedEntry<T, MapEntry<Value>> {
    using Type = MapEntry<Value, T>;
    static Type of(const MapEntry<Value> &entry) {
        return Type{KeyOf<T>::value(entry.key), entry.value};
    }
};

}  // namespace detail

// The calls in the order of the keys that a set, a map's worker and their like have, for keys of a
// type. Each makes the call of the same name of nm_set.hpp or nm_map.hpp, and throws what that one
// throws. A bound may be a value that is no key. Each throws NM_KEY for NaN.
template <typename Of, typename T>
class OrderedOf {
public:
    static_assert(detail::is_mapped<T>,
                  "no nm::KeyOf maps this type to keys: take an integer, float, double, an enum, "
                  "std::chrono, nm::Bits, nm::ShortString<8>, or a std::pair, std::tuple or "
                  "std::array of these; or specialize nm::KeyOf for the type");
    static_assert(detail::keeps_order<T>(), "the mapping of the type does not keep its order");

    using Map = KeyOf<T>;  // how values become keys
    using key_type = T;  // a key
    using value_type = typename detail::TypedEntry<T, typename Of::value_type>::Type;  // an entry

    // An input iterator over entries: see nm::Iterator.
    template <typename Base>
    class IteratorOf {
        // An entry, for `->`.
        struct Held {
            OrderedOf::value_type entry;
            const OrderedOf::value_type *operator->() const noexcept { return &entry; }
        };

    public:
        using iterator_category = std::input_iterator_tag;  // it passes each entry once
        using value_type = OrderedOf::value_type;  // a key, or a key with its value
        using difference_type = std::ptrdiff_t;  // not used
        using pointer = Held;  // what `->` returns: a copy
        using reference = value_type;  // what `*` returns: a copy

        // Makes an end.
        IteratorOf() = default;
        // Makes it of an iterator over keys.
        explicit IteratorOf(Base base) : base_(std::move(base)) {}

        // Returns the entry. Not for an end.
        [[nodiscard]] value_type operator*() const { return typed(*base_); }
        // Returns a member of the entry. Not for an end.
        [[nodiscard]] pointer operator->() const { return {typed(*base_)}; }
        // Goes on to the next entry, or to the end.
        IteratorOf &operator++() {
            ++base_;
            return *this;
        }
        // Does the same, and returns a copy of the iterator from before.
        IteratorOf operator++(int) {
            IteratorOf before = *this;
            ++base_;
            return before;
        }
        // Two are equal if they are at the same key, or both at their ends.
        [[nodiscard]] friend bool operator==(const IteratorOf &one, const IteratorOf &other) {
            return one.base_ == other.base_;
        }
        // Returns the opposite.
        [[nodiscard]] friend bool operator!=(const IteratorOf &one, const IteratorOf &other) {
            return !(one == other);
        }

    private:
        Base base_;
    };

    using iterator = IteratorOf<typename Of::iterator>;  // over the keys, ascending
    using const_iterator = iterator;  // the same: no iterator changes a key
    using reverse_iterator = IteratorOf<typename Of::reverse_iterator>;  // descending
    using const_reverse_iterator = reverse_iterator;  // the same

    // The entries of a range, for a range-based `for`.
    class RangeOf {
        using Base = decltype(std::declval<const Of &>().range(0u));

    public:
        using value_type = OrderedOf::value_type;  // a key, or a key with its value
        using iterator = OrderedOf::iterator;  // over the keys, ascending
        using reverse_iterator = OrderedOf::reverse_iterator;  // descending

        // Makes it of a range of keys.
        explicit RangeOf(Base base) : base_(std::move(base)) {}
        // Returns an iterator at the least key of the range.
        [[nodiscard]] iterator begin() const { return iterator(base_.begin()); }
        // Returns the end of the iterators of `begin`.
        [[nodiscard]] iterator end() const noexcept { return iterator(); }
        // Returns an iterator at the greatest key of the range, in descending order.
        [[nodiscard]] reverse_iterator rbegin() const { return reverse_iterator(base_.rbegin()); }
        // Returns the end of the iterators of `rbegin`.
        [[nodiscard]] reverse_iterator rend() const noexcept { return reverse_iterator(); }
        // Returns the same entries in descending order.
        [[nodiscard]] Reversed<RangeOf> reversed() const { return Reversed<RangeOf>(*this); }
        // Returns the entry of the least key of the range, or nothing.
        [[nodiscard]] std::optional<value_type> first() const { return typed(base_.first()); }
        // Returns the entry of the greatest key of the range, or nothing.
        [[nodiscard]] std::optional<value_type> last() const { return typed(base_.last()); }
        // Returns whether the range has no key.
        [[nodiscard]] bool empty() const { return base_.empty(); }
        // Returns whether the range has a key; it never has a value that is no key.
        [[nodiscard]] bool contains(const T &key) const {
            std::uint64_t number = detail::key_or_none(key);
            return number <= most_key && base_.contains(number);
        }
        // Returns how many keys the range has: it goes over them.
        [[nodiscard]] std::uint64_t count() const { return base_.count(); }
        // Returns the part of this range whose keys are not below `from` and are below `below`.
        [[nodiscard]] RangeOf range(const T &from, const T &below) const {
            return RangeOf(base_.range(detail::bound_of(from), detail::bound_of(below)));
        }

    private:
        Base base_;
    };

    // Returns 1 if there is this key, and else 0: also for a value that is no key.
    [[nodiscard]] std::size_t count(const T &key) const {
        std::uint64_t number = detail::key_or_none(key);
        return number <= most_key ? of_.count(number) : 0;
    }
    // Returns how many keys are not below `from` and are below `below`.
    [[nodiscard]] std::uint64_t count(const T &from, const T &below) const {
        return of_.count(detail::bound_of(from), detail::bound_of(below));
    }

    // Returns an iterator at the least key that is not below this one, or end().
    [[nodiscard]] iterator lower_bound(const T &key) const {
        return iterator(of_.lower_bound(detail::bound_of(key)));
    }
    // Returns an iterator at the least key that is above this one, or end().
    [[nodiscard]] iterator upper_bound(const T &key) const {
        return iterator(of_.upper_bound(detail::bound_of(key)));
    }
    // Returns an iterator at this key, or end() if there is no such key.
    [[nodiscard]] iterator find(const T &key) const {
        return iterator(of_.find(detail::key_or_none(key)));
    }
    // Returns the entry of the least key that is not below this one, or nothing.
    [[nodiscard]] std::optional<value_type> at_least(const T &key) const {
        return typed(of_.at_least(detail::bound_of(key)));
    }
    // Returns the entry of the greatest key that is not above this one, or nothing.
    [[nodiscard]] std::optional<value_type> at_most(const T &key) const {
        return typed(of_.at_most(std::min(detail::bound_of(key), most_key)));
    }

    // Returns an iterator at the least key.
    [[nodiscard]] iterator begin() const { return iterator(of_.begin()); }
    // Returns the end of ascending iterators.
    [[nodiscard]] iterator end() const noexcept { return iterator(); }
    // Returns an iterator over the keys in descending order.
    [[nodiscard]] reverse_iterator rbegin() const { return reverse_iterator(of_.rbegin()); }
    // Returns the end of descending iterators.
    [[nodiscard]] reverse_iterator rend() const noexcept { return reverse_iterator(); }

    // Returns the entries whose keys are not below `from` and are below `below`. If `from` is not
    // below `below` there are none, which is no error: nm::Set::range.
    [[nodiscard]] RangeOf range(const T &from, const T &below) const {
        return RangeOf(of_.range(detail::bound_of(from), detail::bound_of(below)));
    }
    // Returns all entries whose keys are not below `from`.
    [[nodiscard]] RangeOf range(const T &from) const {
        return RangeOf(of_.range(detail::bound_of(from)));
    }

    // Reads the entries of the least keys that are not below `from`, at most `room`: see
    // nm::Set::scan. `next` is a key that there was, so that it is one of the type: a scan reads
    // one key more than `room`.
    [[nodiscard]] Scanned<value_type, T> scan(const T &from, std::size_t room) const {
        Scanned<value_type, T> read{{}, std::nullopt};
        auto found = of_.scan(detail::bound_of(from), room + (room < SIZE_MAX ? 1 : 0)).entries;
        if (found.size() > room) {
            read.next = Map::value(detail::key_of(found.back()));
            found.pop_back();
        }
        read.entries = all_typed(found);
        return read;
    }

    // Returns the entry of the least key, or nothing if there is none.
    [[nodiscard]] std::optional<value_type> first() const { return typed(of_.first()); }
    // Returns the entry of the greatest key, or nothing if there is none.
    [[nodiscard]] std::optional<value_type> last() const { return typed(of_.last()); }
    // Removes the least key and returns its entry, or nothing if there is none.
    std::optional<value_type> pop_first() {
        return popped([this] { return of_.pop_first(); });
    }
    // Removes the greatest key and returns its entry, in the same way.
    std::optional<value_type> pop_last() {
        return popped([this] { return of_.pop_last(); });
    }
    // Removes the least key if it is below a bound, and returns its entry.
    std::optional<value_type> pop_first(const T &below) {
        return popped([&] { return of_.pop_first(detail::bound_of(below)); });
    }
    // Removes the greatest key if it is not below a bound, and returns its entry.
    std::optional<value_type> pop_last(const T &from) {
        return popped([&] { return of_.pop_last(detail::bound_of(from)); });
    }

    // Returns the entry of the least key, and removes nothing; waits for one, for `most` at most.
    [[nodiscard]] std::optional<value_type> wait_first(std::chrono::milliseconds most) const {
        return typed(of_.wait_first(most));
    }
    // Does the same with the least key below a bound.
    [[nodiscard]] std::optional<value_type> wait_first(const T &below,
                                                       std::chrono::milliseconds most) const {
        return typed(of_.wait_first(detail::bound_of(below), most));
    }

    // Returns whether there is no key.
    [[nodiscard]] bool empty() const { return of_.empty(); }

    // Writes the first ten keys, and two dots if there are more. It throws what an iterator throws.
    template <typename Traits>
    friend std::basic_ostream<char, Traits> &operator<<(std::basic_ostream<char, Traits> &to,
                                                        const OrderedOf &of) {
        return to << of.text();
    }

protected:
    explicit OrderedOf(Of of) : of_(std::move(of)) {}

    static value_type typed(const typename Of::value_type &entry) {
        return detail::TypedEntry<T, typename Of::value_type>::of(entry);
    }

    static std::optional<value_type> typed(const std::optional<typename Of::value_type> &entry) {
        return entry ? std::optional<value_type>(typed(*entry)) : std::nullopt;
    }

    static std::vector<value_type> all_typed(const std::vector<typename Of::value_type> &found) {
        std::vector<value_type> all;
        detail::in_memory([&] { all.reserve(found.size()); });
        for (const auto &each : found) all.push_back(typed(each));
        return all;
    }

    Of of_;

private:
    // Makes a pop. The text of its fault has the value in place of the key.
    template <typename Call>
    static std::optional<value_type> popped(Call call) {
        try {
            return typed(call());
        } catch (const detail::UnfinishedPop &fault) {
            detail::fail_unfinished(fault.key(), [](std::uint64_t key) {
                return detail::shown(Map::value(key));
            });
        }
    }

    // Returns the first ten keys as a text.
    std::string text() const {
        std::string all = "{";
        std::size_t count = 0;
        for (iterator at = begin(); at != end(); ++at, count++) {
            all += count == 0 ? "" : ", ";
            if (count == 10) return all + "..}";
            all += detail::shown(key_of(*at));
        }
        return all + "}";
    }

    static const T &key_of(const T &entry) noexcept { return entry; }
    template <typename Value>
    static const T &key_of(const MapEntry<Value, T> &entry) noexcept {
        return entry.key;
    }
};

// The calls of a set and of a worker for values of a type.
template <typename Of, typename T>
class ValuesOf : public OrderedOf<Of, T> {
public:
    // Inserts the value; returns whether it was absent. Throws NM_KEY if its key is none.
    bool insert(const T &value) { return of_.insert(detail::checked_key(value)); }
    // Removes the value; returns whether it was present. Throws NM_KEY if its key is none.
    bool remove(const T &value) { return of_.remove(detail::checked_key(value)); }
    // Removes the value; returns 1 if it was present, and else 0.
    std::size_t erase(const T &value) { return remove(value) ? 1 : 0; }
    // Removes the values that are not below `from` and are below `below`; returns how many.
    std::uint64_t erase(const T &from, const T &below) {
        return of_.erase(detail::bound_of(from), detail::bound_of(below));
    }
    // Removes each value for which `test` returns true; returns how many.
    template <typename Test>
    std::uint64_t erase_if(Test test) {
        return of_.erase_if([&](std::uint64_t key) { return test(ValuesOf::typed(key)); });
    }
    // Moves each value that this set lacks out of another one; returns how many: see nm::Keys::merge.
    template <typename Other>
    std::uint64_t merge(ValuesOf<Other, T> &from) {
        return of_.merge(from.keys());
    }
    // Returns whether the set has the value; a value whose key is none it never has.
    [[nodiscard]] bool contains(const T &value) const { return this->count(value) == 1; }

    // Inserts these values, one by one; returns how many were absent.
    template <typename Input, typename = typename std::iterator_traits<Input>::iterator_category>
    std::uint64_t insert(Input first, Input last) {
        std::uint64_t inserted = 0;
        for (; first != last; ++first) inserted += insert(*first);
        return inserted;
    }

    // Inserts the values of a list in the same way.
    std::uint64_t insert(std::initializer_list<T> list) {
        return insert(list.begin(), list.end());
    }

    // Inserts what a range has in the same way.
    template <typename From>
    std::uint64_t insert_range(const From &from) {
        return insert(std::begin(from), std::end(from));
    }

    // Returns for each of these values, in their order, whether the set has it. Throws NM_KEY if a
    // key is none.
    [[nodiscard]] std::vector<bool> contains_many(const std::vector<T> &values) const {
        std::vector<nm_lookup> lookups;
        std::vector<bool> answers;
        detail::in_memory([&] {
            lookups.reserve(values.size());
            answers.reserve(values.size());
        });
        for (const T &value : values) lookups.push_back({detail::checked_key(value), 0});
        of_.contains_many(lookups);
        for (const nm_lookup &each : lookups) answers.push_back(each.found != 0);
        return answers;
    }

    // Inserts these values, and appends whether each was absent: see nm::Keys::insert_many.
    void insert_many(const std::vector<T> &values, std::vector<bool> &answers) {
        of_.insert_many(detail::checked_keys(values), answers);
    }

    // Removes these values in the same way, and appends whether each was present.
    void remove_many(const std::vector<T> &values, std::vector<bool> &answers) {
        of_.remove_many(detail::checked_keys(values), answers);
    }

    // Inserts, removes and finds the value, and throws nothing: see the calls of nm::Set and
    // nm::Worker. NM_KEY if its key is none.
    [[nodiscard]] nm_outcome try_insert(const T &value) noexcept {
        return of_.try_insert(detail::key_or_none(value));
    }
    // Removes the value in the same way.
    [[nodiscard]] nm_outcome try_remove(const T &value) noexcept {
        return of_.try_remove(detail::key_or_none(value));
    }
    // Finds the value in the same way.
    [[nodiscard]] nm_outcome try_contains(const T &value) const noexcept {
        return of_.try_contains(detail::key_or_none(value));
    }

    // Removes the least values that are below a bound, at most `room`, and returns them.
    std::vector<T> pop_first_many(const T &below, std::size_t room) {
        return this->all_typed(of_.pop_first_many(detail::bound_of(below), room));
    }
    // Removes the least value and returns it; waits for one, for `most` at most.
    std::optional<T> wait_pop(std::chrono::milliseconds most) {
        return this->typed(of_.wait_pop(most));
    }
    // Does the same with the least value below a bound.
    std::optional<T> wait_pop(const T &below, std::chrono::milliseconds most) {
        return this->typed(of_.wait_pop(detail::bound_of(below), most));
    }

    // Removes all values. A value that is inserted meanwhile may remain.
    void clear() { of_.clear(); }

    // Returns whether it was not closed.
    [[nodiscard]] bool is_open() const noexcept { return of_.is_open(); }

    // Returns the set or the worker of keys, for all other calls.
    [[nodiscard]] Of &keys() noexcept { return of_; }
    // Returns the same, for calls that change nothing.
    [[nodiscard]] const Of &keys() const noexcept { return of_; }

    // Returns the value of a key.
    [[nodiscard]] static std::optional<T> value_of(std::optional<std::uint64_t> key) {
        return ValuesOf::typed(key);
    }

protected:
    using OrderedOf<Of, T>::OrderedOf;
    using OrderedOf<Of, T>::of_;
};

// A worker of a set of values. Each call makes the call of the same name of nm::Worker. If that one
// takes or returns a key, this one takes or returns a value: NM_KEY if its key is none.
template <typename T>
class WorkerOf : public ValuesOf<Worker, T> {
public:
    // Makes it of a worker of keys.
    explicit WorkerOf(Worker worker) : ValuesOf<Worker, T>(std::move(worker)) {}
    // Returns the worker to the set.
    void close() noexcept { of_.close(); }

    // Inserts the value by at most `tries` tries. Returns NM_YES if it was absent, and else NM_NO.
    [[nodiscard]] nm_outcome try_insert(const T &value,
                                        std::uint32_t tries = usual_tries) noexcept {
        return of_.try_insert(detail::key_or_none(value), tries);
    }
    // Removes the value in the same way.
    [[nodiscard]] nm_outcome try_remove(const T &value,
                                        std::uint32_t tries = usual_tries) noexcept {
        return of_.try_remove(detail::key_or_none(value), tries);
    }
    // Finds the value in the same way.
    [[nodiscard]] nm_outcome try_contains(const T &value,
                                          std::uint32_t tries = usual_tries) const noexcept {
        return of_.try_contains(detail::key_or_none(value), tries);
    }
    // Finds the least value that is not below this one. Returns NM_YES and writes it, or NM_NO.
    [[nodiscard]] nm_outcome try_lower_bound(const T &value, T &found,
                                             std::uint32_t tries = usual_tries) const noexcept {
        return found_by(found, [&](std::uint64_t &key) {
            return of_.try_lower_bound(detail::key_or_none(value), key, tries);
        });
    }
    // Finds the greatest value that is not above this one. Returns NM_YES and writes it, or NM_NO.
    [[nodiscard]] nm_outcome try_prev(const T &value, T &found,
                                      std::uint32_t tries = usual_tries) const noexcept {
        return found_by(found, [&](std::uint64_t &key) {
            return of_.try_prev(detail::key_or_none(value), key, tries);
        });
    }
    // Goes on with a remove that returned NM_UNFINISHED. Returns NM_YES if it is finished now.
    [[nodiscard]] nm_outcome try_finish(std::uint32_t tries = usual_tries) noexcept {
        return of_.try_finish(tries);
    }
    // Returns the value of an unfinished remove, or nothing.
    [[nodiscard]] std::optional<T> pending() const { return this->typed(of_.pending()); }

    // Pins the epoch until the end of the result. The worker must neither move nor end before that.
    Pin pin(std::uint32_t tries = usual_tries) & { return of_.pin(tries); }
    // A worker that ends at once cannot be pinned.
    Pin pin(std::uint32_t tries = usual_tries) && = delete;
    // Pins the epoch until `try_unpin`, and writes it. Returns NM_DONE.
    [[nodiscard]] nm_outcome try_pin(std::uint64_t &epoch,
                                     std::uint32_t tries = usual_tries) noexcept {
        return of_.try_pin(epoch, tries);
    }
    // Ends the pin of `try_pin`. Returns NM_DONE.
    [[nodiscard]] nm_outcome try_unpin() noexcept { return of_.try_unpin(); }
    // Returns the epoch at which it is pinned, or nothing.
    [[nodiscard]] std::optional<std::uint64_t> pinned() const { return of_.pinned(); }
    // Advances the epoch by one, or returns why not.
    Advance advance() { return of_.advance(); }
    // Returns the epoch, and which workers hold it back.
    [[nodiscard]] Behind behind() const { return of_.behind(); }
    // Frees what has waited long enough in its queue. Returns the epoch and how many nodes it freed.
    Collected collect() { return of_.collect(); }

    // Returns its number in the set.
    [[nodiscard]] std::uint32_t number() const { return of_.number(); }
    // Returns the number of nodes that wait in its queue.
    [[nodiscard]] std::uint64_t queue_len() const { return of_.queue_len(); }
    // Returns what it has won, and what became of the nodes that it cut off.
    [[nodiscard]] nm_stats stats() const { return of_.stats(); }
    // Publishes a stamp of all that it has seen, and writes what it has done so far. Returns NM_DONE.
    [[nodiscard]] nm_outcome try_publish(Stamp &stamp) noexcept { return of_.try_publish(stamp); }
    // Observes the stamp of the worker of a number, and writes what that one had done by then.
    // Returns NM_YES, or NM_NO if it has published none.
    [[nodiscard]] nm_outcome try_observe(std::uint32_t number, Stamp &stamp) noexcept {
        return of_.try_observe(number, stamp);
    }

    // Ends the set, after the `SetOf` and its other workers have ended. Returns the values that it
    // had, ascending.
    std::vector<T> close_set() { return this->all_typed(of_.close_set().keys()); }

private:
    using ValuesOf<Worker, T>::of_;

    // Makes a call that may write a key, and writes its value. Returns the outcome.
    template <typename Call>
    static nm_outcome found_by(T &found, Call call) noexcept {
        std::uint64_t key = 0;
        nm_outcome outcome = call(key);
        if (outcome == NM_YES) found = WorkerOf::typed(key);
        return outcome;
    }
};

// A set of values: nm::Set with the values of a type. `keys()` has the calls that attach into a worker.
template <typename T>
class SetOf : public ValuesOf<Set, T> {
public:
    // Makes the empty set, which grows.
    SetOf() : ValuesOf<Set, T>(Set()) {}
    // Makes the empty set with these options, which grows.
    explicit SetOf(const Options &options) : ValuesOf<Set, T>(Set(options)) {}

    // Makes the empty set with that many nodes.
    explicit SetOf(std::uint64_t nodes, const Options &options = {})
        : ValuesOf<Set, T>(Set(nodes, options)) {}

    // Makes the set of these values, which grows: `nm::SetOf<int> set(nm::keys, {-5, 7})`.
    SetOf(keys_t, std::initializer_list<T> list, const Options &options = {}) : SetOf(options) {
        this->insert(list.begin(), list.end());
    }

    // Makes the set of these values, with that many nodes.
    SetOf(std::uint64_t nodes, keys_t, std::initializer_list<T> list, const Options &options = {})
        : SetOf(nodes, options) {
        this->insert(list.begin(), list.end());
    }

    // Attaches a worker to this thread: see nm::Set::attach.
    [[nodiscard]] WorkerOf<T> attach() { return WorkerOf<T>(this->of_.attach()); }
    // Attaches a worker, and waits for one for `most` at most.
    [[nodiscard]] WorkerOf<T> attach(std::chrono::milliseconds most) {
        return WorkerOf<T>(this->of_.attach(most));
    }
    // Attaches the worker of a number: see nm::Set::worker.
    [[nodiscard]] WorkerOf<T> worker(std::uint32_t number) {
        return WorkerOf<T>(this->of_.worker(number));
    }
    // Returns how full the set is: see nm::Set::stats.
    [[nodiscard]] SetStats stats() const { return this->of_.stats(); }
    // Returns the number of removed nodes that wait to be freed: see nm::Set::waiting.
    [[nodiscard]] std::uint64_t waiting() const { return this->of_.waiting(); }
    // Returns the number of free nodes. An insert takes two.
    [[nodiscard]] std::uint64_t free() const { return this->of_.free(); }
    // Returns the number of nodes for which it has room.
    [[nodiscard]] std::uint64_t nodes() const { return this->of_.nodes(); }
    // Returns how many workers it has.
    [[nodiscard]] std::uint32_t workers() const { return this->of_.workers(); }
    // Frees what has waited long enough, and returns how many nodes: see nm::Set::collect.
    std::uint64_t collect() { return this->of_.collect(); }
    // Returns the number of values.
    [[nodiscard]] std::uint64_t size() const { return this->of_.size(); }
    // Returns how many values it can have if no removed node waits.
    [[nodiscard]] std::uint64_t capacity() const { return this->of_.capacity(); }
    // Makes room for that many values: see nm::Set::reserve.
    void reserve(std::uint64_t values) { this->of_.reserve(values); }
    // Gives back memory: see nm::Set::shrink_to_fit.
    void shrink_to_fit() { this->of_.shrink_to_fit(); }

    // Ends the set, and returns the values that it had, ascending. Throws what nm::Set::close does.
    std::vector<T> close() {
        return this->all_typed(this->of_.close().keys());
    }
};

// The calls of a map's worker with and without a guard, for keys of a type.
template <typename Of, typename K>
class EntriesOf : public OrderedOf<Of, K> {
public:
    using OrderedOf<Of, K>::count;

    // Returns how many keys there are, counted like those of a range.
    [[nodiscard]] std::uint64_t count() const { return of_.count(); }
    // Returns what the map has under a key, like the call of the same name of nm_map.hpp. Throws
    // NM_KEY if the value is no key.
    [[nodiscard]] auto get(const K &key) const { return of_.get(detail::checked_key(key)); }
    // Removes a key, and returns what the map had under it, in the same way.
    auto take(const K &key) { return of_.take(detail::checked_key(key)); }
    // Inserts a key with a value, or replaces the value that it has, which it returns: see
    // nm::MapPuts.
    template <typename Value = typename Of::mapped_type>
    auto exchange(const K &key, Value &&value) {
        return of_.exchange(detail::checked_key(key), std::forward<Value>(value));
    }
    // Replaces the value of a key if it is the expected one; returns whether it did.
    template <typename Found, typename Value = typename Of::mapped_type>
    bool compare_exchange(const K &key, Found &expected, Value &&value) {
        return of_.compare_exchange(detail::checked_key(key), expected, std::forward<Value>(value));
    }
    // Removes a key if it has the expected value; returns whether it did.
    template <typename Found>
    bool compare_remove(const K &key, Found &expected) {
        return of_.compare_remove(detail::checked_key(key), expected);
    }
    // Gives a key the value that a function makes of the one that it has, which it returns.
    template <typename F>
    auto update(const K &key, F f) {
        return of_.update(detail::checked_key(key), f);
    }

    // Returns the value of a key, after an insert of the one that a function makes if it is absent.
    template <typename F>
    auto get_or_insert_with(const K &key, F make) {
        return of_.get_or_insert_with(detail::checked_key(key), make);
    }
    // Returns the value of a key, like nm::MapPuts::at. The text of std::out_of_range has the key.
    [[nodiscard]] detail::ValueAt<typename Of::mapped_type> at(const K &key) const {
        return detail::at_or_throw<typename Of::mapped_type>(get(key),
                                                             [&] { return detail::shown(key); });
    }

protected:
    using OrderedOf<Of, K>::OrderedOf;
    using OrderedOf<Of, K>::of_;
};

// A pin of a map's worker: see nm::MapGuard.
template <typename K, typename V>
class [[nodiscard]] MapGuardOf {
public:
    using Found = typename MapGuard<V>::Found;  // `V *`, or null if the map does not have the key

    // Takes a guard of keys.
    explicit MapGuardOf(MapGuard<V> guard) noexcept : of_(std::move(guard)) {}

    // Returns the value that the map has under a key. Throws NM_KEY if the value is no key.
    [[nodiscard]] Found get(const K &key) const { return of_.get(detail::checked_key(key)); }
    // Returns the value of each of these keys, in their order.
    [[nodiscard]] std::vector<Found> get_many(const std::vector<K> &wanted) const {
        return of_.get_many(detail::checked_keys(wanted));
    }
    // Returns whether the map has a key; it never has a value that is no key.
    [[nodiscard]] bool contains(const K &key) const {
        std::uint64_t number = detail::key_or_none(key);
        return number <= most_key && of_.contains(number);
    }
    // Ends the pin now.
    void unpin() noexcept { of_.unpin(); }
    // Returns the epoch that it pins.
    [[nodiscard]] std::uint64_t epoch() const noexcept { return of_.epoch(); }
    // Returns the guard of keys.
    [[nodiscard]] const MapGuard<V> &raw() const noexcept { return of_; }

private:
    MapGuard<V> of_;
};

// The calls of a worker that return objects, under a guard of another one: see nm::GuardedWorker.
template <typename K, typename V>
class GuardedWorkerOf : public EntriesOf<GuardedWorker<V>, K> {
public:
    using Found = typename GuardedWorker<V>::Found;  // `V *`, or null
    // Makes it of a guarded worker of keys.
    explicit GuardedWorkerOf(GuardedWorker<V> worker)
        : EntriesOf<GuardedWorker<V>, K>(std::move(worker)) {}

    // Removes each key for whose entry `test` returns true; returns how many: see
    // nm::GuardedWorker::erase_if.
    template <typename Test>
    std::uint64_t erase_if(Test test) {
        return this->of_.erase_if(
            [&](const auto &entry) { return test(GuardedWorkerOf::typed(entry)); });
    }
    // Returns whether the entries of the map are these pairs, with equal objects.
    template <typename Pairs>
    [[nodiscard]] bool equals(const Pairs &pairs) const {
        return detail::are_equal<V>(*this, pairs);
    }
};

// One worker of a map, for one thread at a time: see nm::MapWorker.
template <typename K, typename V>
class MapWorkerOf : public EntriesOf<MapWorker<V>, K> {
public:
    using mapped_type = V;  // what a key has
    using Guard = MapGuardOf<K, V>;  // a pin of this worker

    // Makes a closed worker.
    MapWorkerOf() : MapWorkerOf(MapWorker<V>()) {}
    // Makes it of a worker of keys.
    explicit MapWorkerOf(MapWorker<V> worker) : EntriesOf<MapWorker<V>, K>(std::move(worker)) {}

    // Returns the worker to the map. A closed worker is unchanged.
    void close() noexcept { of_.close(); }
    // Returns whether it has a worker.
    [[nodiscard]] bool is_open() const noexcept { return of_.is_open(); }

    // Inserts a key with an object; returns whether the key was absent: see nm::MapWorker::insert.
    // Throws NM_KEY if the value is no key; then `object` has it as before.
    template <typename U, std::enable_if_t<std::is_convertible_v<U *, V *>, int> = 0>
    bool insert(const K &key, std::unique_ptr<U> &&object) {
        return of_.insert(detail::checked_key(key), std::move(object));
    }
    // Inserts a key with a value in place; returns whether the key was absent.
    bool insert(const K &key, const V &value) {
        return of_.insert(detail::checked_key(key), value);
    }
    // Makes an object of these arguments and inserts it; returns whether the key was absent.
    template <typename... Args>
    bool emplace(const K &key, Args &&...args) {
        return of_.emplace(detail::checked_key(key), std::forward<Args>(args)...);
    }
    // Does the same, and copies from its arguments.
    template <typename... Args>
    bool try_emplace(const K &key, const Args &...args) {
        return of_.try_emplace(detail::checked_key(key), args...);
    }
    // Inserts these pairs of a key and a value, one by one; returns how many keys were absent.
    template <typename Input, typename = typename std::iterator_traits<Input>::iterator_category>
    std::uint64_t insert(Input first, Input last) {
        return of_.insert_each(first, last,
                               [](const K &key) { return Key(detail::checked_key(key)); });
    }

    // Inserts a key with a value, or replaces its value, in one step; returns whether the key was
    // absent.
    template <typename Value = V>
    bool insert_or_assign(const K &key, Value &&value) {
        return of_.insert_or_assign(detail::checked_key(key), std::forward<Value>(value));
    }
    // Replaces the value of a key; returns whether the key was present.
    template <typename Value = V>
    bool replace(const K &key, Value &&value) {
        return of_.replace(detail::checked_key(key), std::forward<Value>(value));
    }

    // Returns the value in place of a key for an operator: see nm::MapReference.
    MapReference<V> operator[](const K &key) { return of_[detail::checked_key(key)]; }

    // Removes a key; returns whether it was present: see nm::MapWorker::remove.
    bool remove(const K &key) { return of_.remove(detail::checked_key(key)); }
    // Removes a key; returns 1 if it was present, and else 0.
    std::size_t erase(const K &key) { return remove(key) ? 1 : 0; }
    // Removes the keys that are not below `from` and are below `below`; returns how many.
    std::uint64_t erase(const K &from, const K &below) {
        return of_.erase(detail::bound_of(from), detail::bound_of(below));
    }
    // Removes each key for whose entry `test` returns true; returns how many.
    template <typename Test>
    std::uint64_t erase_if(Test test) {
        return of_.erase_if([&](const auto &entry) { return test(MapWorkerOf::typed(entry)); });
    }
    // Removes all keys. A key that is inserted meanwhile may remain.
    void clear() { of_.clear(); }
    // Moves each key that this map lacks out of another one: see nm::MapWorker::merge.
    std::uint64_t merge(MapWorkerOf &from) { return of_.merge(from.of_); }
    // Returns whether the entries of the map are these pairs: see nm::MapWorker::equals.
    template <typename Pairs>
    [[nodiscard]] bool equals(const Pairs &pairs) const {
        return detail::are_equal<V>(*this, pairs);
    }

    // Returns whether the map has a key; it never has a value that is no key.
    [[nodiscard]] bool contains(const K &key) const {
        std::uint64_t number = detail::key_or_none(key);
        return number <= most_key && of_.contains(number);
    }
    // Returns copies of the values of these keys, in their order.
    [[nodiscard]] std::vector<std::optional<V>> get_many(const std::vector<K> &wanted) const {
        return of_.get_many(detail::checked_keys(wanted));
    }

    // Pins the worker until the end of the result: see nm::MapWorker::pin.
    Guard pin() & { return Guard(of_.pin()); }
    // A worker that ends at once cannot be pinned.
    Guard pin() && = delete;
    // Returns the calls of this worker that return objects, under a guard of another worker.
    GuardedWorkerOf<K, V> under(const Guard &guard) & {
        return GuardedWorkerOf<K, V>(of_.under(guard.raw()));
    }
    // A worker that ends at once makes no such calls.
    GuardedWorkerOf<K, V> under(const Guard &guard) && = delete;

    // Returns all keys, ascending.
    [[nodiscard]] std::vector<K> keys() const { return values_of(of_.keys()); }
    // Returns the keys that are not below `from`, ascending.
    [[nodiscard]] std::vector<K> keys(const K &from) const {
        return values_of(of_.keys(detail::bound_of(from)));
    }
    // Returns the keys that are not below `from` and are below `below`, ascending.
    [[nodiscard]] std::vector<K> keys(const K &from, const K &below) const {
        return values_of(of_.keys(detail::bound_of(from), detail::bound_of(below)));
    }

    // Frees what was reclaimed by this worker: see nm::MapWorker::reclaim.
    Reclaimed reclaim() { return of_.reclaim(); }
    // Returns the number of nodes that wait with this worker: see nm::MapWorker::waiting.
    [[nodiscard]] std::uint64_t waiting() const { return of_.waiting(); }
    // Returns the key of an unfinished remove, or nothing.
    [[nodiscard]] std::optional<K> pending() const {
        std::optional<std::uint64_t> key = of_.pending();
        return key ? std::optional<K>(KeyOf<K>::value(*key)) : std::nullopt;
    }
    // Returns its number in the map. NM_CLOSED.
    [[nodiscard]] std::uint32_t number() const { return of_.number(); }
    // Returns the worker of keys.
    [[nodiscard]] MapWorker<V> &raw() noexcept { return of_; }

private:
    using EntriesOf<MapWorker<V>, K>::of_;

    static std::vector<K> values_of(const std::vector<std::uint64_t> &found) {
        std::vector<K> all;
        detail::in_memory([&] { all.reserve(found.size()); });
        for (std::uint64_t key : found) all.push_back(KeyOf<K>::value(key));
        return all;
    }
};

// A map whose keys are of a type: nm::Map with the values of that type as keys.
template <typename K, typename V>
class MapOf {
public:
    using key_type = K;  // a key
    using mapped_type = V;  // what a key has
    using Worker = MapWorkerOf<K, V>;  // a worker of this map
    using Guard = MapGuardOf<K, V>;  // a pin of such a worker

    // Makes the empty map, with room for that many nodes: see nm::Map.
    explicit MapOf(std::uint64_t nodes, std::uint32_t workers = 64) : of_(nodes, workers) {}
    // Makes the empty map with these options.
    MapOf(std::uint64_t nodes, const MapOptions &options) : of_(nodes, options) {}
    // Makes the map of these keys and values. It also throws NM_KEY, NM_FULL.
    MapOf(std::uint64_t nodes, std::initializer_list<std::pair<K, V>> list,
          const MapOptions &options = {})
        : MapOf(nodes, list.begin(), list.end(), options) {}
    // Makes the map of these pairs.
    template <typename Input, typename = typename std::iterator_traits<Input>::iterator_category>
    MapOf(std::uint64_t nodes, Input first, Input last, const MapOptions &options = {})
        : of_(nodes, options) {
        attach().insert(first, last);
    }

    // Attaches a worker to this thread: see nm::Map::attach.
    [[nodiscard]] Worker attach() { return Worker(of_.attach()); }
    // Attaches a worker, and waits for one for `most` at most.
    [[nodiscard]] Worker attach(std::chrono::milliseconds most) { return Worker(of_.attach(most)); }
    // Returns the number of keys: see nm::Map::size.
    [[nodiscard]] std::uint64_t size() const { return of_.size(); }
    // Returns the number of removed nodes that wait to be freed: see nm::Map::waiting.
    [[nodiscard]] std::uint64_t waiting() const { return of_.waiting(); }
    // Returns the number of free nodes. An insert takes two.
    [[nodiscard]] std::uint64_t free() const { return of_.free(); }
    // Returns the number of nodes for which it has room.
    [[nodiscard]] std::uint32_t nodes() const noexcept { return of_.nodes(); }
    // Returns how many keys it can have if no removed node waits.
    [[nodiscard]] std::uint32_t capacity() const noexcept { return of_.capacity(); }
    // Returns how many workers it has.
    [[nodiscard]] std::uint32_t workers() const noexcept { return of_.workers(); }
    // Returns the map of keys.
    [[nodiscard]] Map<V> &raw() noexcept { return of_; }

private:
    Map<V> of_;
};

}  // namespace nm

#ifdef __cpp_lib_ranges
// While a set is in use, its size is not the length of a pass: see the end of nm_set.hpp.
template <typename T>
inline constexpr bool std::ranges::disable_sized_range<nm::SetOf<T>> = true;
#endif

#endif
