// What the tests in C++ share: the faults that their calls throw.
#ifndef THROWN_HPP
#define THROWN_HPP

#include "holds.h"
#include "nm_set.hpp"

#include <string>

// The outcome that a call throws, or NM_DONE if it throws none, and the text of its fault.
struct Thrown {
    nm_outcome outcome;
    std::string text;
};

template <typename Call>
Thrown fault_of(Call call) {
    try {
        call();
    } catch (const nm::Fault &fault) {
        return {fault.outcome(), fault.what()};
    }
    return {NM_DONE, ""};
}

template <typename Call>
nm_outcome thrown(Call call) {
    return fault_of(call).outcome;
}

// A set in the tree of the paper, for so many workers.
inline nm::Set unbalanced_set(std::uint64_t nodes, std::uint32_t workers,
                        nm::Shape shape = nm::Shape::unbalanced) {
    nm::Options options;
    options.workers = workers;
    options.shape = shape;
    return nm::Set(nodes, options);
}

#endif
