// A program as one writes it over the installed owners.
#include <nm_set.hpp>

#include <cstdio>

int main() {
    nm::Set set(64);
    if (!set.insert(5u) || !set.attach().contains(5u)) return 1;
    if (set.close().size() != 1) return 1;
    std::printf("nm_set %s: %s\n", NM_SET_VERSION, nm_outcome_text(NM_DONE));
}
