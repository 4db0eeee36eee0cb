// Objects that a debugger prints: shown.gdb does so when `look` is called.
#include "nm_keys.hpp"
#include "nm_map.hpp"

#include <memory>
#include <utility>

[[gnu::noinline]] static void look() { asm volatile("" ::: "memory"); }

struct Text {
    char bytes[16];
};

int main() {
    nm::Options options;
    options.workers = 4;
    nm::Set set(4096, options), growing, taken(64), closed(64);
    nm::Set moved(std::move(taken));
    for (std::uint64_t key = 0; key < 100; key++) set.insert(key), growing.insert(key);
    growing.insert(500u);
    set.remove(7u);
    growing.reserve(20'000);
    closed.close();
    nm::Worker worker = set.attach(), ended = growing.attach();
    worker.insert(1000u);
    ended.close();
    nm::Pin pin = worker.pin();
    nm_pool *pool = nullptr;
    if (nm_pool_new(&pool, 64, nullptr) != NM_DONE) return 1;

    nm::SetOf<int> numbers(64);
    numbers.insert({-7, 5});
    nm::WorkerOf<int> of_numbers = numbers.attach();

    nm::Map<Text> map(64, 2);
    nm::Map<int> in_place(128, 3), gone(std::move(in_place));
    nm::Map<Text>::Worker of_map = map.attach(), reader = map.attach(), none;
    of_map.insert(5u, std::make_unique<Text>());
    auto guard = reader.pin();
    nm::MapOf<int, Text> typed(64, 2);
    nm::MapOf<int, Text>::Worker of_typed = typed.attach();
    nm::MapOf<int, Text>::Guard typed_guard = of_typed.pin();
    const nm::Set &again = set;
    alignas(nm_pool *) static unsigned char bytes[512] = {1};
    nm_pool *unmade = reinterpret_cast<nm_pool *>(bytes), *lost = reinterpret_cast<nm_pool *>(8);
    nm_handle handle = NM_CLOSED_HANDLE;
    look();
    (void)again, (void)lost, (void)unmade, (void)handle, (void)pin, (void)guard, (void)none;
    (void)typed_guard;
    nm_pool_free(pool);
}
