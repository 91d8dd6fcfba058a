// Tests the handles of refskold.hpp: what holds a mount, what is thrown, and a change that goes to a log and is recovered from it.
#undef NDEBUG
#include <refskold.hpp>

#include <cassert>
#include <cstdio>
#include <cstring>
#include <thread>
#include <type_traits>
#include <vector>

using refskold_cpp::check;
using refskold_cpp::mount;
using refskold_cpp::recovery;

static_assert(!std::is_copy_constructible_v<mount> && !std::is_copy_assignable_v<mount>);
static_assert(std::is_nothrow_move_constructible_v<mount> && std::is_nothrow_move_assignable_v<mount>);
static_assert(!std::is_copy_constructible_v<recovery> && std::is_nothrow_move_assignable_v<recovery>);

namespace {

using bytes = std::vector<unsigned char>;

/// The errno that a call throws; 0 where it throws none.
template <typename Call> int thrown(Call call)
{
    try {
        call();
    } catch (const std::system_error &error) {
        return error.code().value();
    }
    return 0;
}

/// One change of block 7.
void change(mount &of, const char *data)
{
    static unsigned char block[REFSKOLD_BLOCK];
    std::uint64_t trans = of.alloc(5000);
    if (check(refskold_read(of.get(), trans, 7)) == REFSKOLD_ASKS) check(refskold_read_content(of.get(), trans, 7, block));
    check(refskold_log(of.get(), trans, 7, 100, data, std::strlen(data)));
    check(refskold_commit(of.get(), trans, nullptr));
}

/// Does the checkpoint that is owed, into a log.
void write_checkpoint(mount &of, bytes &log)
{
    std::uint64_t serial = 0;
    refskold_reply reply;
    unsigned char piece[REFSKOLD_BLOCK];
    assert(check(refskold_take(of.get(), REFSKOLD_CHECKPOINT, &serial)) == REFSKOLD_TAKEN);
    check(refskold_begin(of.get(), serial, &reply));
    std::uint32_t pieces = reply.pieces;
    for (std::uint32_t k = 0; k < pieces; k++) {
        int length = check(refskold_piece(of.get(), k, piece, sizeof piece));
        log.insert(log.end(), piece, piece + length);
    }
    check(refskold_end(of.get(), serial, pieces, 1, &reply));
}

bytes logged()
{
    bytes log;
    std::uint64_t waits = 0;
    mount first(0, REFSKOLD_LEAST_LOG, 1024);
    change(first, "hello");
    assert(first.state().committed == 1 && first.state().cost == 176 && first.state().owed == 0);
    check(refskold_force(first.get(), &waits));
    assert(waits == 1 && first.state().owed == 1);
    // to another thread and back, by moves
    mount second = std::move(first);
    assert(!first && second);
    std::thread worker([moved = std::move(second), &log]() mutable { write_checkpoint(moved, log); });
    worker.join();
    return log;
}

void recovered(const bytes &log)
{
    recovery of;
    refskold_log_told told;
    unsigned char content[REFSKOLD_BLOCK] = { 0 };
    std::uint64_t block = 0;
    assert(!of);
    check(refskold_recovery_open(of.get(), log.data(), log.size(), &told));
    assert(of && told.texts == 1 && told.rest == 0 && told.blocks == 1);
    recovery other = std::move(of);
    check(refskold_recovery_block(other.get(), 0, &block));
    check(refskold_recovery_lay(other.get(), block, content));
    assert(block == 7 && std::memcmp(content + 100, "hello", 5) == 0);
    assert(thrown([&] { check(refskold_recovery_block(of.get(), 0, &block)); }) == ENODEV);
}

void refused()
{
    assert(thrown([] { mount none(0, REFSKOLD_LEAST_LOG - 1, 1024); }) == EINVAL);
    assert(thrown([] { mount none(0, REFSKOLD_LEAST_LOG, 1024, 600); }) == EINVAL);
    mount one(0, REFSKOLD_LEAST_LOG, 1024, 512);
    assert(thrown([&] { one.alloc(0); }) == EINVAL);
    assert(one.alloc(5000, 2, true) == 1);
    // what it held is ended
    one = mount(5, REFSKOLD_LEAST_LOG, 8);
    mount &same = one;
    one = std::move(same);
    assert(one && one.alloc(5000) == 1);
    assert(thrown([&] { check(refskold_unmount(one.get())); }) == EBUSY);
    check(refskold_cancel(one.get(), 1, nullptr));
    check(refskold_unmount(one.get()));
    assert(!one);
    assert(thrown([&] { one.state(); }) == ENODEV);
}

} // namespace

int main()
{
    recovered(logged());
    refused();
    std::puts("handles of C++: well");
}
