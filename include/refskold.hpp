// refskold.hpp: a handle of C++17 over refskold.h. It ends what it holds where it ends itself, moves and is not copied; what is refused is thrown.
//
//     refskold_cpp::mount mount(0, REFSKOLD_LEAST_LOG, 1024);
//     std::uint64_t trans = mount.alloc(5000);
//     refskold_read(mount.get(), trans, 7);    // every function of refskold.h takes mount.get(); check() throws what it returns
#ifndef REFSKOLD_HPP
#define REFSKOLD_HPP

#include <refskold.h>

#include <cstdint>
#include <system_error>
#include <utility>

namespace refskold_cpp {

/// Throws a status that is an error, as std::system_error with its errno; else gives it back.
inline int check(int status, const char *what = "refskold")
{
    if (status < 0) throw std::system_error(-status, std::generic_category(), what);
    return status;
}

/// Ends what a handle of refskold.h holds, if it holds something.
inline void end(::refskold &raw) noexcept { refskold_close(&raw); }
inline void end(::refskold_recovery &raw) noexcept { refskold_recovery_close(&raw); }

/// A handle of a mount or of a recovery: one at a time has what it holds.
template <typename Raw> class handle {
public:
    handle() = default;
    handle(handle &&other) noexcept : raw_(std::exchange(other.raw_, Raw{})) {}
    handle &operator=(handle &&other) noexcept
    {
        if (this != &other) {
            end(raw_);
            raw_ = std::exchange(other.raw_, Raw{});
        }
        return *this;
    }
    ~handle() { end(raw_); }

    /// For the functions of refskold.h.
    Raw *get() noexcept { return &raw_; }
    /// Whether it holds something.
    explicit operator bool() const noexcept { return raw_.holds != 0; }

private:
    Raw raw_{};
};

/// What the texts of a log say, gathered: a handle for refskold_recovery_feed and the functions behind it.
using recovery = handle<::refskold_recovery>;

/// A mount. Dropped it is ended as by a crash; refskold_unmount is the orderly end.
class mount : public handle<::refskold> {
public:
    mount(std::uint32_t last, std::uint32_t log_bytes, std::uint64_t blocks) { check(refskold_open(get(), last, log_bytes, blocks), "open"); }
    mount(std::uint32_t last, std::uint32_t log_bytes, std::uint64_t blocks, std::uint32_t size)
    {
        check(refskold_open_sized(get(), last, log_bytes, blocks, size), "open");
    }

    /// Opens a transaction: its number.
    std::uint64_t alloc(std::uint32_t unit, std::uint32_t count = 1, bool rolls = false)
    {
        std::uint64_t trans = 0;
        check(refskold_alloc(get(), unit, count, rolls, &trans), "alloc");
        return trans;
    }

    /// What it tells of itself.
    ::refskold_state state()
    {
        ::refskold_state told{};
        check(refskold_stat(get(), &told), "stat");
        return told;
    }
};

} // namespace refskold_cpp

#endif
