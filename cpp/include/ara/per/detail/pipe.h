/// Two descriptors to an engine: lines go out on one, and replies come in on the other.
#pragma once

#include <cerrno>
#include <csignal>
#include <ctime>
#include <string>
#include <string_view>
#include <utility>

#include <fcntl.h>
#include <pthread.h>
#include <unistd.h>

namespace ara::per::detail {

/// A descriptor that is closed with its owner.
class Descriptor final {
 public:
  Descriptor() noexcept = default;
  explicit Descriptor(int number) noexcept : number_{number} {}
  Descriptor(Descriptor&& other) noexcept : number_{std::exchange(other.number_, -1)} {}
  Descriptor& operator=(Descriptor&& other) noexcept {
    std::swap(number_, other.number_);
    return *this;
  }
  ~Descriptor() { Close(); }

  void Close() noexcept {
    if (number_ >= 0) ::close(std::exchange(number_, -1));
  }

  [[nodiscard]] explicit operator bool() const noexcept { return number_ >= 0; }
  [[nodiscard]] int Number() const noexcept { return number_; }

 private:
  int number_{-1};
};

/// While it lives, a write into a pipe that nobody reads does not end the program: this thread holds SIGPIPE back, and
/// takes it away at the end where it came meanwhile. Other threads and the program's own handler are left alone.
class NoBrokenPipeSignal final {
 public:
  NoBrokenPipeSignal() noexcept {
    sigset_t pending;
    ::sigemptyset(&signal_);
    ::sigaddset(&signal_, SIGPIPE);
    ::sigemptyset(&pending);
    ::sigpending(&pending);
    wasPending_ = ::sigismember(&pending, SIGPIPE) == 1;
    ::pthread_sigmask(SIG_BLOCK, &signal_, &before_);
  }
  NoBrokenPipeSignal(const NoBrokenPipeSignal&) = delete;
  NoBrokenPipeSignal& operator=(const NoBrokenPipeSignal&) = delete;
  ~NoBrokenPipeSignal() {
    if (isBroken_ && !wasPending_) {
      const timespec now{};
      while (::sigtimedwait(&signal_, nullptr, &now) == -1 && errno == EINTR) {
      }
    }
    ::pthread_sigmask(SIG_SETMASK, &before_, nullptr);
  }

  void SetBroken() noexcept { isBroken_ = true; }

 private:
  sigset_t signal_{};
  sigset_t before_{};
  bool wasPending_{false};
  bool isBroken_{false};
};

/// Lines to an engine and lines from it. For one thread at a time.
class Pipe final {
 public:
  Pipe() noexcept = default;
  Pipe(Descriptor replies, Descriptor lines) noexcept : replies_{std::move(replies)}, lines_{std::move(lines)} {}

  [[nodiscard]] bool IsOpen() const noexcept { return static_cast<bool>(lines_); }

  void Close() noexcept {
    lines_.Close();
    replies_.Close();
  }

  /// Writes all of a text; false where nobody reads it.
  [[nodiscard]] bool Write(std::string_view text) noexcept {
    NoBrokenPipeSignal guard;
    while (!text.empty()) {
      const ssize_t count = ::write(lines_.Number(), text.data(), text.size());
      if (count > 0) {
        text.remove_prefix(static_cast<std::size_t>(count));
      } else if (count == 0 || errno != EINTR) {
        if (count < 0 && errno == EPIPE) guard.SetBroken();
        return false;
      }
    }
    return true;
  }

  /// Reads the next line, without its line feed; false where no more comes.
  [[nodiscard]] bool ReadLine(std::string& line) {
    for (std::size_t looked = 0;;) {
      const std::size_t end = kept_.find('\n', looked);
      if (end != std::string::npos) {
        line.assign(kept_, 0, end);
        kept_.erase(0, end + 1);
        return true;
      }
      looked = kept_.size();
      if (!ReadMore()) return false;
    }
  }

 private:
  [[nodiscard]] bool ReadMore() {
    char piece[16'384];
    for (;;) {
      const ssize_t count = ::read(replies_.Number(), piece, sizeof piece);
      if (count > 0) {
        kept_.append(piece, static_cast<std::size_t>(count));
        return true;
      }
      if (count == 0 || errno != EINTR) return false;
    }
  }

  Descriptor replies_;
  Descriptor lines_;
  std::string kept_;
};

}  // namespace ara::per::detail
