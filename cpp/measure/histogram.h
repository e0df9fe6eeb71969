/// Times of a call, printed as a row of a table.
#pragma once

#include <algorithm>
#include <chrono>
#include <cstddef>
#include <cstdio>
#include <string>
#include <utility>
#include <vector>

class Histogram final {
 public:
  explicit Histogram(std::string name) : name_{std::move(name)} {}

  template <class F>
  void Time(F call) {
    const auto begin = std::chrono::steady_clock::now();
    call();
    times_.push_back(std::chrono::duration<double, std::micro>(std::chrono::steady_clock::now() - begin).count());
  }

  /// The microseconds that half, nine tenths and 99 of 100 calls take at most, and how many are in each doubling.
  void Print() {
    std::sort(times_.begin(), times_.end());
    std::printf("| %s | %.1f | %.1f | %.1f | %.1f |", name_.c_str(), At(50), At(90), At(99), times_.back());
    double bound = 8;
    auto from = times_.begin();
    for (int column = 0; column < 10; ++column, bound *= 2) {
      const auto to = std::lower_bound(from, times_.end(), bound);
      std::printf(" %td |", to - from);
      from = to;
    }
    std::printf(" %td |\n", times_.end() - from);
  }

 private:
  double At(std::size_t percent) const { return times_[std::min(times_.size() - 1, times_.size() * percent / 100)]; }

  std::string name_;
  std::vector<double> times_;
};
