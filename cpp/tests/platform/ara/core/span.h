/// A platform in the small, to build the tests with: nothing in it is more than the standard asks.
#pragma once

#include <cstddef>

namespace ara::core {

template <class T>
class Span {
 public:
  constexpr Span() noexcept = default;
  constexpr Span(T* data, std::size_t size) noexcept : data_{data}, size_{size} {}
  template <std::size_t N>
  constexpr Span(T (&items)[N]) noexcept : data_{items}, size_{N} {}
  template <class Container, class = decltype(static_cast<T*>(static_cast<const Container*>(nullptr)->data()))>
  constexpr Span(const Container& items) noexcept : data_{items.data()}, size_{items.size()} {}

  constexpr T* data() const noexcept { return data_; }
  constexpr std::size_t size() const noexcept { return size_; }

 private:
  T* data_{nullptr};
  std::size_t size_{0};
};

}  // namespace ara::core
