/// A stand-in for the platform's header of the same name; a platform's own comes first where its directory does.
#pragma once

#include <cstddef>
#include <type_traits>

#include "ara/core/utility.h"

namespace ara::core {

/// Items of another object, stored one after the other. It owns nothing, and is good for as long as they are there.
template <class T>
class Span final {
  // A container lends its items where a pointer to them is one to T, const or not.
  template <class Container>
  using LendsItems = std::enable_if_t<
      std::is_convertible_v<std::remove_pointer_t<decltype(std::declval<Container&>().data())> (*)[], T (*)[]> &&
      std::is_convertible_v<decltype(std::declval<Container&>().size()), std::size_t>>;

 public:
  constexpr Span() noexcept = default;
  constexpr Span(T* data, std::size_t size) noexcept : data_{data}, size_{size} {}

  template <std::size_t N>
  constexpr Span(T (&items)[N]) noexcept : data_{items}, size_{N} {}

  template <class Container, class = LendsItems<Container>>
  constexpr Span(Container& items) noexcept : data_{items.data()}, size_{items.size()} {}

  template <class Container, class = LendsItems<const Container>>
  constexpr Span(const Container& items) noexcept : data_{items.data()}, size_{items.size()} {}

  [[nodiscard]] constexpr T* data() const noexcept { return data_; }
  [[nodiscard]] constexpr std::size_t size() const noexcept { return size_; }
  [[nodiscard]] constexpr bool empty() const noexcept { return size_ == 0; }
  [[nodiscard]] constexpr T* begin() const noexcept { return data_; }
  [[nodiscard]] constexpr T* end() const noexcept { return data_ + size_; }
  [[nodiscard]] constexpr T& operator[](std::size_t place) const noexcept { return data_[place]; }

 private:
  T* data_{nullptr};
  std::size_t size_{0};
};

}  // namespace ara::core
