/// A platform in the small, to build the tests with: nothing in it is more than the standard asks.
#pragma once

#include <optional>
#include <utility>

#include "ara/core/error_code.h"

namespace ara::core {

template <class T, class E = ErrorCode>
class [[nodiscard]] Result {
 public:
  Result(const T& value) : value_{value} {}
  Result(T&& value) : value_{std::move(value)} {}
  explicit Result(const E& error) : error_{error} {}
  explicit Result(E&& error) : error_{std::move(error)} {}
  static Result FromError(const E& error) { return Result{error}; }

  bool HasValue() const noexcept { return value_.has_value(); }
  explicit operator bool() const noexcept { return HasValue(); }
  const T& Value() const& noexcept { return *value_; }
  T&& Value() && noexcept { return std::move(*value_); }
  const T& operator*() const& noexcept { return *value_; }
  T&& operator*() && noexcept { return std::move(*value_); }
  const T* operator->() const noexcept { return &*value_; }
  const E& Error() const& noexcept { return *error_; }
  template <class U>
  T ValueOr(U&& other) const& {
    return value_ ? *value_ : static_cast<T>(std::forward<U>(other));
  }
  const T& ValueOrThrow() const& noexcept(false) {
    if (!value_) error_->ThrowAsException();
    return *value_;
  }

 private:
  std::optional<T> value_;
  std::optional<E> error_;
};

template <class E>
class [[nodiscard]] Result<void, E> {
 public:
  Result() noexcept = default;
  explicit Result(const E& error) : error_{error} {}
  static Result FromError(const E& error) { return Result{error}; }

  bool HasValue() const noexcept { return !error_.has_value(); }
  explicit operator bool() const noexcept { return HasValue(); }
  const E& Error() const& noexcept { return *error_; }

 private:
  std::optional<E> error_;
};

}  // namespace ara::core
