/// A stand-in for the platform's header of the same name; a platform's own comes first where its directory does.
#pragma once

#include <optional>
#include <utility>
#include <variant>

#include "ara/core/error_code.h"

namespace ara::core {

/// A value, or why there is none. To ask for the one that is not there ends the program.
template <class T, class E = ErrorCode>
class [[nodiscard]] Result final {
 public:
  using value_type = T;
  using error_type = E;

  Result(const T& value) : state_{std::in_place_index<0>, value} {}
  Result(T&& value) : state_{std::in_place_index<0>, std::move(value)} {}
  explicit Result(const E& error) : state_{std::in_place_index<1>, error} {}
  explicit Result(E&& error) : state_{std::in_place_index<1>, std::move(error)} {}

  [[nodiscard]] static Result FromValue(T value) { return Result{std::move(value)}; }
  [[nodiscard]] static Result FromError(E error) { return Result{std::move(error)}; }

  [[nodiscard]] bool HasValue() const noexcept { return state_.index() == 0; }
  [[nodiscard]] explicit operator bool() const noexcept { return HasValue(); }

  [[nodiscard]] const T& Value() const& noexcept { return std::get<0>(state_); }
  [[nodiscard]] T&& Value() && noexcept { return std::get<0>(std::move(state_)); }
  [[nodiscard]] const T& operator*() const& noexcept { return Value(); }
  [[nodiscard]] T&& operator*() && noexcept { return std::move(*this).Value(); }
  [[nodiscard]] const T* operator->() const noexcept { return &Value(); }
  [[nodiscard]] const E& Error() const& noexcept { return std::get<1>(state_); }

  template <class U>
  [[nodiscard]] T ValueOr(U&& other) const& {
    return HasValue() ? Value() : static_cast<T>(std::forward<U>(other));
  }
  template <class U>
  [[nodiscard]] T ValueOr(U&& other) && {
    return HasValue() ? std::move(*this).Value() : static_cast<T>(std::forward<U>(other));
  }

  /// The value, or the exception of the error's domain.
  [[nodiscard]] const T& ValueOrThrow() const& noexcept(false) {
    if (!HasValue()) Error().ThrowAsException();
    return Value();
  }
  [[nodiscard]] T ValueOrThrow() && noexcept(false) {
    if (!HasValue()) Error().ThrowAsException();
    return std::move(*this).Value();
  }

 private:
  std::variant<T, E> state_;
};

/// That a call was done, or why it was not.
template <class E>
class [[nodiscard]] Result<void, E> final {
 public:
  using value_type = void;
  using error_type = E;

  Result() noexcept = default;
  explicit Result(const E& error) : error_{error} {}
  explicit Result(E&& error) : error_{std::move(error)} {}

  [[nodiscard]] static Result FromValue() noexcept { return {}; }
  [[nodiscard]] static Result FromError(E error) { return Result{std::move(error)}; }

  [[nodiscard]] bool HasValue() const noexcept { return !error_; }
  [[nodiscard]] explicit operator bool() const noexcept { return HasValue(); }
  [[nodiscard]] const E& Error() const& noexcept { return error_.value(); }

  void ValueOrThrow() const noexcept(false) {
    if (!HasValue()) Error().ThrowAsException();
  }

 private:
  std::optional<E> error_;
};

}  // namespace ara::core
