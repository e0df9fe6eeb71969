/// A stand-in for the platform's header of the same name; a platform's own comes first where its directory does.
#pragma once

#include <utility>

#include "ara/core/error_domain.h"
#include "ara/core/string_view.h"

namespace ara::core {

/// One error: its number, the domain that the number is of, and a number that says more.
class ErrorCode final {
 public:
  /// From an enumerator of a domain, found by its `MakeErrorCode`.
  template <class Enum, class = decltype(MakeErrorCode(std::declval<Enum>(), ErrorDomain::SupportDataType{}))>
  constexpr ErrorCode(Enum code, ErrorDomain::SupportDataType data = 0) noexcept
      : ErrorCode{MakeErrorCode(code, data)} {}

  constexpr ErrorCode(ErrorDomain::CodeType value, const ErrorDomain& domain,
                      ErrorDomain::SupportDataType data = 0) noexcept
      : value_{value}, data_{data}, domain_{&domain} {}

  [[nodiscard]] constexpr ErrorDomain::CodeType Value() const noexcept { return value_; }
  [[nodiscard]] constexpr const ErrorDomain& Domain() const noexcept { return *domain_; }
  [[nodiscard]] constexpr ErrorDomain::SupportDataType SupportData() const noexcept { return data_; }
  [[nodiscard]] StringView Message() const noexcept { return domain_->Message(value_); }
  void ThrowAsException() const { domain_->ThrowAsException(*this); }

 private:
  ErrorDomain::CodeType value_;
  ErrorDomain::SupportDataType data_;
  const ErrorDomain* domain_;
};

/// Two codes are equal where their numbers and domains are; what they carry besides does not matter.
[[nodiscard]] constexpr bool operator==(const ErrorCode& one, const ErrorCode& other) noexcept {
  return one.Domain() == other.Domain() && one.Value() == other.Value();
}
[[nodiscard]] constexpr bool operator!=(const ErrorCode& one, const ErrorCode& other) noexcept {
  return !(one == other);
}

}  // namespace ara::core
