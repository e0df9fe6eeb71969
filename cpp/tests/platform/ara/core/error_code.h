/// A platform in the small, to build the tests with: nothing in it is more than the standard asks.
#pragma once

#include "ara/core/error_domain.h"
#include "ara/core/string_view.h"

namespace ara::core {

class ErrorCode {
 public:
  constexpr ErrorCode(ErrorDomain::CodeType value, const ErrorDomain& domain,
                      ErrorDomain::SupportDataType data = {}) noexcept
      : value_{value}, data_{data}, domain_{&domain} {}
  template <class Enum, class = decltype(MakeErrorCode(Enum{}, 0))>
  constexpr ErrorCode(Enum value, ErrorDomain::SupportDataType data = {}) noexcept
      : ErrorCode{MakeErrorCode(value, data)} {}

  constexpr ErrorDomain::CodeType Value() const noexcept { return value_; }
  constexpr const ErrorDomain& Domain() const noexcept { return *domain_; }
  constexpr ErrorDomain::SupportDataType SupportData() const noexcept { return data_; }
  StringView Message() const noexcept { return domain_->Message(value_); }
  void ThrowAsException() const { domain_->ThrowAsException(*this); }

 private:
  ErrorDomain::CodeType value_;
  ErrorDomain::SupportDataType data_;
  const ErrorDomain* domain_;
};

constexpr bool operator==(const ErrorCode& one, const ErrorCode& other) noexcept {
  return one.Value() == other.Value() && one.Domain() == other.Domain();
}

}  // namespace ara::core
