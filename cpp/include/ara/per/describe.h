/// A struct of a program's own as a value.
#pragma once

#include <tuple>

#include "ara/core/string.h"
#include "ara/per/detail/value.h"

/// Says by which members a struct is kept, in this order: from 1 to 32, each of a type that can be kept. It stands in
/// the namespace of the struct, after it, with the struct's plain name:
///
///     struct Point { std::int32_t lat{}; std::int32_t lon{}; };
///     ARA_PER_DESCRIBE(Point, lat, lon)
///
/// A member that is not named is not kept, and comes back as a new struct has it. The struct can be made without
/// arguments and copied, and is not `final`.
#define ARA_PER_DESCRIBE(Type, ...)                                               \
  struct AraPerFieldsOf##Type : Type {                                            \
    explicit AraPerFieldsOf##Type(const Type& value) : Type(value) {}             \
    auto AraPerMembers() noexcept { return ::std::tie(__VA_ARGS__); }             \
  };                                                                              \
  AraPerFieldsOf##Type AraPerFieldsOf(const Type*) /* only its type is used */

namespace ara::per {

/// The text of a type as a manifest has it: `{i32,i32,text}` for a struct of two `std::int32_t` and a text.
template <class T>
[[nodiscard]] ara::core::String ManifestType() {
  const std::string text = detail::TypeText<T>();
  return ara::core::String(text.data(), text.size());
}

/// The text of a value as a manifest has it for an initial value: `u16:513`. Empty where a text in it is not UTF-8.
template <class T>
[[nodiscard]] ara::core::String ManifestValue(const T& value) {
  std::string text;
  if (!detail::Codec<T>::Put(text, value)) text.clear();
  return ara::core::String(text.data(), text.size());
}

}  // namespace ara::per
