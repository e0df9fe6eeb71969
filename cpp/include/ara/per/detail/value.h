/// Values of C++ as values of the engine: the text of the type, the text of the value, and back.
#pragma once

#include <cstddef>
#include <cstdint>
#include <cstring>
#include <string>
#include <string_view>
#include <tuple>
#include <type_traits>
#include <utility>

#include "ara/core/utility.h"
#include "ara/per/detail/text.h"

namespace ara::per::detail {

template <class T>
inline constexpr bool kNever = false;

/// How a type of C++ is kept:
///   kDepth        how deep its type nests
///   kCodeSize     how many bytes the encoding of the type has
///   PutType       appends the text of the type
///   PayloadSize   how many bytes the encoding has after the type
///   Put           appends the text of a value; false where it holds a text that is not UTF-8
///   Get           reads such a text; false where it does not fit the type of C++
template <class T, class = void>
struct Codec {
  static_assert(kNever<T>,
                "this type cannot be kept: take bool, std::int8_t to std::uint64_t, an enum, float, double, "
                "ara::core::String, a vector, array, map or pair of such, or a struct with ARA_PER_DESCRIBE");
};

/// The greatest encoding of a value in bytes, the greatest depth of a type, and the most members of a group.
inline constexpr std::size_t kMaxValueSize = 65'536;
inline constexpr std::size_t kMaxDepth = 8;
inline constexpr std::size_t kMaxMembers = 32;

template <class T>
[[nodiscard]] std::string TypeText() {
  static_assert(Codec<T>::kDepth <= kMaxDepth, "this type nests more than 8 levels deep");
  std::string text;
  Codec<T>::PutType(text);
  return text;
}

template <class T>
[[nodiscard]] std::size_t EncodedSize(const T& value) noexcept {
  return Codec<T>::kCodeSize + Codec<T>::PayloadSize(value);
}

// ---- kinds of types

template <class T, class = void>
inline constexpr bool kIsText = false;
template <class T>
inline constexpr bool kIsText<T, std::void_t<decltype(std::declval<T&>().append(std::declval<const char*>(), 1U))>> =
    std::is_same_v<typename T::value_type, char>;

template <class T>
inline constexpr bool kIsByte = std::is_same_v<T, std::uint8_t> || std::is_same_v<T, ara::core::Byte>;

template <class T, class = void>
inline constexpr bool kIsVector = false;
template <class T>
inline constexpr bool kIsVector<T, std::void_t<decltype(std::declval<T&>().push_back(
                                       std::declval<const typename T::value_type&>()))>> = !kIsText<T>;

template <class T, class = void>
inline constexpr bool kIsArray = false;
template <class T>
inline constexpr bool
    kIsArray<T, std::void_t<typename T::value_type, decltype(std::tuple_size<T>::value)>> = true;

template <class T, class = void>
inline constexpr bool kIsMap = false;
template <class T>
inline constexpr bool kIsMap<T, std::void_t<typename T::mapped_type, decltype(std::declval<T&>().emplace().second)>> =
    true;

template <class T>
inline constexpr bool kIsCharacter = std::is_same_v<T, char> || std::is_same_v<T, wchar_t> ||
                                     std::is_same_v<T, char16_t> || std::is_same_v<T, char32_t>;

template <class T>
inline constexpr bool kIsInteger = std::is_integral_v<T> && !std::is_same_v<T, bool> && !kIsCharacter<T>;

template <class T, class = void>
inline constexpr bool kIsDescribed = false;
template <class T>
inline constexpr bool
    kIsDescribed<T, std::void_t<decltype(AraPerFieldsOf(static_cast<const T*>(nullptr)))>> = true;

// ---- numbers

template <>
struct Codec<bool> {
  static constexpr std::size_t kDepth = 1;
  static constexpr std::size_t kCodeSize = 1;

  static void PutType(std::string& out) { out += "bool"; }
  static std::size_t PayloadSize(bool) noexcept { return 1; }
  static bool Put(std::string& out, bool value) {
    out += value ? "bool:true" : "bool:false";
    return true;
  }
  static bool Get(Cursor& in, bool& value) noexcept {
    value = in.Take("bool:true");
    return value || in.Take("bool:false");
  }
};

template <class T>
struct Codec<T, std::enable_if_t<kIsInteger<T>>> {
  static constexpr std::size_t kDepth = 1;
  static constexpr std::size_t kCodeSize = 1;

  static constexpr std::string_view Head() noexcept {
    constexpr std::string_view heads[2][4] = {{"u8:", "u16:", "u32:", "u64:"}, {"i8:", "i16:", "i32:", "i64:"}};
    constexpr std::size_t place = sizeof(T) == 1 ? 0 : sizeof(T) == 2 ? 1 : sizeof(T) == 4 ? 2 : 3;
    return heads[std::is_signed_v<T> ? 1 : 0][place];
  }
  static void PutType(std::string& out) { out += Head().substr(0, Head().size() - 1); }
  static std::size_t PayloadSize(T) noexcept { return sizeof(T); }
  static bool Put(std::string& out, T value) {
    char digits[24];
    out += Head();
    out.append(digits, std::to_chars(digits, digits + sizeof digits, value).ptr);
    return true;
  }
  static bool Get(Cursor& in, T& value) noexcept { return in.Take(Head()) && in.TakeNumber(value); }
};

/// An enum is kept as its number.
template <class T>
struct Codec<T, std::enable_if_t<std::is_enum_v<T> && !std::is_same_v<T, ara::core::Byte>>>
    : Codec<std::underlying_type_t<T>> {
  using Number = std::underlying_type_t<T>;

  static std::size_t PayloadSize(T) noexcept { return sizeof(T); }
  static bool Put(std::string& out, T value) { return Codec<Number>::Put(out, static_cast<Number>(value)); }
  static bool Get(Cursor& in, T& value) noexcept {
    Number number{};
    if (!Codec<Number>::Get(in, number)) return false;
    value = static_cast<T>(number);
    return true;
  }
};

/// A number with a fraction is kept as a group of one number, its bits: `{u32}` or `{u64}`, which is neither of them.
template <class T>
struct Codec<T, std::enable_if_t<std::is_floating_point_v<T>>> {
  using Bits = std::conditional_t<sizeof(T) == 4, std::uint32_t, std::uint64_t>;
  static_assert(sizeof(T) == sizeof(Bits), "a long double cannot be kept");

  static constexpr std::size_t kDepth = 2;
  static constexpr std::size_t kCodeSize = 3;

  static void PutType(std::string& out) { out += sizeof(T) == 4 ? "{u32}" : "{u64}"; }
  static std::size_t PayloadSize(T) noexcept { return sizeof(T); }
  static bool Put(std::string& out, T value) {
    Bits bits{};
    std::memcpy(&bits, &value, sizeof bits);
    out += '{';
    Codec<Bits>::Put(out, bits);
    out += '}';
    return true;
  }
  static bool Get(Cursor& in, T& value) noexcept {
    Bits bits{};
    if (!in.Take("{") || !Codec<Bits>::Get(in, bits) || !in.Take("}")) return false;
    std::memcpy(&value, &bits, sizeof bits);
    return true;
  }
};

// ---- texts and bytes

template <class T>
struct Codec<T, std::enable_if_t<kIsText<T>>> {
  static constexpr std::size_t kDepth = 1;
  static constexpr std::size_t kCodeSize = 1;

  static void PutType(std::string& out) { out += "text"; }
  static std::size_t PayloadSize(const T& value) noexcept { return 4 + value.size(); }
  static bool Put(std::string& out, const T& value) {
    const std::string_view text = AsText(value);
    if (!IsUtf8(text)) return false;
    out += "text:\"";
    for (const char c : text) {
      if (c == '"' || c == '\\') out += '\\';
      if (c == '\n') {
        out += "\\n";
      } else {
        out += c;
      }
    }
    out += '"';
    return true;
  }
  static bool Get(Cursor& in, T& value) {
    if (!in.Take("text:\"")) return false;
    std::string text;
    for (char c{}; in.TakeCharacter(c);) {
      if (c == '"') {
        value = T(text.data(), text.size());
        return true;
      }
      if (c == '\\') {
        if (!in.TakeCharacter(c)) return false;
        if (c == 'n') c = '\n';
      }
      text += c;
    }
    return false;
  }
};

/// Bytes, of which `Items` has as many as there are (a vector) or exactly its own number (an array).
template <class Items>
struct BytesCodec {
  static constexpr std::size_t kDepth = 1;
  static constexpr std::size_t kCodeSize = 1;

  static void PutType(std::string& out) { out += "bytes"; }
  static std::size_t PayloadSize(const Items& items) noexcept { return 4 + items.size(); }
  static bool Put(std::string& out, const Items& items) {
    out += "bytes:";
    PutHex(out, items.data(), items.size());
    return true;
  }
  static bool Get(Cursor& in, Items& items) {
    if (!in.Take("bytes:")) return false;
    const std::size_t size = in.BytesAhead();
    if constexpr (kIsArray<Items>) {
      if (size != items.size()) return false;
    } else {
      items.resize(size);
    }
    for (auto& item : items) {
      unsigned char byte{};
      if (!in.TakeByte(byte)) return false;
      std::memcpy(&item, &byte, 1);
    }
    return true;
  }
};

template <class T>
struct Codec<T, std::enable_if_t<kIsVector<T> && kIsByte<typename T::value_type>>> : BytesCodec<T> {};
template <class T>
struct Codec<T, std::enable_if_t<kIsArray<T> && kIsByte<typename T::value_type>>> : BytesCodec<T> {};

// ---- groups

/// The members of a group, as references in a tuple.
template <class... Members>
struct GroupCodec {
  static_assert(sizeof...(Members) <= kMaxMembers, "a struct is kept by at most 32 members");

  using References = std::tuple<Members&...>;

  static constexpr std::size_t Deepest() noexcept {
    std::size_t deepest = 0;
    ((deepest = Codec<Members>::kDepth > deepest ? Codec<Members>::kDepth : deepest), ...);
    return deepest;
  }

  static constexpr std::size_t kDepth = 1 + Deepest();
  static constexpr std::size_t kCodeSize = 2 + (Codec<Members>::kCodeSize + ...);

  static void PutType(std::string& out) {
    char before = '{';
    ((out += std::exchange(before, ','), Codec<Members>::PutType(out)), ...);
    out += '}';
  }
  static std::size_t PayloadSize(const References& members) noexcept {
    return std::apply([](const auto&... member) { return (Codec<Members>::PayloadSize(member) + ...); }, members);
  }
  static bool Put(std::string& out, const References& members) {
    char before = '{';
    const bool isText = std::apply(
        [&](const auto&... member) {
          return ((out += std::exchange(before, ','), Codec<Members>::Put(out, member)) && ...);
        },
        members);
    out += '}';
    return isText;
  }
  static bool Get(Cursor& in, References members) {
    std::string_view before{"{"};
    const bool fits = std::apply(
        [&](auto&... member) {
          return ((in.Take(std::exchange(before, ",")) && Codec<Members>::Get(in, member)) && ...);
        },
        members);
    return fits && in.Take("}");
  }
};

/// The group of a struct that ARA_PER_DESCRIBE describes. `Fields` is the struct again, with its members at hand.
template <class T>
struct Described {
  using Fields = decltype(AraPerFieldsOf(static_cast<const T*>(nullptr)));

  template <class... Members>
  static GroupCodec<Members...> GroupOf(const std::tuple<Members&...>&);
  using Group = decltype(GroupOf(std::declval<Fields&>().AraPerMembers()));
};

template <class T>
struct Codec<T, std::enable_if_t<kIsDescribed<T>>> {
  using Fields = typename Described<T>::Fields;
  using Group = typename Described<T>::Group;

  static constexpr std::size_t kDepth = Group::kDepth;
  static constexpr std::size_t kCodeSize = Group::kCodeSize;

  static void PutType(std::string& out) { Group::PutType(out); }
  static std::size_t PayloadSize(const T& value) {
    Fields fields{value};
    return Group::PayloadSize(fields.AraPerMembers());
  }
  static bool Put(std::string& out, const T& value) {
    Fields fields{value};
    return Group::Put(out, fields.AraPerMembers());
  }
  static bool Get(Cursor& in, T& value) {
    Fields fields{value};
    if (!Group::Get(in, fields.AraPerMembers())) return false;
    value = static_cast<T&&>(fields);
    return true;
  }
};

template <class First, class Second>
struct Codec<std::pair<First, Second>> {
  static constexpr std::size_t kDepth = GroupCodec<First, Second>::kDepth;
  static constexpr std::size_t kCodeSize = GroupCodec<First, Second>::kCodeSize;

  static void PutType(std::string& out) { GroupCodec<First, Second>::PutType(out); }
  static std::size_t PayloadSize(const std::pair<First, Second>& value) {
    return Codec<First>::PayloadSize(value.first) + Codec<Second>::PayloadSize(value.second);
  }
  static bool Put(std::string& out, const std::pair<First, Second>& value) {
    out += '{';
    const bool isText = Codec<First>::Put(out, value.first) && (out += ',', Codec<Second>::Put(out, value.second));
    out += '}';
    return isText;
  }
  static bool Get(Cursor& in, std::pair<First, Second>& value) {
    return GroupCodec<First, Second>::Get(in, std::tie(value.first, value.second));
  }
};

// ---- lists

/// What a list of `Item` and a map of such pairs have in common: the text around the items.
template <class Item>
struct ListCodec {
  static constexpr std::size_t kDepth = 1 + Codec<Item>::kDepth;
  static constexpr std::size_t kCodeSize = 1 + Codec<Item>::kCodeSize;

  static void PutType(std::string& out) {
    out += "list<";
    Codec<Item>::PutType(out);
    out += '>';
  }

  /// The size of all items that `items` goes over.
  template <class Items>
  static std::size_t PayloadSize(const Items& items) {
    std::size_t size = 4;
    for (auto&& item : items) size += Codec<Item>::PayloadSize(static_cast<const Item&>(item));
    return size;
  }

  template <class Items>
  static bool Put(std::string& out, const Items& items) {
    PutType(out);
    out += '[';
    bool isFirst = true;
    for (auto&& item : items) {
      if (!std::exchange(isFirst, false)) out += ',';
      if (!Codec<Item>::Put(out, static_cast<const Item&>(item))) return false;
    }
    out += ']';
    return true;
  }

  /// Gives each item to `take`, which says whether it fits.
  template <class Take>
  static bool Get(Cursor& in, Take take) {
    std::string head;
    PutType(head);
    if (!in.Take(head) || !in.Take("[")) return false;
    if (in.Take("]")) return true;
    do {
      Item item{};
      if (!Codec<Item>::Get(in, item) || !take(std::move(item))) return false;
    } while (in.Take(","));
    return in.Take("]");
  }
};

template <class T>
struct Codec<T, std::enable_if_t<kIsVector<T> && !kIsByte<typename T::value_type>>> : ListCodec<typename T::value_type> {
  static bool Get(Cursor& in, T& items) {
    items.clear();
    return ListCodec<typename T::value_type>::Get(in, [&items](typename T::value_type&& item) {
      items.push_back(std::move(item));
      return true;
    });
  }
};

/// An array is kept as a list, and a list of another length does not fit it.
template <class T>
struct Codec<T, std::enable_if_t<kIsArray<T> && !kIsByte<typename T::value_type>>>
    : ListCodec<typename T::value_type> {
  static bool Get(Cursor& in, T& items) {
    std::size_t count = 0;
    const bool fits = ListCodec<typename T::value_type>::Get(in, [&items, &count](typename T::value_type&& item) {
      if (count == items.size()) return false;
      items[count++] = std::move(item);
      return true;
    });
    return fits && count == items.size();
  }
};

/// A map is kept as a list of pairs, and a list that has a key twice does not fit it.
template <class T>
struct Codec<T, std::enable_if_t<kIsMap<T>>> {
  using Pair = std::pair<typename T::key_type, typename T::mapped_type>;
  using List = ListCodec<Pair>;

  static constexpr std::size_t kDepth = List::kDepth;
  static constexpr std::size_t kCodeSize = List::kCodeSize;

  static void PutType(std::string& out) { List::PutType(out); }
  static std::size_t PayloadSize(const T& items) {
    std::size_t size = 4;
    for (const auto& [key, value] : items) {
      size += Codec<typename T::key_type>::PayloadSize(key) + Codec<typename T::mapped_type>::PayloadSize(value);
    }
    return size;
  }
  static bool Put(std::string& out, const T& items) {
    PutType(out);
    char before = '[';
    for (const auto& [key, value] : items) {
      out += std::exchange(before, ',');
      out += '{';
      if (!Codec<typename T::key_type>::Put(out, key)) return false;
      out += ',';
      if (!Codec<typename T::mapped_type>::Put(out, value)) return false;
      out += '}';
    }
    if (items.empty()) out += '[';
    out += ']';
    return true;
  }
  static bool Get(Cursor& in, T& items) {
    items.clear();
    return List::Get(in, [&items](Pair&& pair) {
      return items.emplace(std::move(pair.first), std::move(pair.second)).second;
    });
  }
};

}  // namespace ara::per::detail
