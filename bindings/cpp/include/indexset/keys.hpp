// The encodings of keys and values. Included by indexset.hpp.
#ifndef INDEXSET_KEYS_HPP
#define INDEXSET_KEYS_HPP

#include <cstdint>
#include <cstring>
#include <functional>
#include <limits>
#include <type_traits>

namespace indexset {

// The encoding of a key, as a number of 64 bits. `encode` keeps the order, and `decode` is its inverse.
template <class K, class = void>
struct key_code;

template <class K>
struct key_code<K, std::enable_if_t<std::is_integral_v<K>>> {
    static_assert(sizeof(K) <= 8, "a key has at most 64 bits");

    static constexpr std::uint64_t encode(K key) noexcept {
        if constexpr (std::is_signed_v<K>) {
            return static_cast<std::uint64_t>(static_cast<std::int64_t>(key)) ^ sign;
        } else {
            return static_cast<std::uint64_t>(key);
        }
    }

    static constexpr K decode(std::uint64_t code) noexcept {
        return static_cast<K>(std::is_signed_v<K> ? code ^ sign : code);
    }

  private:
    static constexpr std::uint64_t sign = std::uint64_t{1} << 63;
};

template <class K>
struct key_code<K, std::enable_if_t<std::is_enum_v<K>>> {
    using number = std::underlying_type_t<K>;

    static constexpr std::uint64_t encode(K key) noexcept { return key_code<number>::encode(static_cast<number>(key)); }

    static constexpr K decode(std::uint64_t code) noexcept { return static_cast<K>(key_code<number>::decode(code)); }
};

template <class K>
struct key_code<K, std::enable_if_t<std::is_floating_point_v<K>>> {
    static_assert(std::numeric_limits<double>::is_iec559 && sizeof(K) <= sizeof(double),
                  "a key is a float or a double");

    static std::uint64_t encode(K key) noexcept {
        if (key != key) return ~std::uint64_t{0};
        const double number = key == 0 ? 0.0 : static_cast<double>(key);
        std::uint64_t bits;
        std::memcpy(&bits, &number, sizeof bits);
        return (bits & sign) != 0 ? ~bits : bits | sign;
    }

    static K decode(std::uint64_t code) noexcept {
        if (code == ~std::uint64_t{0}) return std::numeric_limits<K>::quiet_NaN();
        const std::uint64_t bits = (code & sign) != 0 ? code ^ sign : ~code;
        double number;
        std::memcpy(&number, &bits, sizeof number);
        return static_cast<K>(number);
    }

  private:
    static constexpr std::uint64_t sign = std::uint64_t{1} << 63;
};

// The order of keys: ascending, or with `std::greater` descending.
template <class K, class Compare = std::less<K>>
struct key_order {
    static constexpr bool descends =
        std::is_same_v<Compare, std::greater<K>> || std::is_same_v<Compare, std::greater<>>;
    static_assert(descends || std::is_same_v<Compare, std::less<K>> || std::is_same_v<Compare, std::less<>>,
                  "keys are in the order of std::less or of std::greater");

    bool operator()(const K &a, const K &b) const noexcept { return encode(a) < encode(b); }

    // The encoding of a key in this order.
    static std::uint64_t encode(K key) noexcept { return turned(key_code<K>::encode(key)); }
    static K decode(std::uint64_t code) noexcept { return key_code<K>::decode(turned(code)); }

    // The code of a key in ascending order, of its code in this order, and the other way round.
    static constexpr std::uint64_t turned(std::uint64_t code) noexcept { return descends ? ~code : code; }
};

// The encoding of a value: its bytes.
template <class V>
struct value_code {
    static_assert(std::is_trivially_copyable_v<V> && std::is_default_constructible_v<V> && sizeof(V) <= 8,
                  "a value is trivially copyable, default constructible and of at most 8 bytes");

    static std::uint64_t encode(const V &value) noexcept {
        std::uint64_t code = 0;
        std::memcpy(&code, &value, sizeof value);
        return code;
    }

    static V decode(std::uint64_t code) noexcept {
        V value{};
        std::memcpy(&value, &code, sizeof value);
        return value;
    }
};

} // namespace indexset

#endif
