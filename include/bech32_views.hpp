/*
 * What bech32.hpp and codex32.hpp have in common: views of bytes, texts and bytes held in place, lists of
 * numbers, results that are a value or a refusal, and memory that is lent. C++17, header only.
 *
 * Nothing here allocates or throws. A view does not own what it shows.
 */
#ifndef BECH32_VIEWS_HPP
#define BECH32_VIEWS_HPP

#include <cassert>
#include <cstddef>
#include <cstdint>
#include <iterator>
#include <optional>
#include <string_view>
#include <type_traits>
#include <utility>

namespace bech32_proved {

namespace detail {

template <class T>
inline constexpr bool is_byte_v = std::is_same_v<T, std::uint8_t> || std::is_same_v<T, std::byte>;

template <class C>
using item_t = std::remove_pointer_t<decltype(std::data(std::declval<C&>()))>;

inline const std::uint8_t* octets(const void* at) noexcept {
    return static_cast<const std::uint8_t*>(at);
}

}  // namespace detail

/* Bytes that are read: an array, a std::vector, or anything else of std::uint8_t or std::byte in a row. */
class Octets {
public:
    constexpr Octets() noexcept = default;
    constexpr Octets(const std::uint8_t* data, std::size_t size) noexcept : data_(data), size_(size) {}

    template <class C, class = std::enable_if_t<detail::is_byte_v<std::remove_cv_t<detail::item_t<const C>>>>>
    Octets(const C& bytes) noexcept : data_(detail::octets(std::data(bytes))), size_(std::size(bytes)) {}

    constexpr const std::uint8_t* data() const noexcept { return data_; }
    constexpr std::size_t size() const noexcept { return size_; }
    constexpr bool empty() const noexcept { return size_ == 0; }
    constexpr const std::uint8_t* begin() const noexcept { return data_; }
    constexpr const std::uint8_t* end() const noexcept { return data_ + size_; }
    constexpr std::uint8_t operator[](std::size_t at) const noexcept { return data_[at]; }

private:
    const std::uint8_t* data_ = nullptr;
    std::size_t size_ = 0;
};

/* Whether both are the same bytes. The time tells where they differ: not for secrets. */
inline bool operator==(Octets one, Octets other) noexcept {
    bool same = one.size() == other.size();
    for (std::size_t at = 0; same && at < one.size(); at++) {
        same = one[at] == other[at];
    }
    return same;
}

inline bool operator!=(Octets one, Octets other) noexcept { return !(one == other); }

/* Numbers that are read: places in a text, for one. */
class Numbers {
public:
    constexpr Numbers() noexcept = default;
    constexpr Numbers(const std::size_t* data, std::size_t size) noexcept : data_(data), size_(size) {}

    template <class C, class = std::enable_if_t<std::is_same_v<std::remove_cv_t<detail::item_t<const C>>, std::size_t>>>
    constexpr Numbers(const C& numbers) noexcept : data_(std::data(numbers)), size_(std::size(numbers)) {}

    constexpr const std::size_t* data() const noexcept { return data_; }
    constexpr std::size_t size() const noexcept { return size_; }
    constexpr const std::size_t* begin() const noexcept { return data_; }
    constexpr const std::size_t* end() const noexcept { return data_ + size_; }

private:
    const std::size_t* data_ = nullptr;
    std::size_t size_ = 0;
};

/* At most Room bytes, held in place. */
template <std::size_t Room>
class Bytes {
public:
    Bytes() noexcept {}

    static constexpr std::size_t capacity() noexcept { return Room; }
    std::uint8_t* data() noexcept { return items_; }
    const std::uint8_t* data() const noexcept { return items_; }
    std::size_t size() const noexcept { return size_; }
    bool empty() const noexcept { return size_ == 0; }
    const std::uint8_t* begin() const noexcept { return items_; }
    const std::uint8_t* end() const noexcept { return items_ + size_; }
    std::uint8_t operator[](std::size_t at) const noexcept { return items_[at]; }

    /* Says how many of the bytes from data() on are meant, at most Room. */
    void resize(std::size_t size) noexcept {
        assert(size <= Room);
        size_ = size;
    }

private:
    std::size_t size_ = 0;
    std::uint8_t items_[Room];
};

/* A text of at most Room characters, held in place. It does not end in a zero byte. */
template <std::size_t Room>
class Text : public Bytes<Room> {
public:
    std::string_view view() const noexcept {
        return {static_cast<const char*>(static_cast<const void*>(this->data())), this->size()};
    }
    operator std::string_view() const noexcept { return view(); }
};

template <std::size_t Room>
bool operator==(const Text<Room>& text, std::string_view other) noexcept {
    return text.view() == other;
}

template <std::size_t Room>
bool operator!=(const Text<Room>& text, std::string_view other) noexcept {
    return text.view() != other;
}

/* A value, or the refusal of what was given. Like std::expected of C++23, of which it has the names. */
template <class T, class E>
class Result {
public:
    Result(T&& value) noexcept : value_(std::move(value)) {}
    Result(const T& value) noexcept : value_(value) {}
    Result(E refusal) noexcept : refusal_(refusal) {}

    bool has_value() const noexcept { return value_.has_value(); }
    explicit operator bool() const noexcept { return has_value(); }

    /* The value; there has to be one. Of a result that goes it is moved out, so `for (x : *f())` is safe. */
    T& operator*() & noexcept { return held(); }
    T operator*() && noexcept { return std::move(held()); }
    const T& operator*() const& noexcept { return held(); }
    T* operator->() noexcept { return &held(); }
    const T* operator->() const noexcept { return &held(); }

    template <class U>
    T value_or(U&& other) const& {
        return has_value() ? *value_ : static_cast<T>(std::forward<U>(other));
    }

    /* The refusal; there has to be one. */
    const E& error() const noexcept {
        assert(!has_value());
        return refusal_;
    }

private:
    T& held() noexcept {
        assert(has_value());
        return *value_;
    }
    const T& held() const noexcept {
        assert(has_value());
        return *value_;
    }

    std::optional<T> value_;
    E refusal_{};
};

/* Memory that a library may use; where it does not begin at a multiple of 16, up to 15 bytes are left out. */
template <class Lent>
class LentMemory {
public:
    LentMemory(void* start, std::size_t size) noexcept {
        const std::size_t left_out = (0U - reinterpret_cast<std::uintptr_t>(start)) % 16;
        if (size > left_out) {
            lent_ = {static_cast<std::uint8_t*>(start) + left_out, size - left_out};
        }
    }
    LentMemory(const LentMemory&) = delete;
    LentMemory& operator=(const LentMemory&) = delete;

    /* What the library is given: of size 0 after a call that kept the memory (its C header says when). */
    Lent* lent() noexcept { return &lent_; }

private:
    Lent lent_{nullptr, 0};
};

namespace detail {

/* Walks through a list by the indexes of its items. */
template <class List>
class Steps {
public:
    using iterator_category = std::input_iterator_tag;
    using value_type = typename List::value_type;
    using difference_type = std::ptrdiff_t;
    using pointer = const value_type*;
    using reference = value_type;

    Steps(const List& list, std::size_t index) noexcept : list_(&list), index_(index) {}

    value_type operator*() const noexcept { return (*list_)[index_]; }
    Steps& operator++() noexcept {
        index_++;
        return *this;
    }
    Steps operator++(int) noexcept { return {*list_, index_++}; }
    bool operator==(const Steps& other) const noexcept { return index_ == other.index_; }
    bool operator!=(const Steps& other) const noexcept { return index_ != other.index_; }

private:
    const List* list_;
    std::size_t index_;
};

/* Walks through a list whose item at an index begins where the texts of the items before it end. */
template <class List>
class Walk {
public:
    using iterator_category = std::input_iterator_tag;
    using value_type = typename List::value_type;
    using difference_type = std::ptrdiff_t;
    using pointer = const value_type*;
    using reference = value_type;

    Walk(const List& list, std::size_t index) noexcept : list_(&list), index_(index) {}

    value_type operator*() const noexcept { return list_->item(index_, offset_); }
    Walk& operator++() noexcept {
        offset_ += (**this).text.size();
        index_++;
        return *this;
    }
    Walk operator++(int) noexcept {
        Walk before = *this;
        ++*this;
        return before;
    }
    bool operator==(const Walk& other) const noexcept { return index_ == other.index_; }
    bool operator!=(const Walk& other) const noexcept { return index_ != other.index_; }

private:
    const List* list_;
    std::size_t index_, offset_ = 0;
};

}  // namespace detail

}  // namespace bech32_proved

#endif
