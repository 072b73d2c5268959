/*
 * Columns in C++17: many rows in one call, as databases and data frames have them. Header only, over
 * bech32.hpp.
 *
 *     #include "bech32_columns.hpp"
 *
 *     using namespace bech32_proved;
 *     std::vector<std::uint8_t> numbers(texts.size());
 *     check_many(Checksum::bech32, Column(bytes, offsets), numbers);
 *
 * A column is laid out as Apache Arrow has it, and so is what is written. It borrows its buffers, and keeps
 * nothing: threads can have some of its rows each. No function throws or allocates: what is written stands in
 * buffers of the caller, and what has no room is not put.
 *
 * No row ends a call: each has its number, a byte, the first that applies of: BECH32_NULL_ROW; 4, where its
 * offsets do not lie in the column; what the call for one text refuses with, 0 where it is accepted;
 * BECH32_OTHER_HRP.
 */
#ifndef BECH32_COLUMNS_HPP
#define BECH32_COLUMNS_HPP

#include "bech32.hpp"

namespace bech32_proved {

/* Items in a row, which may be written to where they are not const: like std::span of C++20. */
template <class T>
class View {
public:
    constexpr View() noexcept = default;
    constexpr View(T* data, std::size_t size) noexcept : data_(data), size_(size) {}

    template <class C, class = std::enable_if_t<std::is_convertible_v<detail::item_t<C> (*)[], T (*)[]>>>
    constexpr View(C&& items) noexcept : data_(std::data(items)), size_(std::size(items)) {}

    constexpr T* data() const noexcept { return data_; }
    constexpr std::size_t size() const noexcept { return size_; }
    constexpr T* begin() const noexcept { return data_; }
    constexpr T* end() const noexcept { return data_ + size_; }
    constexpr T& operator[](std::size_t at) const noexcept { return data_[at]; }

private:
    T* data_ = nullptr;
    std::size_t size_ = 0;
};

/* A column of texts or of programs. Its buffers stay the caller's. */
class Column {
public:
    /* Row i has the bytes from offset i up to offset i + 1. The offsets, which may be any, are of 32 bits (Arrow's
     * utf8 and binary) or of 64 (large_utf8, large_binary). Bit i % 8 of byte i / 8 of the validity, the lowest
     * first, is 0 where row i is null; without one no row is. */
    template <class C, class Offset = std::remove_cv_t<detail::item_t<const C>>,
              class = std::enable_if_t<std::is_same_v<Offset, std::int32_t> || std::is_same_v<Offset, std::int64_t>>>
    Column(Octets bytes, const C& offsets, Octets validity = {}) noexcept
        : Column(bytes, validity, std::size(offsets) > 0 ? std::size(offsets) - 1 : 0) {
        column_.offsets = std::data(offsets);
        column_.offsets_length = std::size(offsets) * sizeof(Offset);
        column_.layout = sizeof(Offset) == 4 ? BECH32_OFFSETS_32 : BECH32_OFFSETS_64;
    }

    /* Rows of one width, above 0: Arrow's fixed_size_binary. */
    static Column fixed(Octets bytes, std::size_t width, Octets validity = {}) noexcept {
        assert(width > 0);
        Column column(bytes, validity, bytes.size() / width);
        column.column_.width = width;
        column.column_.layout = BECH32_FIXED;
        return column;
    }

    /* The same, and a row ends before the zeros at its end. */
    static Column fixed_zero(Octets bytes, std::size_t width, Octets validity = {}) noexcept {
        Column column = fixed(bytes, width, validity);
        column.column_.layout = BECH32_FIXED_ZERO;
        return column;
    }

    /* How many rows it has. */
    std::size_t size() const noexcept { return count_; }

    /* Some of them, as many as there are. */
    Column rows(std::size_t first, std::size_t count = SIZE_MAX) const noexcept {
        Column part = *this;
        const std::size_t skipped = first < count_ ? first : count_;
        part.first_ += skipped;
        part.count_ = count < count_ - skipped ? count : count_ - skipped;
        return part;
    }

    /* As bech32.h has it: its buffers, and the first row that is meant. */
    const bech32_column& column() const noexcept { return column_; }
    std::size_t first() const noexcept { return first_; }

private:
    Column(Octets bytes, Octets validity, std::size_t rows) noexcept : count_(rows) {
        column_.bytes = bytes.data();
        column_.bytes_length = bytes.size();
        column_.validity = validity.data();
        column_.validity_length = validity.size();
        column_.rows = rows;
    }

    bech32_column column_{};
    std::size_t first_ = 0, count_;
};

/* Rows that were put: each has the bytes from its offset up to the next. */
class Rows {
public:
    Rows(View<const std::int32_t> offsets, Octets data) noexcept : offsets_(offsets), data_(data) {}

    std::size_t size() const noexcept { return offsets_.size() > 0 ? offsets_.size() - 1 : 0; }

    Octets operator[](std::size_t row) const noexcept {
        assert(row < size());
        const auto start = static_cast<std::size_t>(offsets_[row]), end = static_cast<std::size_t>(offsets_[row + 1]);
        return {data_.data() + start, end - start};
    }

    std::string_view text(std::size_t row) const noexcept {
        const Octets bytes = (*this)[row];
        return {static_cast<const char*>(static_cast<const void*>(bytes.data())), bytes.size()};
    }

private:
    View<const std::int32_t> offsets_;
    Octets data_;
};

/* The sentence of a row's number, in English, without a full stop; of 0 it is empty. */
inline Text<BECH32_MAX_MESSAGE> row_message(std::uint8_t number) noexcept {
    if (number != BECH32_BAD_NUMBER) {
        return Refusal(number).message();
    }
    Text<BECH32_MAX_MESSAGE> said;
    for (const char it : std::string_view("the offsets of the row do not lie in the column")) {
        said.data()[said.size()] = static_cast<std::uint8_t>(it);
        said.resize(said.size() + 1);
    }
    return said;
}

namespace detail {

inline std::size_t least(std::size_t one, std::size_t other) noexcept { return one < other ? one : other; }

}  // namespace detail

/*
 * Tests rows by a checksum, or with std::nullopt by Bech32m and Bech32, and returns how many numbers are put: as
 * many as there are rows, and room.
 */
inline std::size_t check_many(std::optional<Checksum> checksum, const Column& texts,
                              View<std::uint8_t> numbers) noexcept {
    const std::size_t count = detail::least(texts.size(), numbers.size());
    const std::uint32_t by = checksum ? detail::number(*checksum) : 0;
    return bech32_check_many(by, &texts.column(), texts.first(), numbers.data(), count) == BECH32_OK ? count : 0;
}

/*
 * Makes the validity of rows by their numbers: a bit for each, 1 where it is 0. Returns how many are 0.
 *
 * Refusals: 92 (fewer than a byte for each eight numbers).
 */
inline Outcome<std::size_t> validity_of(Octets numbers, View<std::uint8_t> validity) noexcept {
    std::size_t accepted = 0;
    const std::uint32_t refused =
        bech32_validity_of(numbers.data(), numbers.size(), validity.data(), validity.size(), &accepted);
    if (refused != BECH32_OK) {
        return Refusal(refused);
    }
    return accepted;
}

namespace segwit {

/* What decode_many writes: an item a row, one more of the offsets. What is not wanted is left empty. */
struct AddressesSpace {
    View<std::uint8_t> numbers;
    View<std::uint8_t> versions{};    /* 0 where the number is not 0 */
    View<std::uint8_t> hrp_lengths{}; /* of the human-readable part, with which the text begins; the same */
    View<std::int32_t> program_offsets{};
    View<std::uint8_t> programs{}; /* BECH32_MAX_SEGWIT_PROGRAM bytes a row are always enough */
};

/* What encode_many writes. */
struct TextsSpace {
    View<std::uint8_t> numbers;
    View<std::int32_t> text_offsets;
    View<std::uint8_t> texts; /* BECH32_MAX_SEGWIT_TEXT bytes a row are always enough */
};

/*
 * Decodes addresses. Name the human-readable part of your network: another address then has the number
 * BECH32_OTHER_HRP. If it is empty any is accepted, and yours to compare.
 *
 * Returns how many rows are put: fewer than there are where a buffer has no room for more. The next call is for
 * texts.rows(of these).
 *
 * Refusals: of a human-readable part that is not empty 2, 12 to 15. Then nothing is put.
 */
inline Outcome<std::size_t> decode_many(const Column& texts, std::string_view hrp, const AddressesSpace& into) noexcept {
    const std::size_t count = detail::least(texts.size(), into.numbers.size());
    std::size_t done = 0;
    const std::uint32_t refused = bech32_segwit_decode_many(
        &texts.column(), texts.first(), detail::at(hrp), hrp.size(), into.numbers.data(), count, into.versions.data(),
        into.versions.size(), into.hrp_lengths.data(), into.hrp_lengths.size(), into.program_offsets.data(),
        into.program_offsets.size(), into.programs.data(), into.programs.size(), &done);
    if (refused != BECH32_OK && refused != BECH32_NO_ROOM) {
        return Refusal(refused);
    }
    return done;
}

/*
 * Encodes addresses of one human-readable part, in lower case: a version and a program for each. Returns how many
 * rows are put, as decode_many does; there are no more than versions.
 */
inline std::size_t encode_many(std::string_view hrp, Octets versions, const Column& programs,
                               const TextsSpace& into) noexcept {
    const std::size_t count = detail::least(detail::least(programs.size(), versions.size()), into.numbers.size());
    std::size_t done = 0;
    (void)bech32_segwit_encode_many(detail::at(hrp), hrp.size(), versions.data(), versions.size(), &programs.column(),
                                    programs.first(), into.numbers.data(), count, into.text_offsets.data(),
                                    into.text_offsets.size(), into.texts.data(), into.texts.size(), &done);
    return done;
}

}  // namespace segwit

}  // namespace bech32_proved

#endif
