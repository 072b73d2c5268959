/* Columns: of each row they say what the call for one text says, in each layout, with any offsets and any room. */
#include <array>
#include <cstdio>
#include <cstdlib>
#include <random>
#include <string>
#include <vector>

#include "bech32_columns.hpp"

using namespace bech32_proved;
using Bytes8 = std::vector<std::uint8_t>;

namespace {

#define WANT(what) ((what) ? (void)0 : fail(#what, __LINE__))

void fail(const char* what, int line) {
    std::printf("line %d: %s is not so\n", line, what);
    std::exit(1);
}

std::mt19937 draw(80);

std::size_t below(std::size_t most) { return draw() % most; }

/* Texts one behind another, and which of them are null. */
struct Held {
    Bytes8 bytes, validity;
    std::vector<std::int32_t> offsets{0};
    std::vector<std::int64_t> large{0};
    std::vector<std::optional<std::string>> rows;

    void add(std::optional<std::string> row) {
        if (rows.size() % 8 == 0) {
            validity.push_back(0);
        }
        if (row) {
            validity.back() = static_cast<std::uint8_t>(validity.back() | 1u << (rows.size() % 8));
            bytes.insert(bytes.end(), row->begin(), row->end());
        }
        offsets.push_back(static_cast<std::int32_t>(bytes.size()));
        large.push_back(static_cast<std::int64_t>(bytes.size()));
        rows.push_back(std::move(row));
    }
};

Held some(std::size_t count) {
    Held all;
    while (all.rows.size() < count) {
        const std::size_t length = below(2) ? 20 : 32, kind = below(10);
        Bytes8 program(length);
        for (std::uint8_t& it : program) {
            it = static_cast<std::uint8_t>(draw());
        }
        std::string text(segwit::encode(below(3) ? "bc" : "tb", below(2) ? 0 : 1, program)->view());
        const std::size_t at = below(text.size());
        if (kind == 1) {
            text[at] = static_cast<char>(draw());
        } else if (kind == 2) {
            text.resize(at);
        }
        all.add(kind == 0 ? std::nullopt : std::optional<std::string>(text));
    }
    return all;
}

std::uint8_t number(const Refusal& refusal) { return static_cast<std::uint8_t>(refusal.number()); }

std::uint8_t checked(Checksum checksum, const std::optional<std::string>& row) {
    const auto found = check(checksum, row.value_or(""));
    return !row ? BECH32_NULL_ROW : found ? 0 : number(found.error());
}

void texts_are_checked(const Held& all) {
    Bytes8 numbers(all.rows.size());
    for (const Checksum by : {Checksum::bech32, Checksum::bech32m, Checksum::long_bech32}) {
        WANT(check_many(by, Column(all.bytes, all.offsets, all.validity), numbers) == numbers.size());
        for (std::size_t at = 0; at < numbers.size(); at++) {
            WANT(numbers[at] == checked(by, all.rows[at]));
        }
    }
    WANT(check_many(std::nullopt, Column(all.bytes, all.large, all.validity), numbers) == numbers.size());
    for (std::size_t at = 0; at < numbers.size(); at++) {
        const bool is_right = checked(Checksum::bech32, all.rows[at]) == 0 || checked(Checksum::bech32m, all.rows[at]) == 0;
        WANT((numbers[at] == 0) == is_right);
    }
}

/* Decodes a column with some room for programs, from where the call before ended, and returns the numbers. */
Bytes8 decoded(const Column& texts, std::string_view hrp, std::size_t room, const Held& all, std::size_t first) {
    Bytes8 numbers(texts.size()), versions(texts.size()), lengths(texts.size()), programs(room);
    std::vector<std::int32_t> offsets(texts.size() + 1);
    for (std::size_t done = 0; done < texts.size();) {
        const View<std::uint8_t> own(numbers.data() + done, numbers.size() - done);
        const auto found = segwit::decode_many(texts.rows(done), hrp, {own, versions, lengths, offsets, programs});
        const std::size_t put = found ? *found : 0;
        WANT(put > 0);
        const Rows rows({offsets.data(), put + 1}, programs);
        WANT(rows.size() == put);
        for (std::size_t at = 0; at < put; at++) {
            const std::optional<std::string>& row = all.rows[first + done + at];
            const auto address = segwit::decode(row.value_or(""));
            const bool is_other = address && !hrp.empty() && address->hrp != hrp;
            WANT(own[at] == (!row ? BECH32_NULL_ROW : !address ? number(address.error()) : is_other ? BECH32_OTHER_HRP : 0));
            WANT(own[at] != 0 || (versions[at] == address->version && lengths[at] == address->hrp.size()));
            WANT(own[at] == 0 ? rows[at] == address->program : versions[at] == 0 && lengths[at] == 0 && rows[at].empty());
        }
        done += put;
    }
    return numbers;
}

void addresses_are_decoded(const Held& all) {
    const Column small(all.bytes, all.offsets, all.validity), large(all.bytes, all.large, all.validity);
    const std::size_t room = all.rows.size() * BECH32_MAX_SEGWIT_PROGRAM;
    const Bytes8 numbers = decoded(small, "bc", room, all, 0);
    WANT(decoded(large, "bc", room, all, 0) == numbers && decoded(small, "bc", 1000, all, 0) == numbers);
    decoded(small, "", room, all, 0);
    WANT(decoded(large.rows(77, 300).rows(5, 9), "bc", room, all, 82) == Bytes8(numbers.begin() + 82, numbers.begin() + 91));
    Bytes8 alone(numbers.size());
    const auto put = segwit::decode_many(small, "bc", {alone});
    WANT(put && *put == alone.size() && alone == numbers);
    const Bytes8 before(numbers.size(), 7);
    alone = before;
    const std::pair<std::string, std::uint32_t> none[] = {
        {"\xff", BECH32_NOT_UTF8}, {std::string(84, 'q'), BECH32_HRP_TOO_LONG}, {"b\xc3\xa9", BECH32_HRP_NOT_ASCII},
        {" bc", BECH32_HRP_INVALID}, {"Bc", BECH32_HRP_MIXED_CASE}};
    for (const auto& [hrp, want] : none) {
        WANT(number(segwit::decode_many(small, hrp, {alone}).error()) == want && alone == before);
    }
    Bytes8 validity((numbers.size() + 7) / 8), too_few(validity.size() - 1);
    const auto accepted = validity_of(numbers, validity);
    std::size_t count = 0;
    for (std::size_t at = 0; at < numbers.size(); at++) {
        WANT((validity[at / 8] >> (at % 8) & 1) == (numbers[at] == 0));
        count += numbers[at] == 0;
    }
    WANT(accepted && *accepted == count && validity_of(numbers, too_few).error().number() == BECH32_NO_ROOM);
}

void programs_are_encoded() {
    Bytes8 programs(60, 7), versions{0, 1, 17}, numbers(3), texts(300);
    std::array<std::int32_t, 4> offsets{};
    const Column column = Column::fixed(programs, 20);
    WANT(segwit::encode_many("bc", versions, column, {numbers, offsets, texts}) == 3);
    const Rows rows(offsets, texts);
    for (std::size_t at = 0; at < 2; at++) {
        WANT(numbers[at] == 0 && rows.text(at) == segwit::encode("bc", versions[at], Octets(programs.data(), 20))->view());
    }
    WANT(numbers[2] == BECH32_ENCODED_BAD_VERSION && rows[2].empty());
    WANT(segwit::encode_many("bc", Octets(versions.data(), 2), column, {numbers, offsets, texts}) == 2);
    WANT(segwit::encode_many("bc", versions, column, {numbers, offsets, {texts.data(), 60}}) == 1);
    WANT(segwit::encode_many("bc", versions, column.rows(2), {numbers, offsets, texts}) == 1 && numbers[0] == 0);
    WANT(segwit::encode_many("bc", versions, column.rows(3), {numbers, offsets, texts}) == 0);
}

void offsets_may_be_any() {
    const std::string text = "a12uel5la12uel5l";
    const Bytes8 bytes(text.begin(), text.end());
    const std::vector<std::int32_t> offsets{0, 8, 7, INT32_MAX, 0, 8, -1, INT32_MIN, 8, 16, 17};
    const std::vector<std::int64_t> large{INT64_MAX, 0, 8, INT64_MIN, 8, 16};
    Bytes8 numbers(10);
    WANT(check_many(Checksum::bech32, Column(bytes, offsets), numbers) == 10);
    WANT((numbers == Bytes8{0, 4, 4, 4, 0, 4, 4, 4, 0, 4}));
    WANT(check_many(Checksum::bech32, Column(bytes, large), numbers) == 5);
    WANT(numbers[0] == 4 && numbers[1] == 0 && numbers[2] == 4 && numbers[3] == 4 && numbers[4] == 0);
    WANT(check_many(Checksum::bech32, Column(bytes, offsets, Bytes8{0}), numbers) == 10);
    WANT(numbers[0] == BECH32_NULL_ROW && numbers[7] == BECH32_NULL_ROW && numbers[8] == 4);
    WANT(row_message(4) == "the offsets of the row do not lie in the column" && row_message(0).empty());
    WANT(row_message(BECH32_NULL_ROW) == "the row is null");
    const Bytes8 padded{'a', '1', '2', 'u', 'e', 'l', '5', 'l', 0, 0};
    WANT(check_many(Checksum::bech32, Column::fixed_zero(padded, 10), numbers) == 1 && numbers[0] == 0);
    WANT(check_many(Checksum::bech32, Column::fixed(padded, 10), numbers) == 1 && numbers[0] != 0);
    WANT(check_many(Checksum::bech32, Column(bytes, std::vector<std::int32_t>{}), numbers) == 0);
}

}  // namespace

int main() {
    const Held all = some(1000);
    texts_are_checked(all);
    addresses_are_decoded(all);
    programs_are_encoded();
    offsets_may_be_any();
    return 0;
}
