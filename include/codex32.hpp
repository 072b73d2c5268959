/*
 * Codex32 (BIP-93) in C++17: splits a secret into shares and recovers it from them, reads, makes and derives
 * strings, and proposes the nearest string to a damaged one. Header only, over codex32.h.
 *
 *     #include "codex32.hpp"
 *
 *     auto shares = bech32_proved::codex32::split(2, "test", secret, random, 3);
 *     if (shares) {
 *         for (std::string_view share : *shares) { write_down(share); }
 *     }
 *
 * No function throws or allocates. What holds a secret is wiped when it goes: SecretBytes, SecretText, Share,
 * Shares and ProposeRoom, of which none can be copied. What stands on the stack behind a call is wiped by
 * codex32_wipe_stack (codex32.h says what stays): call it in the function that made the calls. What you hold
 * yourself you wipe by codex32_wipe.
 *
 * The functions of the library are proved (codex32.h says what, and what depends on secrets); this header is
 * tested.
 */
#ifndef CODEX32_HPP
#define CODEX32_HPP

#include "bech32_views.hpp"
#include "codex32.h"

namespace bech32_proved {
namespace codex32 {

/* Why something is refused. */
class Refusal {
public:
    constexpr Refusal() noexcept = default;
    constexpr explicit Refusal(std::uint32_t number) noexcept : number_(number) {}

    /* Its number in codex32.h: CODEX32_WRONG_CHECKSUM and the others. */
    constexpr std::uint32_t number() const noexcept { return number_; }

    /* Its sentence, in English, without a full stop. */
    Text<CODEX32_MAX_MESSAGE> message() const noexcept {
        Text<CODEX32_MAX_MESSAGE> said;
        std::size_t size = 0;
        codex32_message(number_, said.data(), said.capacity(), &size);
        said.resize(size);
        return said;
    }

private:
    std::uint32_t number_ = CODEX32_OK;
};

template <class T>
using Outcome = Result<T, Refusal>;

/* The version of the library that is linked: CODEX32_VERSION_NUMBER if it is that of the header. */
inline std::uint32_t version() noexcept { return codex32_version(); }

/* Bytes or a text that is a secret: wiped when it goes, moved and not copied. */
template <class Held>
class Secret : public Held {
public:
    Secret() noexcept = default;
    Secret(Secret&& other) noexcept : Held(other) { other.wipe(); }
    Secret& operator=(Secret&& other) noexcept {
        if (this != &other) {
            wipe();
            Held::operator=(other);
            other.wipe();
        }
        return *this;
    }
    Secret(const Secret&) = delete;
    Secret& operator=(const Secret&) = delete;
    ~Secret() { wipe(); }

    /* Fills all of it with zeros, and makes it empty. */
    void wipe() noexcept {
        codex32_wipe(this->data(), Held::capacity());
        this->resize(0);
    }
};

using SecretBytes = Secret<Bytes<CODEX32_BYTES_SIZE>>;
using SecretText = Secret<Text<CODEX32_TEXT_SIZE>>;

/* The header of a string, and the length of its payload in characters. */
struct Header {
    std::uint32_t threshold = 0;
    Text<CODEX32_IDENTIFIER_LENGTH> identifier; /* in the case of the string */
    char share_index = 0;                       /* in the case of the string */
    std::size_t payload_length = 0;
};

/* A string that was read: a share, or the secret at the index `s`. */
struct Share {
    std::uint32_t threshold = 0;
    Text<CODEX32_IDENTIFIER_LENGTH> identifier; /* in lower case */
    char share_index = 0;                       /* in lower case */
    SecretBytes bytes;
};

/* Shares of one set, or others of one length: wiped when they go. */
class Shares {
public:
    using value_type = std::string_view;
    using iterator = bech32_proved::detail::Steps<Shares>;

    std::size_t size() const noexcept { return count_; }
    iterator begin() const noexcept { return {*this, 0}; }
    iterator end() const noexcept { return {*this, count_}; }
    std::string_view operator[](std::size_t index) const noexcept {
        return all_.view().substr(index * each_, each_);
    }

    static constexpr std::size_t room = CODEX32_MAX_SPLIT * CODEX32_TEXT_SIZE;
    Shares(Secret<Text<room>>&& all, std::size_t count, std::size_t each) noexcept
        : all_(std::move(all)), count_(count), each_(each) {}

private:
    Secret<Text<room>> all_;
    std::size_t count_, each_;
};

namespace detail {

inline const std::uint8_t* at(std::string_view text) noexcept {
    return bech32_proved::detail::octets(text.data());
}

inline std::uint32_t index(char share_index) noexcept { return static_cast<std::uint8_t>(share_index); }

/* What a call puts into an output, or its refusal. */
template <class Output, class Call>
Outcome<Output> written(Call call) noexcept {
    Output output;
    std::size_t size = 0;
    const std::uint32_t refused = call(output.data(), output.capacity(), &size);
    if (refused != CODEX32_OK) {
        return Refusal(refused);
    }
    output.resize(size);
    return Outcome<Output>(std::move(output));
}

/* Texts one behind another, as the library takes them, or none where one is longer than any string. */
class Gathered {
public:
    template <class List>
    explicit Gathered(const List& texts) noexcept {
        for (const std::string_view text : texts) {
            add(text);
        }
    }
    Gathered(const Gathered&) = delete;
    Gathered& operator=(const Gathered&) = delete;
    ~Gathered() { codex32_wipe(all_, sizeof all_); }

    bool fits() const noexcept { return fits_; }
    const std::uint8_t* data() const noexcept { return all_; }
    std::size_t size() const noexcept { return size_; }
    const std::size_t* lengths() const noexcept { return lengths_; }
    std::size_t count() const noexcept { return count_; }

private:
    void add(std::string_view text) noexcept {
        if (count_ > CODEX32_MAX_SHARES) {
            return;  // One too many is enough to be refused.
        }
        const bool is_counted_alone = text.size() > CODEX32_TEXT_SIZE || count_ == CODEX32_MAX_SHARES;
        fits_ = fits_ && text.size() <= CODEX32_TEXT_SIZE;
        for (const char letter : is_counted_alone ? std::string_view() : text) {
            all_[size_++] = static_cast<std::uint8_t>(letter);
        }
        lengths_[count_++] = is_counted_alone ? 0 : text.size();
    }

    bool fits_ = true;
    std::size_t size_ = 0, count_ = 0;
    std::size_t lengths_[CODEX32_MAX_SHARES + 1];
    std::uint8_t all_[CODEX32_MAX_SHARES * CODEX32_TEXT_SIZE];
};

/* Why texts of which one is longer than any string are refused: the index, or the first that is no string. */
template <class List>
std::uint32_t refused_alone(std::uint32_t share_index, const List& texts) noexcept {
    SecretText made;
    for (const std::string_view text : texts) {
        const std::size_t length = text.size();
        const auto derive_at = [&](std::uint32_t index) {
            std::size_t size = 0;
            return codex32_derive(index, at(text), length, &length, 1, made.data(), made.capacity(), &size);
        };
        if (derive_at(share_index) == CODEX32_NO_SHARE_INDEX) {
            return CODEX32_NO_SHARE_INDEX;
        }
        const std::uint32_t refused = derive_at(CODEX32_SECRET_INDEX);
        if (refused != CODEX32_OK && refused != CODEX32_TOO_FEW_SHARES) {
            return refused;
        }
    }
    return CODEX32_BAD_LENGTH;
}

}  // namespace detail

/*
 * Reads the header of a string of 48 to 93 characters.
 *
 * Refusals, the first that applies: 2; 21, 22, 23, 11 to 15; 82; 81; 33; 83; 84.
 */
inline Outcome<Header> parse(std::string_view text) noexcept {
    Header header;
    std::uint32_t share_index = 0;
    const std::uint32_t refused =
        codex32_parse(detail::at(text), text.size(), &header.threshold, &share_index, &header.payload_length);
    if (refused != CODEX32_OK) {
        return Refusal(refused);
    }
    header.share_index = static_cast<char>(share_index);
    header.identifier.resize(CODEX32_IDENTIFIER_LENGTH);
    for (std::size_t at = 0; at < CODEX32_IDENTIFIER_LENGTH; at++) {
        header.identifier.data()[at] = detail::at(text)[CODEX32_IDENTIFIER_AT + at];
    }
    return header;
}

/*
 * Reads a string of either length, with the bytes of its payload.
 *
 * Refusals, the first that applies: 2; 21, 22, 23, 11 to 15; 82; 81; 33; 83; 84; 87.
 */
inline Outcome<Share> share(std::string_view text) noexcept {
    Share read;
    std::uint32_t share_index = 0;
    std::size_t size = 0;
    const std::uint32_t refused =
        codex32_share(detail::at(text), text.size(), &read.threshold, read.identifier.data(), &share_index,
                      read.bytes.data(), read.bytes.capacity(), &size);
    if (refused != CODEX32_OK) {
        return Refusal(refused);
    }
    read.identifier.resize(CODEX32_IDENTIFIER_LENGTH);
    read.share_index = static_cast<char>(share_index);
    read.bytes.resize(size);
    return Outcome<Share>(std::move(read));
}

/*
 * Makes the string of a header and bytes, in lower case. To share a secret, call split.
 *
 * Refusals, the first that applies: 83, 85, 86, 84, 56.
 */
inline Outcome<SecretText> encode(std::uint32_t threshold, std::string_view identifier, char share_index,
                                  Octets bytes) noexcept {
    return detail::written<SecretText>([&](auto... outs) {
        return codex32_encode(threshold, detail::at(identifier), identifier.size(), detail::index(share_index),
                              bytes.data(), bytes.size(), outs...);
    });
}

/*
 * Makes the string of a header and the characters of a payload, in lower case. To share a secret, call split.
 *
 * Refusals, the first that applies: 83, 85, 86, 84; of the payload 21, 22, 56.
 */
inline Outcome<SecretText> encode_payload(std::uint32_t threshold, std::string_view identifier, char share_index,
                                          std::string_view payload) noexcept {
    return detail::written<SecretText>([&](auto... outs) {
        return codex32_encode_payload(threshold, detail::at(identifier), identifier.size(), detail::index(share_index),
                                      detail::at(payload), payload.size(), outs...);
    });
}

/*
 * Derives the string at an index from others of its set, in lower case: at `s` the secret. `texts` is a list
 * of what a std::string_view can show.
 *
 * Refusals, the first that applies: 4; 86; of the texts in their order 2; 21, 22, 23, 11 to 15; 82; 81; 33;
 * 83; 84; then 75, 76, 84, 74, 77.
 */
template <class List>
Outcome<SecretText> derive(char share_index, const List& texts) noexcept {
    const detail::Gathered all(texts);
    if (!all.fits() && all.count() <= CODEX32_MAX_SHARES) {
        return Refusal(detail::refused_alone(detail::index(share_index), texts));
    }
    return detail::written<SecretText>([&](auto... outs) {
        return codex32_derive(detail::index(share_index), all.data(), all.size(), all.lengths(), all.count(), outs...);
    });
}

/*
 * Splits a secret into `count` shares in lower case, of which any `threshold` recover it, and fewer say
 * nothing of it if the random bytes are uniform. `random` has CODEX32_RANDOM_SIZE(threshold, secret.size())
 * bytes, of the operating system's generator: use them for one call alone, and wipe them and the secret.
 *
 * Give each split a new identifier, drawn at random: shares of two splits of one secret with the same
 * identifier are taken for one set, and as many of them as the threshold recover other bytes, without a
 * refusal. To get more shares later, derive them from enough shares (`derive`).
 *
 * Refusals, the first that applies: 83, 85, 84 (the threshold is 0), 56, 78, 66, 68.
 */
inline Outcome<Shares> split(std::uint32_t threshold, std::string_view identifier, Octets secret, Octets random,
                             std::size_t count) noexcept {
    auto all = detail::written<Secret<Text<Shares::room>>>([&](std::uint8_t* texts, std::size_t room,
                                                              std::size_t* size) {
        std::size_t each = 0;
        const std::uint32_t refused =
            codex32_split(threshold, detail::at(identifier), identifier.size(), secret.data(), secret.size(),
                          random.data(), random.size(), count, texts, room, &each);
        *size = refused == CODEX32_OK ? each * count : 0;
        return refused;
    });
    if (!all) {
        return all.error();
    }
    const std::size_t each = all->size() / count;
    return Outcome<Shares>(Shares(std::move(*all), count, each));
}

/*
 * Recovers a secret from shares of one set.
 *
 * Refusals, the first that applies: 4; of the texts in their order 2; 21, 22, 23, 11 to 15; 82; 81; 33; 83;
 * 84; then 75, 76, 74, 77; 87.
 */
template <class List>
Outcome<SecretBytes> recover(const List& texts) noexcept {
    const detail::Gathered all(texts);
    if (!all.fits() && all.count() <= CODEX32_MAX_SHARES) {
        return Refusal(detail::refused_alone(CODEX32_SECRET_INDEX, texts));
    }
    return detail::written<SecretBytes>([&](auto... outs) {
        return codex32_recover(all.data(), all.size(), all.lengths(), all.count(), outs...);
    });
}

/* Memory that a proposal may use. */
using Memory = LentMemory<codex32_memory>;

/* The same in place, for texts of up to 127 characters: wiped when it goes. */
class ProposeRoom {
public:
    ProposeRoom() noexcept : memory_(bytes_, sizeof bytes_) {}
    ~ProposeRoom() { codex32_wipe(bytes_, sizeof bytes_); }
    operator Memory&() noexcept { return memory_; }

private:
    alignas(16) std::uint8_t bytes_[CODEX32_MEMORY(CODEX32_TEXT_SIZE)];
    Memory memory_;
};

/*
 * Proposes the nearest text to a damaged string, in which each `?` behind the last `1` cannot be read: twice
 * the number of changed characters, plus the number of unreadable ones, is at most 8. It may not be what was
 * meant: show it, and ask.
 *
 * Refusals, the first that applies: 2; 21, 22, 23, 11 to 15; 82; 81; 34; and 91 in place of 34.
 */
inline Outcome<SecretText> propose(std::string_view text, Memory& memory) noexcept {
    return detail::written<SecretText>([&](auto... outs) {
        return codex32_propose(detail::at(text), text.size(), memory.lent(), outs...);
    });
}

/* The same of a long string, of 125 to 127 characters. */
inline Outcome<SecretText> propose_long(std::string_view text, Memory& memory) noexcept {
    return detail::written<SecretText>([&](auto... outs) {
        return codex32_propose_long(detail::at(text), text.size(), memory.lent(), outs...);
    });
}

}  // namespace codex32
}  // namespace bech32_proved

#endif
