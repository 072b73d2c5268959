/* What bech32.hpp and codex32.hpp are for: texts, addresses, mistyped ones, descriptors, and shares of a secret. */
#include <algorithm>
#include <array>
#include <cstdio>
#include <random>
#include <string>
#include <vector>

#include "bech32.hpp"
#include "codex32.hpp"

using namespace bech32_proved;

namespace {

int shown(std::string_view text) { return std::printf("%.*s\n", static_cast<int>(text.size()), text.data()); }

/* Bytes as a text, and back. */
void texts() {
    const std::vector<std::uint8_t> data(5, 0xab);
    const auto text = encode(Checksum::bech32m, "abc", data);
    shown(*text);
    const auto decoded = decode_strict(Checksum::bech32m, *text);
    shown(decoded->hrp.view());
    std::printf("%s\n", decoded->data == data ? "the same bytes" : "other bytes");
}

/* An address of a network, or why it is none. */
void addresses() {
    for (const std::string_view text : {"BC1QW508D6QEJXTDG4Y5R3ZARVARY0C5XW7KV8F3T4", "bc1qw508d6qejxtdg4y5r3zarvary0c5xw7kv8f3b4"}) {
        const auto address = segwit::decode(text);
        if (address) {
            std::printf("version %u, %zu bytes\n", static_cast<unsigned>(address->version), address->program.size());
        } else {
            const auto said = address.error().message();
            std::printf("%.*s: character %zu\n", static_cast<int>(said.size()), said.view().data(),
                        *address.error().place() + 1);
        }
    }
}

/* What someone may have meant. Rooms are large: here they are static, and one thread uses them. */
void mistyped() {
    const auto mended = correct(Checksum::bech32, "a12uel5q");
    for (const Change& it : *mended) {
        std::printf("character %zu: %c becomes %c\n", it.place + 1, it.from, it.to);
    }
    static SuggestRoom room;
    const auto meant = segwit::suggest("bc1q?508d6qejxtdg4y5r3zarvaty0c5xw7kv8f3t4", "bc", room);
    for (const Edited& it : *meant) {
        shown(it.text);
    }
}

/* The checksum of a descriptor, and a mistyped descriptor mended. */
void descriptors() {
    const std::string plain = "raw(deadbeef)";
    const std::string text = plain + "#" + std::string(descriptor::checksum(plain)->view());
    shown(text);
    static MendRoom<100> room;
    const auto mended = descriptor::mend("raw(deedbeef)#89f8spxm", room);
    for (const Edited& it : *mended) {
        std::printf("character %zu: %.*s\n", it.place + 1, static_cast<int>(it.text.size()), it.text.data());
    }
}

/* A secret as shares, of which two recover it. The random bytes are the operating system's. */
void shares() {
    const std::vector<std::uint8_t> secret(16, 7);
    std::vector<std::uint8_t> random(CODEX32_RANDOM_SIZE(2, 16));
    std::random_device device;
    std::generate(random.begin(), random.end(), [&] { return static_cast<std::uint8_t>(device()); });
    const auto made = codex32::split(2, "test", secret, random, 3);
    std::printf("%zu shares of %zu characters\n", made->size(), (*made)[0].size());
    const auto found = codex32::recover(std::array<std::string_view, 2>{(*made)[2], (*made)[0]});
    std::printf("%s\n", *found == secret ? "the secret" : "another secret");
    codex32_wipe_stack();
}

}  // namespace

int main() {
    texts();
    addresses();
    mistyped();
    descriptors();
    shares();
    return 0;
}
