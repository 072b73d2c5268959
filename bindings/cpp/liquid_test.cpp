/* Near texts of a confidential address by bech32.hpp: how many errors are looked for beside erasures. */
#include <cstdio>
#include <cstdlib>
#include <string>
#include <vector>

#include "bech32.hpp"

using namespace bech32_proved;

namespace {

const std::string right = "lq1qqf8er278e6nyvuwtgf39e6ewvdcnjupn9a86rzpx655y5lhkt0walu3djf9cklkxd3ryld97hu8h3xepw7sh2rlu7q45dcew5";

void expect(bool holds, const char* what, std::size_t erasures) {
    if (!holds) {
        std::fprintf(stderr, "liquid_test: %zu erasures: %s\n", erasures, what);
        std::exit(1);
    }
}

/* Another text, with this many erasures and errors. */
std::string mistyped(const std::vector<std::size_t>& places, std::size_t errors) {
    std::string text = right;
    std::vector<std::size_t> wrong = places;
    const std::vector<std::size_t> others = {10, 50, 90};
    wrong.insert(wrong.end(), others.begin(), others.begin() + static_cast<std::ptrdiff_t>(errors));
    for (const std::size_t place : wrong) {
        text[place] = text[place] == 'q' ? 'p' : 'q';
    }
    return text;
}

static LiquidNearestRoom<> room;

/* That the right text is listed, or nothing. */
bool is_listed(const std::string& text, const std::vector<std::size_t>& places) {
    const auto found = liquid::nearest(text, room, places);
    return found && found->size() == 1 && *found->begin() == right;
}

}  // namespace

int main() {
    const std::vector<std::size_t> all = {5, 17, 29, 41, 53, 65, 77, 85};
    const std::size_t errors[] = {3, 2, 2, 1, 1, 0, 0};
    for (std::size_t erasures = 0; erasures <= 8; erasures++) {
        const std::vector<std::size_t> places(all.begin(), all.begin() + static_cast<std::ptrdiff_t>(erasures));
        if (erasures > 6) {
            const auto found = liquid::nearest(mistyped(places, 0), room, places, 3);
            expect(found && found->empty(), "there is nothing to search", erasures);
            continue;
        }
        const std::size_t most = errors[erasures];
        expect(is_listed(mistyped(places, most), places), "the right text is listed", erasures);
        expect(most == 3 || !is_listed(mistyped(places, most + 1), places), "one error more is not looked for", erasures);
        const auto refused = liquid::nearest(right, room, places, (7 - erasures) / 2 + 1);
        expect(!refused && refused.error().number() == BECH32_BAD_NUMBER, "more errors are refused", erasures);
    }
    return 0;
}
