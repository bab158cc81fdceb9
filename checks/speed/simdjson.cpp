// Measures simdjson: `simdjson json FILE N` reads FILE into its document of a new parser N times.
#include "measure.hpp"
#include <memory>
#include <simdjson.h>

int main(int, char **words) {
    simdjson::padded_string bytes(file_bytes(words[2]));
    measure(std::atoi(words[3]), [&] {
        auto parser = std::make_unique<simdjson::dom::parser>();
        auto error = parser->parse(bytes).error();
        return std::make_pair(std::move(parser), error);
    }, [](auto &made) -> unsigned long long {
        if (made.second) return 0;
        simdjson::dom::element root = made.first->doc.root();
        simdjson::dom::array items;
        simdjson::dom::object members;
        if (!root.get(items)) { unsigned long long n = 0; for (auto item : items) { (void)item; n++; } return n; }
        if (!root.get(members)) { unsigned long long n = 0; for (auto member : members) { (void)member; n++; } return n; }
        return 1;
    });
}
