// Measures protozero: `protozero tile FILE N` reads FILE as a vector tile N times, every key and text of every feature copied into a
// string of its own, and gives its properties.
#include "measure.hpp"
#include <memory>
#include <optional>
#include <protozero/pbf_reader.hpp>
#include <stdexcept>
#include <utility>
#include <variant>
#include <vector>

using Value = std::variant<bool, int64_t, uint64_t, double, std::string>;

struct Feature {
    std::optional<uint64_t> id;
    uint32_t shape = 0;
    std::vector<std::pair<std::string, Value>> properties;
};

struct Layer {
    std::string name;
    uint32_t version = 0;
    std::vector<Feature> features;
};

// A value before it is copied into a feature: a text is a view of the tile.
using View = std::variant<bool, int64_t, uint64_t, double, protozero::data_view>;

static View value_of(protozero::pbf_reader value) {
    View made;
    while (value.next()) {
        switch (value.tag()) {
        case 1: made = value.get_view(); break;
        case 2: made = static_cast<double>(value.get_float()); break;
        case 3: made = value.get_double(); break;
        case 4: made = value.get_int64(); break;
        case 5: made = value.get_uint64(); break;
        case 6: made = value.get_sint64(); break;
        case 7: made = value.get_bool(); break;
        default: value.skip();
        }
    }
    return made;
}

static Value copied(const View &view) {
    return std::visit([](auto part) -> Value {
        if constexpr (std::is_same_v<decltype(part), protozero::data_view>) return std::string(part.data(), part.size());
        else return part;
    }, view);
}

static Feature feature_of(protozero::pbf_reader feature, const std::vector<protozero::data_view> &keys, const std::vector<View> &values) {
    Feature made;
    while (feature.next()) {
        switch (feature.tag()) {
        case 1: made.id = feature.get_uint64(); break;
        case 2: {
            auto tags = feature.get_packed_uint32();
            for (auto at = tags.begin(); at != tags.end();) {
                auto key = *at++;
                if (at == tags.end()) throw std::runtime_error("odd tags");
                auto value = *at++;
                auto &text = keys.at(key);
                made.properties.emplace_back(std::string(text.data(), text.size()), copied(values.at(value)));
            }
            break;
        }
        case 3: made.shape = static_cast<uint32_t>(feature.get_enum()); break;
        default: feature.skip();
        }
    }
    return made;
}

static Layer layer_of(protozero::pbf_reader layer) {
    Layer made;
    std::vector<protozero::data_view> keys;
    std::vector<View> values;
    std::vector<protozero::data_view> features;
    while (layer.next()) {
        switch (layer.tag()) {
        case 1: made.name = layer.get_string(); break;
        case 2: features.push_back(layer.get_view()); break;
        case 3: keys.push_back(layer.get_view()); break;
        case 4: values.push_back(value_of(layer.get_message())); break;
        case 15: made.version = layer.get_uint32(); break;
        default: layer.skip();
        }
    }
    made.features.reserve(features.size());
    for (auto &feature : features) made.features.push_back(feature_of(protozero::pbf_reader{feature}, keys, values));
    return made;
}

int main(int, char **words) {
    std::string bytes = file_bytes(words[2]);
    measure(std::atoi(words[3]), [&] {
        auto layers = std::make_unique<std::vector<Layer>>();
        protozero::pbf_reader tile{bytes};
        while (tile.next()) {
            if (tile.tag() == 3) layers->push_back(layer_of(tile.get_message()));
            else tile.skip();
        }
        return layers;
    }, [](auto &made) {
        unsigned long long count = 0;
        for (auto &layer : *made) for (auto &feature : layer.features) count += feature.properties.size();
        return count;
    });
}
