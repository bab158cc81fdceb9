// Measures RapidJSON: `rapidjson json|write FILE N` reads FILE into a document N times, UTF-8 tested, or writes that document.
#include "measure.hpp"
#include <cstring>
#include <memory>
#include <rapidjson/document.h>
#include <rapidjson/stringbuffer.h>
#include <rapidjson/writer.h>

using namespace rapidjson;

static std::unique_ptr<Document> parsed(const std::string &bytes) {
    auto document = std::make_unique<Document>();
    document->Parse<kParseValidateEncodingFlag>(bytes.data(), bytes.size());
    return document;
}

int main(int, char **words) {
    std::string bytes = file_bytes(words[2]);
    int times = std::atoi(words[3]);
    if (!std::strcmp(words[1], "json")) {
        measure(times, [&] { return parsed(bytes); }, [](auto &made) -> unsigned long long {
            if (made->HasParseError()) return 0;
            return made->IsArray() ? made->Size() : made->IsObject() ? made->MemberCount() : 1;
        });
    } else {
        auto tree = parsed(bytes);
        measure(times, [&] {
            auto out = std::make_unique<StringBuffer>();
            Writer<StringBuffer> writer(*out);
            tree->Accept(writer);
            return out;
        }, [](auto &made) { return made->GetSize(); });
    }
}
