// RapidJSON: a document of its own for each reading, with UTF-8 checked; numbers become doubles.
#include "work.hpp"
#include <rapidjson/document.h>

using Json = rapidjson::Value;

static void count(const Json &value, Counts &counts) {
    counts.values++;
    if (value.IsString()) {
        counts.bytes += value.GetStringLength();
    } else if (value.IsArray()) {
        for (const Json &item : value.GetArray()) {
            count(item, counts);
        }
    } else if (value.IsObject()) {
        for (const auto &member : value.GetObject()) {
            counts.bytes += member.name.GetStringLength();
            count(member.value, counts);
        }
    }
}

int main(int argc, char **argv) {
    constexpr unsigned flags = rapidjson::kParseValidateEncodingFlag;
    return run(argc, argv, [](const std::string &bytes, Counts &counts) {
        rapidjson::Document doc;
        doc.Parse<flags>(bytes.data(), bytes.size());
        if (doc.HasParseError()) {
            return false;
        }
        count(doc, counts);
        return true;
    });
}
