// nlohmann::json: a value of its own for each reading. Equal names of an object become one member.
#include "work.hpp"
#include <nlohmann/json.hpp>

using Json = nlohmann::json;

static void count(const Json &value, Counts &counts) {
    counts.values++;
    if (value.is_string()) {
        counts.bytes += value.get_ref<const std::string &>().size();
    } else if (value.is_array()) {
        for (const Json &item : value) {
            count(item, counts);
        }
    } else if (value.is_object()) {
        for (const auto &[name, item] : value.items()) {
            counts.bytes += name.size();
            count(item, counts);
        }
    }
}

int main(int argc, char **argv) {
    return run(argc, argv, [](const std::string &bytes, Counts &counts) {
        Json value = Json::parse(bytes, nullptr, false);
        if (value.is_discarded()) {
            return false;
        }
        count(value, counts);
        return true;
    });
}
