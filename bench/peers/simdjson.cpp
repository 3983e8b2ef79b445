// simdjson's DOM: one parser for all readings, as its authors advise; its room is reused.
#include "work.hpp"
#include <simdjson.h>

namespace dom = simdjson::dom;

static void count(dom::element value, Counts &counts) {
    counts.values++;
    switch (value.type()) {
    case dom::element_type::STRING:
        counts.bytes += std::string_view(value).size();
        break;
    case dom::element_type::ARRAY:
        for (dom::element item : dom::array(value)) {
            count(item, counts);
        }
        break;
    case dom::element_type::OBJECT:
        for (auto [name, item] : dom::object(value)) {
            counts.bytes += name.size();
            count(item, counts);
        }
        break;
    default:
        break;
    }
}

int main(int argc, char **argv) {
    dom::parser parser;
    return run(argc, argv, [&parser](const std::string &bytes, Counts &counts) {
        dom::element value;
        if (parser.parse(bytes).get(value)) {
            return false;
        }
        count(value, counts);
        return true;
    });
}
