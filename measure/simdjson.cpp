// The bar: simdjson parses the files of a set into its document model, and nothing else is done with them.
#include <cstddef>
#include <cstdint>
#include <simdjson.h>

// The files that are JSON. Each is followed by as many readable bytes as simdjson asks for. The parser is kept between calls, as
// simdjson's makers advise.
extern "C" uint64_t measure_parse(const uint8_t *const *files, const size_t *lengths, size_t count) {
    static simdjson::dom::parser parser;
    uint64_t parsed = 0;
    for (size_t i = 0; i < count; i++) {
        simdjson::dom::element document;
        if (parser.parse(files[i], lengths[i], false).get(document) == simdjson::SUCCESS) parsed++;
    }
    return parsed;
}

extern "C" size_t measure_padding() { return simdjson::SIMDJSON_PADDING; }
