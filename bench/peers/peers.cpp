// Reads JSON, value by value, as other people's libraries do: peers rapidjson|simdjson check|write FILE.
//
// check prints how many values the file has; write puts each on a line of its own, with no blanks. rapidjson goes over the
// text by SAX, with full numbers and the check of UTF-8; simdjson builds a document of each value.
#include <cstdio>
#include <cstdlib>
#include <cstring>
#include <fstream>
#include <iostream>
#include <optional>
#include <string>

#include <rapidjson/error/en.h>
#include <rapidjson/filewritestream.h>
#include <rapidjson/memorystream.h>
#include <rapidjson/reader.h>
#include <rapidjson/writer.h>
#include <simdjson.h>

static std::string octets_of(const char* path) {
    std::ifstream file(path, std::ios::binary | std::ios::ate);
    std::string octets(file ? static_cast<std::size_t>(file.tellg()) : 0, '\0');
    file.seekg(0);
    if (!file.read(octets.data(), static_cast<std::streamsize>(octets.size()))) {
        std::cerr << "can't read " << path << "\n";
        std::exit(1);
    }
    return octets;
}

static bool is_blank(const std::string& text, std::size_t from) {
    return text.find_first_not_of(" \t\r\n", from) == std::string::npos;
}

// Tells each value of the text to a handler, as long as there is one; behind tells that a value has ended.
template <typename Handler, typename Behind>
static std::size_t tell_all(const std::string& text, Handler& handler, Behind behind) {
    constexpr unsigned flags =
        rapidjson::kParseStopWhenDoneFlag | rapidjson::kParseFullPrecisionFlag | rapidjson::kParseValidateEncodingFlag;
    rapidjson::MemoryStream stream(text.data(), text.size());
    rapidjson::Reader reader;
    std::size_t count = 0;
    while (!is_blank(text, stream.Tell())) {
        if (!reader.Parse<flags>(stream, handler)) {
            std::cerr << reader.GetErrorOffset() << ": " << rapidjson::GetParseError_En(reader.GetParseErrorCode()) << "\n";
            std::exit(1);
        }
        behind();
        count += 1;
    }
    return count;
}

static std::size_t by_rapidjson(const char* path, bool writes) {
    const std::string text = octets_of(path);
    if (!writes) {
        rapidjson::BaseReaderHandler<> nothing;
        return tell_all(text, nothing, [] {});
    }
    static char buffer[1 << 16];
    rapidjson::FileWriteStream out(stdout, buffer, sizeof buffer);
    rapidjson::Writer<rapidjson::FileWriteStream> writer(out);
    std::size_t count = tell_all(text, writer, [&] {
        out.Put('\n');
        writer.Reset(out);
    });
    out.Flush();
    return count;
}

// Goes over the values, each of which fits the window. None where one doesn't.
static std::optional<std::size_t> within(const simdjson::padded_string& text, std::size_t window, bool writes) {
    simdjson::dom::parser parser;
    simdjson::dom::document_stream values;
    auto error = parser.parse_many(text, window).get(values);
    std::size_t count = 0;
    if (!error) {
        for (auto value : values) {
            error = value.error();
            if (error) {
                break;
            }
            if (writes) {
                std::cout << simdjson::minify(value.value()) << '\n';
            }
            count += 1;
        }
    }
    if (error == simdjson::CAPACITY && count == 0) {
        return std::nullopt;
    }
    if (error) {
        std::cerr << error << "\n";
        std::exit(1);
    }
    return count;
}

static std::size_t by_simdjson(const char* path, bool writes) {
    simdjson::padded_string text;
    if (auto error = simdjson::padded_string::load(path).get(text)) {
        std::cerr << error << "\n";
        std::exit(1);
    }
    const auto usual = within(text, simdjson::dom::DEFAULT_BATCH_SIZE, writes);
    return usual ? *usual : within(text, text.size(), writes).value();
}

int main(int count, char** words) {
    if (count != 4) {
        std::cerr << "usage: peers rapidjson|simdjson check|write FILE\n";
        return 3;
    }
    std::ios::sync_with_stdio(false);
    const bool writes = std::strcmp(words[2], "write") == 0;
    const bool is_simd = std::strcmp(words[1], "simdjson") == 0;
    const std::size_t values = is_simd ? by_simdjson(words[3], writes) : by_rapidjson(words[3], writes);
    if (!writes) {
        std::cout << "accepted " << values << "\n";
    }
    return 0;
}
