// Reads the JSON file that the argument names into a rapidjson::Document, and prints ok or the fault. With `insitu`
// as a second argument the texts of the tree stay in the buffer that the file was read into.

#include <rapidjson/document.h>
#include <rapidjson/error/en.h>

#include <cstdio>
#include <cstring>
#include <fstream>
#include <vector>

int main(int count, char **words) {
    if (count < 2) {
        std::puts("usage: rapidjson FILE [insitu]");
        return 2;
    }
    std::ifstream file(words[1], std::ios::binary | std::ios::ate);
    if (!file) {
        std::puts("no such file");
        return 2;
    }
    std::vector<char> bytes(static_cast<std::size_t>(file.tellg()) + 1);
    file.seekg(0);
    file.read(bytes.data(), static_cast<std::streamsize>(bytes.size() - 1));
    rapidjson::Document document;
    if (count > 2 && std::strcmp(words[2], "insitu") == 0) {
        document.ParseInsitu(bytes.data());
    } else {
        document.Parse(bytes.data(), bytes.size() - 1);
    }
    if (document.HasParseError()) {
        std::puts(rapidjson::GetParseError_En(document.GetParseError()));
        return 1;
    }
    std::puts("ok");
}
