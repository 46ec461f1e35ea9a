// Reads a text of JSON that it makes, changes and sorts its parts, and prints it again: json COUNT
#include <cstdio>
#include <cstdlib>
#include <string>
#include <nlohmann/json.hpp>

using nlohmann::json;

static json made(int count)
{
    unsigned state = 1;
    json all = json::array();
    for (int k = 0; k < count; k++) {
        state = state * 1664525 + 1013904223;
        json it = {{"id", k}, {"name", "user" + std::to_string(state % 1000)}, {"share", state % 977 / 7.0}, {"active", state % 3 == 0}};
        for (unsigned n = state % 5; n; n--)
            it["tags"].push_back(std::string(n * 3, char('a' + state % 26)) + "\n\"");
        all.push_back(it);
    }
    return all;
}

int main(int, char **words)
{
    std::string text = made(std::atoi(words[1])).dump(1);
    std::size_t sum = 0;
    for (int turn = 0; turn < 4; turn++) {
        json read = json::parse(text);
        for (auto &it : read) {
            if (it["active"].get<bool>())
                it["share"] = it["share"].get<double>() * 2;
            else
                it.erase("share");
            sum += it.value("name", "").size() + it.size();
        }
        text = json::parse(read.dump()).dump(1 + turn);
    }
    std::printf("%zu %zu\n", sum, text.size());
}
