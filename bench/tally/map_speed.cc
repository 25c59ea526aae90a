// What tally_speed does, with std::unordered_map keyed by a string, and with std::sort of strings: `adds NUMBER` or
// `names NUMBER`.
#include <algorithm>
#include <chrono>
#include <cstdint>
#include <cstdio>
#include <cstdlib>
#include <cstring>
#include <string>
#include <string_view>
#include <unordered_map>
#include <vector>

struct Sums {
    uint64_t files = 0;
    unsigned __int128 lines = 0, blank = 0, bytes = 0;
};

static uint64_t next(uint64_t number) { return number * 6364136223846793005u + 1442695040888963407u; }

static const char *const extensions[30] = {
    "c", "h", "rs", "py", "go", "js", "ts", "md", "txt", "json", "yaml", "toml", "html", "css", "cc",
    "cpp", "hpp", "java", "rb", "sh", "pl", "xml", "svg", "sql", "proto", "bazel", "antt", "lock", "csv", "rst"};

static long since(std::chrono::steady_clock::time_point start) {
    auto time = std::chrono::steady_clock::now() - start;
    return std::chrono::duration_cast<std::chrono::nanoseconds>(time).count();
}

// The key is the extension, a byte for the text state and one for the class.
static void time_adds(uint32_t adds) {
    auto start = std::chrono::steady_clock::now();
    std::unordered_map<std::string, Sums> rows;
    Sums totals;
    uint64_t number = 1;
    for (uint32_t i = 0; i < adds; i++) {
        number = next(number);
        std::string key(extensions[(number >> 40) % 30]);
        key.push_back('\4');
        key.push_back(static_cast<char>((number >> 33) % 4));
        Sums &row = rows[key];
        for (Sums *sums : {&row, &totals}) {
            sums->files += 1;
            sums->lines += number >> 56;
            sums->blank += 1;
            sums->bytes += number >> 52;
        }
    }
    printf("%ld %lu %zu\n", since(start), (unsigned long)totals.files, rows.size());
}

static void time_names(uint32_t names) {
    std::vector<std::string> given;
    given.reserve(names);
    uint64_t number = 1;
    for (uint32_t i = 0; i < names; i++) {
        number = next(number);
        std::string name;
        for (uint64_t rest = number, digit = 0; digit < 16; digit++, rest /= 16) name.push_back("0123456789abcdef"[rest % 16]);
        given.push_back(name);
    }
    auto start = std::chrono::steady_clock::now();
    std::sort(given.begin(), given.end());
    bool twice = std::adjacent_find(given.begin(), given.end()) != given.end();
    printf("%ld %zu %d\n", since(start), given.size(), twice);
}

int main(int argc, char **argv) {
    if (argc != 3) return 1;
    uint32_t number = strtoul(argv[2], nullptr, 10);
    for (int pass = 0; pass < 9; pass++) {
        if (strcmp(argv[1], "adds") == 0) time_adds(number);
        else time_names(number);
    }
}
