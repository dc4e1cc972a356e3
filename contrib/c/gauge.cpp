// gauge.cpp: gauge.c in C++17, with a host that is freed where its scope ends.
// c++ -std=c++17 gauge.cpp $(pkg-config --cflags --libs tkhost) -o gauge
#include <iostream>
#include <stdexcept>
#include <string>
#include <string_view>
#include <tkhost.h>

class Refused : public std::runtime_error {
  public:
    explicit Refused(uint32_t number) : std::runtime_error(words(number)), number(number) {}
    const uint32_t number;

  private:
    static std::string words(uint32_t number) {
        uint8_t text[64];
        size_t length = 0;
        tkhost_text(number, text, sizeof text, &length);
        return {reinterpret_cast<char *>(text), length};
    }
};

class Host {
  public:
    explicit Host(uint64_t slice) { done(tkhost_new(&host, slice)); }
    ~Host() { tkhost_free(&host); }
    Host(const Host &) = delete;
    Host &operator=(const Host &) = delete;

    void add(std::string_view name, uint32_t x, uint32_t width, std::string_view script, uint64_t total) {
        done(tkhost_add(&host, bytes(name), name.size(), x, 0, width, 50, bytes(script), script.size(), total, 0));
    }
    void alias(std::string_view name, uint32_t kind, std::string_view config) {
        done(tkhost_alias(&host, bytes(name), name.size(), kind, bytes(config), config.size()));
    }
    void start() { done(tkhost_start(&host)); }
    void advance(uint64_t moment) { done(tkhost_advance(&host, moment)); }
    std::string section(size_t slot) {
        size_t length = 0;
        uint32_t answer = tkhost_section(&host, slot, TKHOST_NOTHING, 0, &length);
        if (answer != TKHOST_TOO_SMALL) done(answer);
        std::string text(length, ' ');
        done(tkhost_section(&host, slot, reinterpret_cast<uint8_t *>(text.data()), text.size(), &length));
        return text;
    }

  private:
    tkhost_host *host = nullptr;
    static void done(uint32_t answer) {
        if (answer != TKHOST_DONE) throw Refused(answer);
    }
    // a view of nothing may be null, which the library doesn't take
    static const uint8_t *bytes(std::string_view text) { return text.empty() ? TKHOST_NOTHING : reinterpret_cast<const uint8_t *>(text.data()); }
};

int main() try {
    Host host(64);
    host.add("runaway", 0, 100, "while 1 {}", 1000);
    host.alias("greet", TKHOST_CONST, "ready");
    host.add("gauge", 100, 100, "after 5 {puts [greet]}", 1000);
    host.start();
    host.advance(10);
    std::cout << host.section(1);
} catch (const Refused &refused) {
    std::cerr << "gauge: " << refused.what() << " (" << refused.number << ")\n";
    return 1;
}
