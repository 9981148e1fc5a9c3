// The same calls over mdds::multi_type_vector, which keeps a store a block.
#include <cstdint>
#include <cstdio>
#include <cstring>
#include <ctime>
#include <mdds/multi_type_vector.hpp>
#include <mdds/multi_type_vector_trait.hpp>
#include <string>

enum { ALL = 1048576, MILLION = 1000000 };

// A number is an int64_t, an error a uint8_t.
using Column = mdds::multi_type_vector<mdds::mtv::element_block_func>;

static uint64_t seed;

static uint32_t row_below(uint32_t rows) {
    seed = seed * UINT64_C(6364136223846793005) + UINT64_C(1442695040888963407);
    return (seed >> 33) % rows;
}

static uint64_t now() {
    timespec t;
    clock_gettime(CLOCK_MONOTONIC, &t);
    return uint64_t(t.tv_sec) * 1000000000 + t.tv_nsec;
}

static uint64_t told_at(const Column &c, Column::const_position_type at) {
    switch (at.first->type) {
    case mdds::mtv::element_type_int64:
        return uint64_t(mdds::mtv::int64_element_block::at(*at.first->data, at.second)) & ((UINT64_C(1) << 40) - 1);
    case mdds::mtv::element_type_uint8:
        return 7;
    default:
        return 1;
    }
}

static uint64_t told(const Column &c, uint32_t row) { return told_at(c, c.position(row)); }

static uint64_t checksum(const Column &c) {
    uint64_t sum = 0;
    auto at = c.position(0);
    for (uint32_t row = 0; row < ALL; row++) {
        sum = sum * 31 + told_at(c, at);
        if (row + 1 < ALL)
            at = Column::next_position(at);
    }
    return sum;
}

static void tell(const std::string &name, uint64_t count, uint64_t start, uint64_t end, uint64_t sum) {
    std::printf("%s %llu %llu %llu\n", name.c_str(), (unsigned long long)count, (unsigned long long)(end - start),
                (unsigned long long)sum);
}

static void edits(const std::string &name) {
    {
        Column c(ALL);
        auto hint = c.begin();
        uint64_t start = now();
        for (uint32_t row = 0; row < MILLION; row++)
            hint = c.set(hint, row, int64_t(row + 1));
        tell(name + "_down", MILLION, start, now(), checksum(c));
    }
    Column c(ALL);
    std::vector<int64_t> items(ALL, 5);
    uint64_t start = now();
    c.set(0, items.begin(), items.end());
    uint64_t end = now();
    tell(name + "_run", ALL, start, end, checksum(c));
    if (name == "value") {
        seed = 12345;
        uint64_t sum = 0;
        start = now();
        for (int i = 0; i < 1000000; i++)
            sum = sum * 31 + told(c, row_below(ALL));
        end = now();
        tell(name + "_look", 1000000, start, end, sum);
    }
    start = now();
    for (int i = 0; i < 1000; i++) {
        c.insert_empty(499999, 1);
        c.resize(ALL);
    }
    end = now();
    tell(name + "_insert", 1000, start, end, checksum(c));
    start = now();
    for (int i = 0; i < 1000; i++) {
        c.erase(499999, 499999);
        c.resize(ALL);
    }
    end = now();
    tell(name + "_erase", 1000, start, end, checksum(c));
    if (name == "value") {
        seed = 777;
        start = now();
        for (int turn = 0; turn < 100000; turn++) {
            if (turn % 2)
                c.set(row_below(ALL), int64_t(9));
            else
                c.set(row_below(ALL), uint8_t(1));
        }
        end = now();
        tell(name + "_kinds", 100000, start, end, checksum(c));
    }
}

static void gets_in(uint32_t blocks) {
    Column c(ALL);
    uint32_t rows = ALL / blocks;
    for (uint32_t block = 0; block < blocks; block++) {
        uint32_t first = uint64_t(block) * rows % ALL + 1;
        uint32_t last = first + rows > ALL ? ALL : first + rows;
        if (block % 2) {
            std::vector<uint8_t> items(last - first + 1, 1);
            c.set(first - 1, items.begin(), items.end());
        } else {
            std::vector<int64_t> items(last - first + 1, first);
            c.set(first - 1, items.begin(), items.end());
        }
    }
    seed = 12345;
    uint64_t sum = 0, start = now();
    for (int i = 0; i < 1000000; i++)
        sum = sum * 31 + told(c, row_below(ALL));
    uint64_t end = now();
    tell("block_get_" + std::to_string(blocks), 1000000, start, end, sum);
}

static void kinds() {
    Column c(ALL);
    std::vector<int64_t> items(ALL, 5);
    c.set(0, items.begin(), items.end());
    seed = 777;
    uint64_t start = now();
    for (int turn = 0; turn < 100000; turn++) {
        if (turn % 2)
            c.set(row_below(ALL), int64_t(9));
        else
            c.set(row_below(ALL), uint8_t(1));
    }
    uint64_t end = now();
    tell("block_kinds", 100000, start, end, checksum(c));
}

static void walks() {
    Column c(ALL);
    auto hint = c.begin();
    for (uint32_t row = 0; row < MILLION; row++)
        hint = (row + 1) % 1000 ? c.set(hint, row, int64_t(row + 1)) : c.set(hint, row, uint8_t(1));
    uint64_t sum = 0, start = now();
    for (const auto &block : c) {
        if (block.type == mdds::mtv::element_type_int64) {
            for (auto at = mdds::mtv::int64_element_block::begin(*block.data);
                 at != mdds::mtv::int64_element_block::end(*block.data); ++at)
                sum = sum * 31 + (uint64_t(*at) & ((UINT64_C(1) << 40) - 1));
        } else if (block.type == mdds::mtv::element_type_uint8) {
            for (size_t i = 0; i < block.size; i++)
                sum = sum * 31 + 7;
        }
    }
    uint64_t end = now();
    tell("value_pieces", MILLION, start, end, sum);
}

int main() {
    edits("block");
    gets_in(1);
    gets_in(1000);
    gets_in(100000);
    kinds();
    edits("value");
    walks();
}
