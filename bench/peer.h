// What the peers of `bench/peers` share: the keys that are drawn, values, and the time of some clients.

#pragma once
#include <atomic>
#include <chrono>
#include <cstdint>
#include <cstdio>
#include <cstdlib>
#include <string>
#include <thread>
#include <vector>

constexpr int KEYS = 1000;
constexpr int GETS = 64;

// Draws keys: the same ones in each run.
struct Draw {
    uint64_t state;
    explicit Draw(int client) : state(client + 1) {}
    int key() {
        state = state * 6364136223846793005u + 1442695040888963407u;
        return (state >> 33) % KEYS;
    }
};

// The 8 bytes that a client's program puts.
inline std::string value(int turn) {
    char text[9];
    snprintf(text, sizeof text, "v%07d", turn % 10000000);
    return text;
}

inline void need(bool done, const std::string& what) {
    if (!done) {
        fprintf(stderr, "%s\n", what.c_str());
        exit(1);
    }
}

// Runs clients, each in a thread of its own, and prints how many of their programs committed and the seconds that they took.
template <class Serve>
void timed(int clients, Serve serve) {
    std::atomic<long> commits{0};
    std::vector<std::thread> threads;
    auto began = std::chrono::steady_clock::now();
    for (int client = 0; client < clients; client++)
        threads.emplace_back([&, client] { commits += serve(client); });
    for (auto& thread : threads)
        thread.join();
    std::chrono::duration<double> took = std::chrono::steady_clock::now() - began;
    printf("%ld %f\n", commits.load(), took.count());
}
