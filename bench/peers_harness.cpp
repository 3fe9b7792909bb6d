// The loop over all faults of the design that bench/peers_bench.py writes for Verilator: each fault runs from its reset through EDGES edges and stops at the first
// difference. It writes, for each fault, the edge behind which it is seen, or -1.
#include <cstdio>
#include <vector>
#include "Vtop.h"
#include "verilated.h"

static void reset(Vtop &top, unsigned fault) {
    top.fault = fault;
    top.clk = 0;
    for (int held = 0; held < 3; held++) {
        top.reset = held == 1;
        top.eval();
    }
}

static unsigned long edge(Vtop &top) {
    top.clk = 1;
    top.eval();
    unsigned long seen = top.watched;
    top.clk = 0;
    top.eval();
    return seen;
}

// The first edge behind which the fault is seen, or -1.
static int first_difference(Vtop &top, unsigned fault, const std::vector<unsigned long> &good) {
    reset(top, fault);
    for (int i = 0; i < EDGES; i++)
        if (edge(top) != good[i]) return i;
    return -1;
}

int main() {
    Vtop top;
    std::vector<unsigned long> good;
    reset(top, ~0u);
    for (int i = 0; i < EDGES; i++) good.push_back(edge(top));
    for (unsigned fault = 0; fault < FAULTS; fault++) std::printf("%d\n", first_difference(top, fault, good));
    return 0;
}
