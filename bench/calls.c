/* Times of single calls of the library: the test of row 2 on stores of many nodes, and calls on small ones.
   Prints a line for each: what, nodes, microseconds (the least of several rounds), the number answered. */
#include <mangerday.h>
#include <stdio.h>
#include <stdlib.h>
#include <time.h>

#define MOST 16384
#define LIST 65536

static uint32_t nodes[3 * MOST], list[LIST], record[MD_RECORD], ports[MD_PORTS];

static double now(void)
{
    struct timespec t;
    clock_gettime(CLOCK_PROCESS_CPUTIME_ID, &t);
    return 1e6 * (double)t.tv_sec + 1e-3 * (double)t.tv_nsec;
}

static void put(uint32_t k, uint32_t v, uint32_t low, uint32_t high)
{
    nodes[3 * k] = v;
    nodes[3 * k + 1] = low;
    nodes[3 * k + 2] = high;
}

/* A store of so many nodes in standard form: on each variable from 63 down, 400 pairs of the nodes below. */
static void fill(uint32_t count)
{
    uint32_t v = 63, below = 2, low = 0, high = 1, on = 0, k = 2;
    md_fresh(record, 1, 1, nodes, 3 * MOST, ports);
    while (k < count) {
        if (low != high) {
            put(k++, v, low, high);
            on++;
        }
        if (++high == below) {
            high = 0;
            low++;
        }
        if (on == 400 || low == below) {
            v--;
            below = k;
            low = 0;
            high = on = 0;
        }
    }
    record[MD_NODES] = count;
}

enum call { EVALUATE, VARIABLE, ITE, WRITE, IDLE_WRITE, READ };

static uint32_t call(enum call which, uint32_t count)
{
    static const uint32_t one[2] = {1, 0}, zero[2] = {0, 1};
    uint32_t out, answer[2];
    switch (which) {
    case EVALUATE: return md_evaluate(record, nodes, 3 * MOST, count - 1, 0, &out);
    case VARIABLE: return md_variable(record, nodes, 3 * MOST, 63, &out);
    case ITE: return md_ite(record, nodes, 3 * MOST, 2, 1, 0, &out);
    case WRITE:
        record[MD_ENTRIES] = 0;
        return md_write(record, nodes, 3 * MOST, list, LIST, one, 2, one, 2, one, 2, &out);
    case IDLE_WRITE: return md_write(record, nodes, 3 * MOST, list, LIST, zero, 2, one, 2, one, 2, &out);
    default: return md_read(record, nodes, 3 * MOST, list, LIST, ports, 0, one, 2, one, 2, answer, 2);
    }
}

static void measure(const char *what, enum call which, uint32_t count)
{
    double least = 1e12;
    uint32_t row = call(which, count);
    for (int round = 0; round < 9; round++) {
        int calls = count > 1000 ? 3 : 200;
        double start = now();
        for (int i = 0; i < calls; i++)
            row = call(which, count);
        double each = (now() - start) / calls;
        if (each < least)
            least = each;
    }
    printf("%s\t%u\t%.2f\t%u\n", what, record[MD_NODES], least, row);
}

int main(void)
{
    static const uint32_t counts[] = {64, 256, 1024, 4096, MOST};
    for (unsigned i = 0; i < sizeof counts / sizeof *counts; i++) {
        uint32_t count = counts[i];
        fill(count);
        measure("fast", EVALUATE, count);
        /* The last node repeats the one before it: the certificate fails, and every two nodes are compared. */
        put(count - 1, nodes[3 * count - 6], nodes[3 * count - 5], nodes[3 * count - 4]);
        measure("plain", EVALUATE, count);
    }
    fill(40);
    measure("evaluate", EVALUATE, 40);
    measure("variable", VARIABLE, 40);
    measure("Ite", ITE, 40);
    measure("write", WRITE, 40);
    measure("idle write", IDLE_WRITE, 40);
    record[MD_ENTRIES] = 0;
    measure("read", READ, 40);
    return 0;
}
