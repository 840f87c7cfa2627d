// Boost.Graph's edge colouring, the requests to callgrind, which are macros of its header, threads with a given stack, and bytes before
// the port.
#include <cstddef>
#include <cstdint>

#include <pthread.h>

#include <boost/graph/adjacency_list.hpp>
#include <boost/graph/edge_coloring.hpp>
#include <valgrind/callgrind.h>

// So many bytes before the port, which is linked behind this: they decide where in a cache line its loops stand. R keeps them, though
// nothing refers to them.
#define TEXT_OF(number) #number
#define BYTES(number) ".pushsection .text.place,\"axR\",@progbits\n.skip " TEXT_OF(number) "\n.popsection"
asm(BYTES(PLACE));

using Graph = boost::adjacency_list<boost::vecS, boost::vecS, boost::undirectedS, boost::no_property, std::size_t>;

// Edge list to colours: the graph is built here, so that it is counted.
extern "C" void bench_boost_edge_color(std::size_t n, const std::uint16_t *ends, std::size_t edges, std::uint16_t *colors)
{
    Graph graph(n);
    for (std::size_t k = 0; k < edges; k++)
        boost::add_edge(ends[2 * k], ends[2 * k + 1], graph);
    boost::edge_coloring(graph, boost::get(boost::edge_bundle, graph));
    // edges(graph) goes in the order of the additions.
    auto range = boost::edges(graph);
    for (auto edge = range.first; edge != range.second; ++edge)
        *colors++ = static_cast<std::uint16_t>(graph[*edge]);
}

extern "C" void bench_count_from_here(void)
{
    CALLGRIND_START_INSTRUMENTATION;
    CALLGRIND_ZERO_STATS;
}

// Writes what was counted to a file of its own, with the label in it.
extern "C" void bench_count_to_here(const char *label)
{
    CALLGRIND_DUMP_STATS_AT(label);
    CALLGRIND_STOP_INSTRUMENTATION;
}

struct Body
{
    void (*run)(void *);
    void *data;
};

static void *run_body(void *body)
{
    static_cast<Body *>(body)->run(static_cast<Body *>(body)->data);
    return nullptr;
}

// Runs the body on a thread with so many bytes of stack and waits for its end; 0, or the error where there can't be such a thread.
extern "C" int bench_on_thread(std::size_t stack, void (*run)(void *), void *data)
{
    // Below the stack nothing may be touched, as far down as a call could reach: else one with a large array would write beyond a
    // guard of a page, into whatever stands there, and go on.
    const std::size_t guard = std::size_t{4} << 20;
    pthread_attr_t attributes;
    pthread_t thread;
    Body body{run, data};
    int error = pthread_attr_init(&attributes);
    if (error == 0)
        error = pthread_attr_setguardsize(&attributes, guard);
    if (error == 0)
        error = pthread_attr_setstacksize(&attributes, stack);
    if (error == 0)
        error = pthread_create(&thread, &attributes, run_body, &body);
    if (error == 0)
        error = pthread_join(thread, nullptr);
    return error;
}
