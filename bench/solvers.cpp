// For bench/solvers: reads each file named on standard input by LEMON's own reader of DIMACS text, and prints its counts, its ends and its greatest flow.
#include <fstream>
#include <iostream>
#include <lemon/dimacs.h>
#include <lemon/list_graph.h>
#include <lemon/preflow.h>

int main() {
    std::string path;
    while (std::getline(std::cin, path)) {
        std::ifstream file(path);
        lemon::ListDigraph graph;
        lemon::ListDigraph::ArcMap<long> capacity(graph);
        lemon::ListDigraph::Node source, sink;
        lemon::DimacsDescriptor problem = lemon::dimacsType(file);
        if (problem.type != lemon::DimacsDescriptor::MAX) return 1;
        file.clear();
        file.seekg(0);
        lemon::readDimacsMax(file, graph, capacity, source, sink, 0L, lemon::dimacsType(file));
        lemon::Preflow<lemon::ListDigraph, lemon::ListDigraph::ArcMap<long>> flow(graph, capacity, source, sink);
        flow.run();
        std::cout << problem.nodeNum << ' ' << lemon::countArcs(graph) << ' ' << graph.id(source) + 1 << ' ' << graph.id(sink) + 1 << ' ' << flow.flowValue() << '\n';
    }
}
