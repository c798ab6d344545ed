#!/usr/bin/env python3
"""Makes a schedule for the detector by code: on a chain each vertex asks to acknowledge at once, and may not yet.

    early_acknowledgements.py LENGTH FOLDER

The chain goes from vertex 0 to the sink, and one chip runs down it. As it passes, each vertex asks to acknowledge the
message that it just took, which engaged it. Only when the chip has reached the sink do the acknowledgements go back up,
each vertex after the one below it, and the root closes. Each event is printed with its reply; the files are left in the
folder, for `chipfire simulate graph.json chips.csv schedule.csv`.
"""
import os
import sys

import chipfire


def schedule_of(chain):
    """The events of the chip's way down and of the acknowledgements' way up."""
    events = chipfire.Schedule()
    edges = [chain.root_edge(0), *range(len(chain.edges))]
    for vertex, edge in enumerate(edges):
        events.take(edge)
        if vertex != chain.sink:
            events.ack(edge).fire(vertex).send(edges[vertex + 1])
    for edge in reversed(edges):
        events.ack(edge).settle(edge)
    return events


def main():
    length, folder = int(sys.argv[1]), sys.argv[2]
    chain = chipfire.Graph(length + 1, length, [(vertex, vertex + 1) for vertex in range(length)])
    events = schedule_of(chain)
    os.makedirs(folder, exist_ok=True)
    chain.write(f"{folder}/graph.json")
    chipfire.write_chips(f"{folder}/chips.csv", chain, {0: 1})
    chipfire.write_schedule(f"{folder}/schedule.csv", events)
    simulation = chipfire.simulate(chain, {0: 1}, events)
    for event, reply in zip(events, simulation.replies):
        why = "" if reply.is_done else f"   because {reply.why}"
        print(f"{event.kind},{event.at},{event.count}: {reply}{why}")
    print("the root is", "closed" if simulation.root_closed else "open")


if __name__ == "__main__":
    main()
