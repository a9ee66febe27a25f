"""Who holds, who waits for whom and where each ask is, after some moves of a run (docs/believe/RULES.md, glossary)."""
from collections import deque
from typing import NamedTuple

from .journal import CONFLICTS, MODES
from .letters import is_taking


class Lock(NamedTuple):
    """How many locks of a mode a client holds in a set."""
    client: str
    mode: str
    count: int


class Wait(NamedTuple):
    """An unanswered ask, where it is, the clients that it waits for, and the locks of these that are in its way."""
    client: str
    set: str
    mode: str
    place: str
    behind: list
    locks: list
    void: list    # the clients whose asks stand in the way too, and were given up


def locks_of(follower, name):
    """The locks that are held in a set, by client and mode."""
    rows = []
    for client, node in follower.script.node_of.items():
        held = follower.cores[node, name].held
        rows += [Lock(client, mode, held[client, mode]) for mode in MODES if (client, mode) in held]
    return rows


def waits_of(follower, name):
    """The unanswered asks for a set that weren't given up, by client."""
    locks = locks_of(follower, name)
    queue = clients_of(follower.desks[name].queue)
    places = places_of(follower, name, queue)
    order = {client: place for place, client in enumerate(follower.script.node_of)}
    rows = []
    for client, node in follower.script.node_of.items():
        core = follower.cores[node, name]
        if core.waits(client):
            ask = core.pending[client]
            against = [lock for lock in locks if lock.mode in CONFLICTS[ask.mode] and lock.client != client]
            earlier = queue[:queue.index(client)] if client in queue else []
            older = older_at_parked(follower, name, ask, places[client])
            asking = {*earlier, *older} - {client}
            void = {other for other in asking if other in follower.cores[follower.script.node_of[other], name].gone}
            found = {*(lock.client for lock in against), *asking - void}
            rows.append(Wait(client, name, ask.mode, places[client], sorted(found, key=order.get), against,
                             sorted(void, key=order.get)))
    return rows


def all_waits(follower):
    """All unanswered asks, by set and client."""
    return [wait for name in follower.script.family for wait in waits_of(follower, name)]


def edges_of(waits):
    """The clients that each waiting client waits for, in order."""
    edges = {}
    for wait in waits:
        edges.setdefault(wait.client, []).extend(wait.behind)
    return edges


def lock_edges_of(waits):
    """Of these the clients whose locks are in the way."""
    edges = {}
    for wait in waits:
        edges.setdefault(wait.client, []).extend(dict.fromkeys(lock.client for lock in wait.locks))
    return edges


def older_at_parked(follower, name, ask, place):
    """Where the ask is parked, the clients whose older self-excluding ask is unanswered there."""
    if not place.startswith('parked'):
        return set()
    core = follower.cores[int(place.split()[-1]), name]
    return {older.client for older in core.pending.values() if is_taking(older.mode) and older.stamp < ask.stamp}


def places_of(follower, name, queue):
    """Where the ask of each client that waits for a set is."""
    places = {client: 'in a token on its way' for node in range(follower.script.nodes)
              for client in follower.cores[node, name].pending}
    for (sender, to), way in follower.on_way.items():
        for letter in way:
            if letter.set == name and letter.ask:
                what = 'answered by a copy' if letter.kind == 'copy' else 'an ask'
                places[letter.ask.client] = f'{what} on its way from node {sender} to {to}'
    for node in range(follower.script.nodes):
        places.update({client: f'parked at node {node}' for client in clients_of(follower.cores[node, name].parked)})
    places.update({client: f'in the queue, place {place}' for place, client in enumerate(queue, 1)})
    return places


def clients_of(asks):
    """The clients of these asks, in order."""
    return [ask.client for ask in asks]


def cores_of(follower, name):
    """What each node keeps for a set, in order of the nodes."""
    return [follower.cores[node, name] for node in range(follower.script.nodes)]


def ring_members(edges):
    """The clients that are left when those who wait for nobody that is left go, again and again."""
    left = set(edges)
    while True:
        less = {client for client in left if not left.isdisjoint(edges[client])}
        if less == left:
            return left
        left = less


def ring_of(waits):
    """The clients of a shortest ring, each of which waits for the next, by locks alone if there is one such."""
    return shortest_ring(lock_edges_of(waits)) or shortest_ring(edges_of(waits))


def shortest_ring(edges):
    """A shortest ring in a graph, or nothing."""
    left = ring_members(edges)
    best = []
    for first in edges:
        if first in left and len(best) != 2:
            ring = ring_from(edges, left, first, len(best) or len(left) + 1)
            best = ring or best
    return best


def ring_from(edges, left, first, below):
    """A shortest ring through a client that has fewer clients than this, or nothing."""
    before, todo = {first: None}, deque([(first, 1)])
    while todo:
        client, length = todo.popleft()
        if length >= below:
            return []
        for other in edges[client]:
            if other == first:
                return walk_to(before, client)
            if other in left and other not in before:
                before[other] = client
                todo.append((other, length + 1))
    return []


def walk_to(before, client):
    """The walk to a client, from the first one on."""
    walk = []
    while client is not None:
        walk.append(client)
        client = before[client]
    return walk[::-1]


def behind(waits, ring):
    """The clients that wait for one of a ring, directly or not, and aren't of it: the nearest first."""
    found = dict.fromkeys(ring)
    edges = edges_of(waits)
    while more := [client for client in edges if client not in found and not found.keys().isdisjoint(edges[client])]:
        found.update(dict.fromkeys(more))
    return list(found)[len(ring):]


def reason(waits, client, other):
    """Why one client waits for another one, in words."""
    wait = next(wait for wait in waits if wait.client == client and other in wait.behind)
    held = [lock.mode for lock in wait.locks if lock.client == other]
    if held:
        return f'{client} wants {wait.set} {wait.mode}, which {other} holds by {" and ".join(held)}'
    where = 'in the queue' if wait.place.startswith('in the queue') else 'at a node'
    return f'{client} wants {wait.set} {wait.mode}, and stands behind {other} {where}'
