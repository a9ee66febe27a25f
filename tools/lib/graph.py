"""Draws who waits for whom: clients on a circle, an arrow from each that waits to each that it waits for."""
from html import escape
from math import cos, pi, sin

from .curves import clear_curve, path
from .waiting import all_waits, behind, edges_of, lock_edges_of, ring_of

RADIUS, ROOM, HEAD = 13, 56, 60
GLYPH = 6.7         # the width of a letter
INK, FAINT, RING, BEHIND, EDGE = '#222222', '#8a8a8a', '#d1381f', '#a9aeb6', '#f0a30a'
MOST_CURVES = 400   # of more arrows each is a straight line
MOST_NAMES = 4      # of those that have no arrow
KINDS = {'ring': 'red: a ring', 'behind': 'grey: behind it', 'edge': 'amber: others'}


class Waits:
    """Who waits for whom after the last move: by locks, and in a ring; or each wait, if all are asked for."""

    def __init__(self, follower, is_all, is_cut):
        waits = all_waits(follower)
        self.is_cut = is_cut
        self.ring = ring_of(waits)
        self.behind = set(behind(waits, self.ring))
        self.locks = lock_edges_of(waits)
        edges = edges_of(waits) if is_all else dict(self.locks)
        for client, other in zip(self.ring, self.ring[1:] + self.ring[:1]):
            edges[client] = list(dict.fromkeys(edges[client] + [other]))
        self.edges = {client: edges[client] for client in follower.script.node_of if edges.get(client)}
        shown = clients_of(self.edges)
        self.left_out = [wait.client for wait in waits if wait.client not in shown]

    def kind(self, client, other):
        """How an arrow is drawn."""
        if client in self.ring and other == self.ring[(self.ring.index(client) + 1) % len(self.ring)]:
            return 'ring'
        return 'behind' if client in self.ring or client in self.behind else 'edge'

    def colour(self, client):
        """The colour of a client: of the ring, behind it, or neither."""
        return RING if client in self.ring else BEHIND if client in self.behind else INK

    def is_by_lock(self, client, other):
        """Whether a lock of the other one is in the way."""
        return other in self.locks[client]

    def legend(self):
        """What the colours mean that are there, and who waits without an arrow."""
        kinds = {self.kind(client, other) for client, others in self.edges.items() for other in others}
        words = [KINDS[kind] for kind in KINDS if kind in kinds] if self.ring else []
        if not all(self.is_by_lock(client, other) for client, others in self.edges.items() for other in others):
            words.append('dashed: behind an ask')
        lines = ['; '.join(words)] * bool(words)
        if not self.ring:
            lines.insert(0, 'no ring' if self.is_cut else 'no ring: arrows lead to a client that has ended')
        if self.left_out:
            count = len(self.left_out)
            names = ' '.join(self.left_out) if count <= MOST_NAMES else f'{count} clients'
            lines.append(f'behind others, with no arrow: {names}')
        return lines


def size_of(edges):
    """The width and height that the drawing takes."""
    if not edges:
        return 320, HEAD + 20
    names = max(len(client) * (GLYPH if is_beside(turn) else GLYPH / 2)
                for client, turn in zip(clients_of(edges), turns_of(edges)))
    side = circle_of(edges) + max(ROOM, RADIUS + 8 + round(names))
    return max(2 * side, 320), 2 * (circle_of(edges) + ROOM) + HEAD


def circle_of(edges):
    """The radius of the circle on which the clients stand."""
    return 0 if len(clients_of(edges)) < 2 else max(60, 11 * len(clients_of(edges)))


def clients_of(edges):
    """All clients that wait or are waited for, in the order of their coming."""
    return list(dict.fromkeys(client for waiting, others in edges.items() for client in [waiting, *others]))


def graph(waits, left, top):
    """The pieces of SVG, with their corner there."""
    edges = waits.edges
    pieces = [text(left, top + 14, 'who waits for whom at the end', INK, 'font-weight="bold"')]
    if not edges:
        return pieces + [text(left, top + 34, 'nobody waits', FAINT)]
    pieces += [text(left, top + 30 + 14 * place, words, FAINT) for place, words in enumerate(waits.legend())]
    places = places_of(edges, left, top)
    marks = list(places.values())
    is_bent = sum(map(len, edges.values())) <= MOST_CURVES
    for client, others in edges.items():
        for other in others:
            look = waits.kind(client, other), waits.is_by_lock(client, other)
            pieces.append(edge(places[client], places[other], marks if is_bent else [], *look))
    return pieces + [piece for turn, (client, place) in zip(turns_of(edges), places.items())
                     for piece in client_at(client, place, turn, waits.colour(client))]


def places_of(edges, left, top):
    """Where each client stands on the circle, the first one at the top."""
    clients, radius = clients_of(edges), circle_of(edges)
    middle = left + size_of(edges)[0] / 2, top + HEAD + ROOM + radius
    return {client: (middle[0] + radius * sin(turn), middle[1] - radius * cos(turn))
            for client, turn in zip(clients, turns_of(edges))}


def turns_of(edges):
    """The angle of each client on the circle, from the top."""
    count = len(clients_of(edges))
    return [2 * pi * k / count for k in range(count)]


def is_beside(turn):
    """Whether the name of a client stands beside its mark, not above or below."""
    return abs(sin(turn)) > 0.5


def edge(start, end, marks, kind, is_by_lock):
    """An arrow that keeps away from the other clients; of two that wait for each other each has one of its own."""
    beside = [mark for mark in marks if mark not in (start, end)]
    curve = clear_curve(start, end, beside, RADIUS + 4)
    along = end[0] - start[0], end[1] - start[1]
    length = max(1.0, (along[0] ** 2 + along[1] ** 2) ** 0.5)
    side = -9 * along[1] / length, 9 * along[0] / length
    dash = '' if is_by_lock else 'stroke-dasharray="5 3" '
    bent = (curve[0], *(tuple(a + b for a, b in zip(point, side)) for point in curve[1:3]), curve[3])
    return (f'<path d="{path(bent, RADIUS, RADIUS)}" fill="none" stroke="{markers()[kind]}" stroke-width="1.6" '
            f'{dash}marker-end="url(#{kind})"/>')


def client_at(client, place, turn, colour):
    """A client: a mark with its name outside the circle, which covers the arrows behind it."""
    x, y = place
    mark = f'<circle cx="{x:.1f}" cy="{y:.1f}" r="{RADIUS - 4}" fill="#ffffff" stroke="{colour}" stroke-width="1.6"/>'
    name = 'paint-order="stroke" stroke="#ffffff" stroke-width="3" text-anchor='
    if is_beside(turn):
        x, anchor = (x + RADIUS, '"start"') if sin(turn) > 0 else (x - RADIUS, '"end"')
        return [mark, text(x, y + 4, client, INK, name + anchor)]
    return [mark, text(x, y - RADIUS - 2 if cos(turn) > 0 else y + RADIUS + 10, client, INK, name + '"middle"')]


def text(x, y, words, colour, more=''):
    """A line of text."""
    return f'<text x="{x:.1f}" y="{y:.1f}" fill="{colour}" {more}>{escape(words)}</text>'


def markers():
    """The heads of the arrows."""
    return {'ring': RING, 'behind': BEHIND, 'edge': EDGE}
