"""A condition as a graph: for Graphviz (`graph`), or as an SVG picture that needs no other program (`picture`).

Each node is drawn once with its variable's name; the dashed edge goes to what the condition is where the variable is
0, the full one to what it is where it is 1; the boxes 0 and 1 are false and true.
"""

from html import escape

from common.diagrams import TRUE
from running.readable import reached


def graph(diagrams, f, names, title):
    """A condition in the language of Graphviz, linear in its nodes."""
    lines = ["digraph condition {", "    label=%s; labelloc=t;" % quoted(title)]
    nodes = sorted(reached(diagrams, f))
    for node in nodes:
        if node <= TRUE:
            lines.append('    n%d [shape=box, label="%d"];' % (node, node))
        else:
            lines.append("    n%d [label=%s];" % (node, quoted(names.variable(diagrams.variable(node)))))
    for node in nodes:
        if node > TRUE:
            _, low, high = diagrams.nodes[node]
            lines += ["    n%d -> n%d [style=dashed];" % (node, low), "    n%d -> n%d;" % (node, high)]
    return "\n".join(lines + same_ranks(diagrams, nodes) + ["}"]) + "\n"


def same_ranks(diagrams, nodes):
    """The nodes of each variable side by side."""
    layers = layers_of(diagrams, nodes)
    return ["    { rank=same; %s }" % " ".join("n%d;" % node for node in layer) for layer in layers if len(layer) > 1]


def quoted(text):
    return '"%s"' % text.replace("\\", "\\\\").replace('"', '\\"')


def layers_of(diagrams, nodes):
    """The nodes of each variable, in the order of the variables, 0 and 1 last."""
    found = {}
    for node in sorted(nodes):
        found.setdefault(diagrams.variable(node), []).append(node)
    return [found[variable] for variable in sorted(found)]


# The picture

CHARACTER = 7.5
NODE_HEIGHT, BOX = 28, 26
LAYER_HEIGHT, GAP, MARGIN = 66, 22, 24
SWEEPS = 12
MOST_NODES = 300
LEGEND = "dashed: the variable is 0, full: it is 1"


class TooManyNodes(Exception):
    """A condition that is too large for a picture, with the number of its nodes."""


class Place:
    """A node in its layer, or a bend of an edge that goes past the layer: how wide it is, where its middle is, and
    the places above and below that edges join it to."""

    def __init__(self, node, width):
        self.node, self.width = node, width
        self.x = 0
        self.above, self.below = [], []


class Layout:
    """The nodes of a condition in layers, one for each variable, and its edges as lists of places."""

    def __init__(self, diagrams, f, names):
        nodes = reached(diagrams, f)
        if len(nodes) > MOST_NODES:
            raise TooManyNodes(len(nodes))
        self.labels = {node: str(node) if node <= TRUE else names.variable(diagrams.variable(node)) for node in nodes}
        layers = layers_of(diagrams, nodes)
        self.places = {node: Place(node, self.width(node)) for node in nodes}
        self.layers = [[self.places[node] for node in layer] for layer in layers]
        self.level = {node: number for number, layer in enumerate(layers) for node in layer}
        self.edges = [edge for node in sorted(nodes) if node > TRUE
                      for edge in self.edges_of(diagrams.nodes[node], node)]
        self.order()
        self.settle()

    def width(self, node):
        return BOX if node <= TRUE else max(44, CHARACTER * len(self.labels[node]) + 22)

    def edges_of(self, words, node):
        """The dashed and the full edge of a node: whether it is dashed, and its places."""
        for child, dashed in ((words[1], True), (words[2], False)):
            path = [self.places[node]]
            for number in range(self.level[node] + 1, self.level[child]):
                path.append(Place(None, 6))
                self.layers[number].append(path[-1])
            path.append(self.places[child])
            for upper, lower in zip(path, path[1:]):
                upper.below.append(lower)
                lower.above.append(upper)
            yield dashed, path

    def order(self):
        """Put the places of each layer into the order of the middles of those that they are joined to."""
        for layer in self.layers:
            self.spread(layer)
        for sweep in range(SWEEPS):
            down = sweep % 2 == 0
            for layer in self.layers if down else reversed(self.layers):
                layer.sort(key=lambda place, down=down: middle(place.above if down else place.below, place.x))
                self.spread(layer)

    @staticmethod
    def spread(layer):
        """Places side by side, about the middle 0."""
        x = -sum(place.width + GAP for place in layer) / 2
        for place in layer:
            place.x = x + (place.width + GAP) / 2
            x += place.width + GAP

    def settle(self):
        """Move each layer towards what it is joined to, without changing its order."""
        for sweep in range(2 * SWEEPS):
            for layer in self.layers if sweep % 2 else reversed(self.layers):
                wanted = [middle(place.above + place.below, place.x) for place in layer]
                for place, x in zip(layer, apart(layer, wanted)):
                    place.x = x
        left = min(place.x - place.width / 2 for layer in self.layers for place in layer)
        for layer in self.layers:
            for place in layer:
                place.x += MARGIN - left

    def y(self, place_level):
        return MARGIN + 40 + LAYER_HEIGHT * place_level


def middle(places, otherwise):
    return sum(place.x for place in places) / len(places) if places else otherwise


def apart(layer, wanted):
    """Middles near those wanted, so far apart as the places of a layer need: the mean of what pushing to the right and
    pushing to the left give."""
    right, left = list(wanted), list(wanted)
    for number in range(1, len(layer)):
        right[number] = max(right[number], right[number - 1] + distance(layer[number - 1], layer[number]))
    for number in range(len(layer) - 2, -1, -1):
        left[number] = min(left[number], left[number + 1] - distance(layer[number], layer[number + 1]))
    return [(one + other) / 2 for one, other in zip(right, left)]


def distance(one, other):
    return (one.width + other.width) / 2 + GAP


def curve(points):
    """A path through points, upright at each."""
    (x, y), *rest = points
    text = "M%.1f,%.1f" % (x, y)
    for next_x, next_y in rest:
        half = (next_y - y) / 2
        text += " C%.1f,%.1f %.1f,%.1f %.1f,%.1f" % (x, y + half, next_x, next_y - half, next_x, next_y)
        x, y = next_x, next_y
    return text


def edge_svg(layout, dashed, path):
    first = layout.level[path[0].node]
    side = path[0].width / 4 * (-1 if dashed else 1)
    points = [(path[0].x + side, layout.y(first) + NODE_HEIGHT / 2 - 2)]
    points += [(place.x, layout.y(first + number)) for number, place in enumerate(path[1:-1], 1)]
    points.append((path[-1].x, layout.y(first + len(path) - 1) - NODE_HEIGHT / 2 - 1))
    style = ' stroke-dasharray="5,4"' if dashed else ""
    return '<path d="%s" fill="none" stroke="#333333"%s marker-end="url(#head)"/>' % (curve(points), style)


def node_svg(layout, node):
    place, y = layout.places[node], layout.y(layout.level[node])
    if node <= TRUE:
        shape = '<rect x="%.1f" y="%.1f" width="%d" height="%d"' % (place.x - BOX / 2, y - BOX / 2, BOX, BOX)
    else:
        shape = '<ellipse cx="%.1f" cy="%.1f" rx="%.1f" ry="%.1f"' % (place.x, y, place.width / 2, NODE_HEIGHT / 2)
    return [shape + ' fill="white" stroke="black"/>',
            '<text x="%.1f" y="%.1f" text-anchor="middle">%s</text>' % (place.x, y + 4, escape(layout.labels[node]))]


def picture(diagrams, f, names, title):
    """A condition as an SVG; TooManyNodes where it is too large for one."""
    layout = Layout(diagrams, f, names)
    right = max(place.x + place.width / 2 for layer in layout.layers for place in layer)
    width = max(right, MARGIN + CHARACTER * max(len(title), len(LEGEND))) + MARGIN
    height = layout.y(len(layout.layers) - 1) + BOX + MARGIN + 16
    root, top = layout.places[f], layout.y(layout.level[f]) - NODE_HEIGHT / 2
    lines = ['<svg xmlns="http://www.w3.org/2000/svg" width="%d" height="%d" viewBox="0 0 %d %d" '
             'font-family="sans-serif" font-size="13">' % (width, height, width, height),
             '<defs><marker id="head" markerWidth="8" markerHeight="8" refX="7" refY="4" orient="auto">'
             '<path d="M0,1 L7,4 L0,7 z" fill="#333333"/></marker></defs>',
             '<rect width="100%" height="100%" fill="white"/>',
             '<text x="%d" y="%d" font-weight="bold">%s</text>' % (MARGIN, MARGIN, escape(title)),
             '<path d="M%.1f,%.1f L%.1f,%.1f" stroke="#333333" marker-end="url(#head)"/>' % (
                 root.x, top - 20, root.x, top - 1)]
    lines += [edge_svg(layout, dashed, path) for dashed, path in layout.edges]
    for node in sorted(layout.places):
        lines += node_svg(layout, node)
    lines.append('<text x="%d" y="%d" fill="#555555" font-size="12">%s</text>' % (MARGIN, height - 14, LEGEND))
    return "\n".join(lines + ["</svg>"]) + "\n"
