"""A drawing of a network with its flow, by Graphviz's program `dot` (Debian: graphviz)."""

import shutil
import subprocess
from typing import Dict

from . import Flow
from .dimacs import Network
from .words import grouped

INSTALL = "apt-get install -y graphviz"


def dot_text(network: Network, flow: Flow, place: int, paid: int) -> str:
    """The network in Graphviz's language: an arc is as wide as its flow; one that is full is orange, the named one has its table's cost."""
    supplies: Dict[int, int] = dict(network.supplies)
    most = max([arc.flow for arc in flow.arcs] + [1])
    lines = ["digraph network {", "rankdir=LR;", 'node [fontname="DejaVu Sans", fontsize=11, shape=circle, style=filled, fillcolor="#f3f5f7"];']
    lines.append('edge [fontname="DejaVu Sans", fontsize=9, color="#656d76"];')
    for node in range(1, network.nodes + 1):
        supply = supplies.get(node, 0)
        said = f"\\n{'+' if supply > 0 else ''}{grouped(supply)}" if supply else ""
        colour = "#ddecfb" if supply > 0 else "#fff1dc" if supply < 0 else "#f3f5f7"
        lines.append(f'{node} [label="{node}{said}", fillcolor="{colour}"];')
    for k, arc in enumerate(flow.arcs, 1):
        cost = f"table: {grouped(paid)}" if k == place else f"at {grouped(arc.cost)}"
        full = arc.flow == arc.ceiling and arc.flow > 0
        style = f'penwidth={1 + 4 * arc.flow / most:.1f}, color="{"#9a4d00" if full else "#0b5cad"}"' if arc.flow else "style=dashed"
        bold = ', fontcolor="#1a7f37"' if k == place else ""
        lines.append(f'{arc.start} -> {arc.end} [label="{k}: {grouped(arc.flow)} of {grouped(arc.ceiling)}\\n{cost}", {style}{bold}];')
    return "\n".join(lines + ["}"]) + "\n"


def drawn(text: str) -> str:
    """The drawing as an SVG file."""
    program = shutil.which("dot")
    if program is None:
        raise ImportError(f"the drawing needs Graphviz's program dot. On Debian: {INSTALL}.")
    done = subprocess.run([program, "-Tsvg"], input=text.encode(), capture_output=True, check=True, timeout=60)
    return done.stdout.decode()
