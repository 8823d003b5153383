"""What `flow` does beside planning: tidying its file, drawing its network."""

from ..console import WrongUse, say
from ..dimacs import read
from ..files import LONGEST, handed
from ..outputs import BadOutput, check_outputs, write_whole


def more_of(parser):
    parser.add_argument("--tidy", action="store_true", help="put CR LF, CR, UTF-16, tabs, outer blanks and empty lines of the network right first, and say so")
    parser.add_argument("--drawing", metavar="SVG", help="write a drawing of the network with its flow (needs graphviz)")


def tidy(network, arguments):
    """The network's file, tidied where that is asked for and it was read whole, and which line of the file each of its lines was."""
    from ..tidy import NotCovered, tidied

    try:
        check_outputs([arguments.drawing], [arguments.network, arguments.table])
        if not arguments.tidy or len(handed(network)) > LONGEST:
            return network, []
        data, said, lines = tidied(network.data)
    except (NotCovered, BadOutput) as error:
        raise WrongUse(str(error)) from error
    for what in said:
        say(f"tidied: {what}")
    return (network._replace(path=f"{network.path} as tidied", data=data), lines) if said else (network, [])


def say_line(lines, place: int):
    """Says where a line of the tidied text stands in the file, where that is another one."""
    if place <= len(lines) and lines[place - 1] != place:
        say(f"Line {place} of the tidied text is line {lines[place - 1]} of the file.")


def hint(network):
    """Says what `--tidy` would put right in a network that is not of the form, or that its kind is not covered."""
    from ..tidy import NotCovered, tidied

    try:
        said = tidied(network.data or b"")[1]
    except NotCovered as error:
        say(str(error))
        return
    if said:
        say(f"`flow --tidy` would put right: {'; '.join(said)}.")


def draw(arguments, network, found, place: int, table):
    """Writes the drawing where one is asked for."""
    if arguments.drawing:
        from ..drawing import dot_text, drawn

        paid = table[found.arcs[place - 1].flow]
        write_whole(arguments.drawing, drawn(dot_text(read(network.data.split(b"\n")), found, place, paid)))
        say(f"written: {arguments.drawing}")
