"""The page of a network: its tables, and each message drawn bit by bit."""
from . import matrix, papers, receiver_names
from .page import page_of
from .safe_text import markup
from .tables import Table, html_section, html_table

LEAST_NAMED = 8


def bits_row(network, tpdo):
    """The cells of the parts of a TPDO, as wide as they have bits, and of the bits that are left of its last byte.

    Where the sender's name says nothing, the receivers' is shown, and both when the mouse is there.
    """
    cells = []
    for number, part in enumerate(tpdo.parts, 1):
        beside = receiver_names.of_part(network, tpdo, part)
        text = f"{number} {beside or part.entry.name}" if part.bits >= LEAST_NAMED else str(number)
        title = markup(f"{matrix.bits_text(part)}: {part.entry.name}" + (f" ({beside})" if beside else ""))
        cells.append(f'<td colspan="{part.bits}" title="{title}">{markup(text)}</td>')
    left = 8 * tpdo.size - tpdo.bits
    return "".join(cells) + (f'<td colspan="{left}" class="rest"></td>' if left else "")


def bits_picture(network, tpdo):
    """A message as a strip of its bytes and bits."""
    width = f"width: {tpdo.size * 12.45:g}%; min-width: {tpdo.size * 80}px"
    numbers = "".join(f'<th colspan="8">byte {number}</th>' for number in range(tpdo.size))
    return f'<table class="bits" style="{width}">\n<tr>{numbers}</tr>\n<tr>{bits_row(network, tpdo)}</tr>\n</table>\n'


def message_section(network, tpdo):
    """A message: who sends it and when, its bits, and its signals with those who take them."""
    title = f"{tpdo.identifier:03X}h {matrix.message_name(network, tpdo)}"
    about = f"{network.name(tpdo.node)}, TPDO {tpdo.number}, sent {matrix.when(tpdo)}"
    numbers = {matrix.bits_text(part): number for number, part in enumerate(tpdo.parts, 1)}
    rows = [[numbers[cells[0]]] + cells for cells in matrix.signal_rows(network, tpdo)]
    table = Table("", "", ["No."] + matrix.SIGNAL_COLUMNS, rows)
    return (f'<section class="message">\n<h3>{markup(title)}</h3>\n<p>{markup(about)}</p>\n'
            f'<div class="wide">{bits_picture(network, tpdo)}</div>\n<div class="wide">{html_table(table)}</div>\n</section>\n')


def signals_section(network):
    """All messages, bit by bit."""
    messages = "".join(message_section(network, tpdo) for tpdo in network.tpdos)
    return f"<section>\n<h2>Signals</h2>\n{messages or '<p>None.</p>'}</section>\n"


def network_page(heading, report, network, wanted=None):
    """The page of a network, with what is wrong with it, or of the wanted table alone."""
    shown = [signals_section(network) if table.key == "signals" else html_section(table) for table in matrix.tables_of(network, wanted)]
    return page_of(heading, [papers.wrong_section(report)] + shown)
