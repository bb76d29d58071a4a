"""Prints who sends what to whom: the network's page for the papers of the machine."""
import os

from .. import matrix, matrix_page, network, papers, tables, tool

SUMMARY = "print who sends what to whom, with nodes, parameters and heartbeats"

AFTER = f"""Runs cobench on SCRIPT, and prints the network as its nodes are once they are
configured: nodes, messages with their COB-IDs, the signals in each with those who
take them, parameters and heartbeats. A TPDO that no message sets, and that a
device has switched on by its defaults, stands with them. HTML is one page that
needs nothing beside it, and prints on A4: it says when it was made, of which version
of SCRIPT, where git has one, and what is wrong; CSV is one table: the signals,
where --table doesn't say which.

{network.HELP}

  cobtool matrix --format html network.txt > network.html"""


def arguments(parser):
    parser.epilog = AFTER
    parser.add_argument("--format", choices=["text", "markdown", "csv", "html"], default="text", help="text without it")
    parser.add_argument("--table", choices=list(matrix.TABLES), help="print this table alone")
    parser.add_argument("--title", metavar="TEXT", help="what stands above, not the name of SCRIPT")
    network.add_arguments(parser)


def printed(options, wiring, report):
    """What is printed of a network, with what is wrong with it."""
    title = options.title or os.path.basename(tool.name_of(options.script))
    heading = matrix.heading(title, wiring)
    if options.format == "csv":
        return tables.as_csv(matrix.tables_of(wiring, options.table or "signals")[0])
    if options.format == "html":
        return matrix_page.network_page(heading + [papers.made_of(options.script, report)], report, wiring, options.table)
    shown = matrix.tables_of(wiring, options.table)
    return (tables.as_text if options.format == "text" else tables.as_markdown)(heading, shown)


def run(options):
    wiring, report = network.wired(options)
    tool.put(printed(options, wiring, report))
    return report.status
