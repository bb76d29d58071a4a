"""The commands of cobtool, one in each module.

Each has SUMMARY, one line on what it does; `arguments(parser)`, which adds its words and the text behind its
help; and `run(options)`, which does it and gives the status. What it can't do it raises as `tool.Fault`.
"""
