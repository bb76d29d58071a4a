"""The order of findings by the lines of their script: what is about a data sheet stands where that is taken in."""
from .script import beside

BEHIND_ALL = float("inf")


class ScriptOrder:
    """Where each line that a session has read stands in its script, files that are taken in at their place."""

    def __init__(self, pairs):
        self._commands, self._files, self._blocks = {}, {}, {}
        for number, (command, _) in enumerate(pairs):
            self._commands.setdefault(command.place, number)
            if command.block is not None and command.file is not None:
                self._files.setdefault(beside(command.path, command.file), number)
            elif command.block is not None:
                self._blocks.setdefault(command.path, []).append((command.number, number))

    def key(self, place):
        """By what FILE:LINE is sorted."""
        if place in self._commands:
            return self._commands[place], 0
        if place.path in self._files:
            return self._files[place.path], place.line
        inside = [number for line, number in self._blocks.get(place.path, ()) if line < place.line]
        return (inside[-1], place.line) if inside else (BEHIND_ALL, place.line)

    def sorted(self, findings):
        """The findings in this order, equal ones as they stand."""
        return sorted(findings, key=lambda finding: self.key(finding.place))
