"""Why a message isn't clean, or isn't sent: for each of its diagnostics the lines that it is about, and the causes."""


class MessageCauses:
    """The causes of what `diag` says of messages, over the evidence of a session."""

    def __init__(self, evidence):
        self.evidence, self.project, self.origins = evidence, evidence.project, evidence.origins

    def of(self, code, name):
        """The causes of a diagnostic of a message: FILE:LINE and words of each."""
        return [self.warning(code, name)] if code[0] == "W" else self.faults(code, name)

    def place(self, name, part):
        """FILE:LINE of a part of a message."""
        what, *where = part or ("message",)
        return self.origins.place(what, name, *where)

    def faults(self, code, name):
        """Why a message has a fault."""
        causes = [cause for cause in self.evidence.plan.messages[name].faults if cause.code == code]
        found = [(self.place(name, cause.part), self.words(cause)) for cause in causes]
        return found or [(self.place(name, ()), "cobench says so")]

    def words(self, cause):
        """A cause, with the place of the message that it names."""
        return cause.words + (f" ({self.place(cause.other, ())})" if cause.other else "")

    def warning(self, code, name):
        """Why a message is never sent, or shouldn't be sent so."""
        message, counter = self.project.messages[name], self.project.sync_counter
        kind = f"transmission type {message.numbers[0]}"
        if code == "W17":
            return self.place(name, ()), f"{kind} is sent when a remote frame asks for it, and none does"
        if code == "W18":
            return self.place(name, ()), f"{kind} waits for a SYNC, and the manager sends none (SYNC_US is 0)"
        counts = f"SYNC counts from 1 to {counter}" if counter else "SYNC isn't counted (sync-counter is 0)"
        return self.place(name, ("start",)), f"its start value is {message.start}, and {counts}"
