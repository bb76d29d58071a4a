"""What is reported of a node follows from what: it is named with its cause, and not reported by itself."""

OF_TWO = ("boots-again", "never-boots", "boot-stops", "state", "silent", "heartbeat-late", "heartbeat-missed", "pdo-extra", "pdo-inhibit",
          "pdo-event", "pdo-missing", "pdo-window", "pdo-swapped", "pdo-value", "sdo-missing", "sdo-order", "sdo-unanswered")
ABSENT, UNANSWERED = ("pdo-missing", "pdo-event"), ("sdo-unanswered",)

# From a finding of a node these follow that are first there behind it, those of two devices wherever they are.
FOLLOW = {"two-devices": OF_TWO, "never-seen": UNANSWERED, "silent": UNANSWERED, "state": ABSENT,
          "never-boots": ABSENT + UNANSWERED, "boot-stops": ABSENT + UNANSWERED}
WRITTEN = "sdo-missing", "sdo-value"


def fold(judge):
    """Folds what follows."""
    for number in judge.nodes:
        for code in FOLLOW:
            judge.causes.fold((code, str(number)), follows(judge.plan, number))
    for message, cause in first_written(judge).items():
        judge.causes.fold(cause.key, follows_message(judge.plan, message))


def follows(plan, number):
    """Whether a finding follows from one of a node."""
    def is_follower(cause, root):
        is_behind = root.code == "two-devices" or cause.first.line >= root.first.line
        return is_behind and cause.code in FOLLOW[root.code] and plan.node_of(cause.about) == number
    return is_follower


def message_of(plan, cause):
    """The message of which a write is missing or another one, None for none."""
    return plan.message_of(int(cause.subject[0]), int(cause.subject[1], 16)) if cause.code in WRITTEN else None


def first_written(judge):
    """Of each message the first of its writes at its sender that are missing or others."""
    found = {}
    for cause in sorted(judge.causes.found.values(), key=lambda cause: cause.first):
        message = message_of(judge.plan, cause)
        if message and judge.plan.project.messages[message].node == int(cause.subject[0]):
            found.setdefault(message, cause)
    return found


def follows_message(plan, message):
    """Whether a finding follows from a write of a message: it doesn't come, or its writes at those who take it aren't as planned either."""
    def is_follower(cause, root):
        is_absent = cause.code in ABSENT and cause.about == ("message", message)
        is_taken = message_of(plan, cause) == message and cause.subject[0] != root.subject[0]
        return is_absent or is_taken
    return is_follower
