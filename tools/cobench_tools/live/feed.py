"""What the page has to know, item by item: each browser is sent those that are newer than what it has."""
import os
import threading

from ..bundle import content_text


class Feed:
    """Items by name, each as the JSON text that goes to the page, in the order in which they came.

    number  that of the last change; an item that is gone stays, as null

    An item is never changed, but replaced.
    """

    def __init__(self):
        self.name = os.urandom(6).hex()
        self.number = 0
        self._items, self._contents = {}, {}
        self._changed = threading.Condition()

    def put(self, items):
        """Puts items, None for one that is gone; those that are as they were stay as they are. All of them come at once."""
        items = {name: content for name, content in items.items() if content is None or self._contents.get(name) is not content}
        texts = {name: content_text(content) for name, content in items.items()}
        with self._changed:
            new = {name: text for name, text in texts.items() if self._items.get(name, (0, "null"))[1] != text}
            self.number += bool(new)
            for name, text in new.items():
                self._items.pop(name, None)
                self._items[name] = self.number, text
            self._contents.update(items)
            self._changed.notify_all()

    def clear(self):
        """Takes all items away."""
        self.put(dict.fromkeys(list(self._items)))

    def since(self, number, longest):
        """The number of the last change and the items since another, by name; waits for one so many seconds at most."""
        with self._changed:
            self._changed.wait_for(lambda: self.number > number, longest)
            new = []
            for name in reversed(self._items):
                at, text = self._items[name]
                if at <= number:
                    break
                if number or text != "null":
                    new.append((name, text))
            return self.number, dict(reversed(new))

    def wake(self):
        """Has all that wait look again."""
        with self._changed:
            self._changed.notify_all()
