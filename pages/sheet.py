"""A sheet that a page is made of: its folder's name, its texts, the names of its states, and what the second reckoning reads of them."""
from functools import cached_property

from reckoning.refusal import Job
from .naming import printable, state_names
from .picture import cut

NAME_LETTERS = 120          # a longer name of a state is cut


class ShownSheet:
    def __init__(self, folder, texts):
        self.texts = texts
        self.name = printable(folder.resolve().name) or "sheet"
        self.names = {state: cut(name, NAME_LETTERS) for state, name in state_names(folder).items()}
        self.read = Job(*texts)

    @cached_property
    def tree(self):
        return self.read.tree

    @cached_property
    def chain(self):
        """With repeated pairs added together."""
        return self.read.chain

    def labels_at(self, state):
        """The labels that hold at a state, in the order of the labels text."""
        return [name.decode() for name, marks in self.chain.marks.items() if marks[state]]
