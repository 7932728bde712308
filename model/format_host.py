"""The model of docs/FORMAT.md: a host, which makes the calls and keeps what they hand on."""
from format_mount import MountCall
from format_numbers import ALL_STORES, Answer
from format_volume import Memory, Refused, Unfinished


class Host:
    """What a host has (sections 2 and 10): the drives' memory, the geometry for the calls, and the state of the last finished call."""

    def __init__(self, geometry):
        self.geometry, self.memory, self.state = geometry, Memory(geometry), None
        self.stores, self.bad_place = [], None

    def store(self, name, named, *arguments, count=ALL_STORES, lengths=None):
        """A call that stores: its answer, a number. Finished, its state is kept. Refused for a log's sector, `bad_place` is that sector's."""
        call = MountCall(self.geometry, self.memory, named, self.state, lengths)
        self.stores, self.bad_place = call.made, None
        try:
            self.state = call.carry_out(getattr(call, name)(*arguments), count)
            return Answer.FINISHED
        except Refused as refused:
            self.bad_place = refused.place
            return refused.number
        except Unfinished:
            return Answer.UNFINISHED

    def ask(self, name, named, *arguments, state=None, lengths=None):
        """A look, read, peek or report: its answer, and what it gives if it finishes, or the place of a log's sector for which it is refused."""
        call = MountCall(self.geometry, self.memory, named, state or self.state, lengths)
        try:
            return Answer.FINISHED, getattr(call, name)(*arguments)
        except Refused as refused:
            return refused.number, refused.place
