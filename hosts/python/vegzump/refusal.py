"""What all refusals have; causes.py has one class for each cause."""


class Refusal(Exception):
    """Why a table or a formula is refused. Its values are attributes, with the names that `names` lists. A `place` is the offset of a field's tag in the
    table, or the table's length if something is missing at its end. A `token` is an index from 0; at the end of the formula it is the token count."""
    number, names, message = 0, (), ""

    def __init__(self, a=0, b=0, c=0):
        super().__init__(a, b, c)
        self.__dict__.update(zip(self.names, self.args))

    def numbered(self):
        """The cause's number and its three values."""
        return self.number, self.args

    def __str__(self):
        return self.message.format(**dict(zip(self.names, self.args)))

    def __eq__(self, other):
        return isinstance(other, Refusal) and self.numbered() == other.numbered()

    def __hash__(self):
        return hash(self.numbered())


def refusal(number, a, b, c):
    """The cause with a number and three values."""
    for cause in Refusal.__subclasses__():
        if cause.number == number:
            return cause(a, b, c)
    raise RuntimeError("the library answered with the unknown number %d" % number)
