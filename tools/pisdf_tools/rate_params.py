"""Which parameters of a graph decide its rates, and which stand in the arguments of kernels alone."""
from .expressions import names


def names_in(expressions):
    return {name.name for expression in expressions for name in names(expression.tree)}


def with_sources(graph, found):
    """These parameters with all that they are derived from."""
    found, pending = set(found), list(found)
    while pending:
        param = graph.param(pending.pop())
        more = names_in([param.expression]) - found if param.kind == "is" else set()
        found |= more
        pending += more
    return found


class RateParams:
    """The parameters of the graphs of one file that decide rates, there or in a graph below."""

    def __init__(self, file):
        self.file, self.found = file, {}

    def of(self, graph):
        if graph.pointer not in self.found:
            direct = names_in(port.rate for port in graph.inputs + graph.outputs)
            for actor in graph.actors:
                direct |= self.of_child(actor) if actor.is_hierarchical else names_in(port.rate for port in actor.ins + actor.outs if port.rate)
            self.found[graph.pointer] = with_sources(graph, direct)
        return self.found[graph.pointer]

    def of_child(self, actor):
        """The parameters in the arguments by which an actor's graph gets those that decide its rates."""
        child = self.file.child_of(actor)
        deciding = self.of(child)
        return names_in(argument for argument, param in zip(actor.args, child.of_kind("in")) if param.name.text in deciding)
