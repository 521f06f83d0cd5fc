"""The reference once more with one rule turned, so that the judge stays as it is."""
import inspect
import os
import re
import textwrap
import types

HERE = os.path.dirname(os.path.abspath(__file__))


def turned(modules, *names):
    """Pairs of what a wrong program does and its module, for each function of these modules. It is made of files of the reference."""
    for turn in (rule for module in modules for rule in vars(module).values() if inspect.isfunction(rule)
                 and rule.__module__ == module.__name__):
        made = fresh(names)
        turn(made)
        yield turn.__name__.replace("_", " "), made


def fresh(names):
    """Files of the reference as one module: those behind the first have its names as their own."""
    made = types.ModuleType("turned")
    for name in names:
        path = os.path.join(HERE, f"{name}.py")
        with open(path, encoding="utf-8") as file:
            text = re.sub(rf"(?m)^from reference.{names[0]} import .*$", "", file.read())
        exec(compile(text, path, "exec"), vars(made))
    return made


def rebound(function, old, new):
    """A function or a method whose source has other words in one place."""
    source, made = textwrap.dedent(inspect.getsource(function)), {}
    assert source.count(old) == 1
    exec(source.replace(old, new), function.__globals__, made)
    return made[function.__name__]


def forgiven(found, words):
    """A status where refusals that begin with these words don't count, and the lines."""
    _, lines = found
    bad = [line for line in lines if " refused: " in line and not line.startswith(words)]
    return 2 if bad or lines[-1:] and lines[-1].startswith(("unended ", "too many rows")) else 0, lines
