"""Modules made of a module's source, or of a package's, with texts of it replaced: wrong models, and a model that puts a reason to the test."""
import inspect
import re
import types


def source_of(module):
    """The source of a module; of a package that of its parts in turn, without what they import of each other."""
    parts = getattr(module, "PARTS", (module,))
    return "\n".join(re.sub(rf"^from {module.__name__}\.\w+ import .*\n", "", inspect.getsource(part), flags=re.M) for part in parts)


def edited(module, name, *edits, **given):
    """The module with each edit's first text, which it has once, replaced by its second; it has the names that are given too."""
    source = source_of(module)
    for old, new in edits:
        assert source.count(old) == 1, f"{name}: {source.count(old)} times in {module.__name__}: {old}"
        source = source.replace(old, new)
    made = types.ModuleType(name)
    made.__dict__.update(given, __file__=module.__file__)
    exec(compile(source, name, "exec"), made.__dict__)
    return made
