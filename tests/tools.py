"""The commands in tools/, loaded as modules: their names have no ending."""
from importlib.machinery import SourceFileLoader
from importlib.util import module_from_spec, spec_from_loader

from tests.places import ROOT

TOOLS = ROOT / "tools"


def loaded(name):
    module = module_from_spec(spec_from_loader(name, SourceFileLoader(name, str(TOOLS / name))))
    module.__loader__.exec_module(module)
    return module
