"""URLs as the URL Standard reads and writes them: the module of the Python client, which the tools share."""

from importlib.util import module_from_spec, spec_from_file_location
from pathlib import Path

FILE = Path(__file__).resolve().parents[2] / 'clients/python/mmrepo/web_urls.py'


def shared():
    """The module of the client, loaded from its file: the package of the client is not on the path of a tool."""
    spec = spec_from_file_location('mmrepo_web_urls', FILE)
    module = module_from_spec(spec)
    spec.loader.exec_module(module)
    return module


MODULE = shared()
SCHEME, Url, parse = MODULE.SCHEME, MODULE.Url, MODULE.parse
