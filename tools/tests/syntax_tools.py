"""The tools with files of YAML and TOML, as they are called."""

import json
import os
import tempfile

from .natural_syntaxes import needed
from .scripts import called, files

LENS = 'main keyed {name ~ title: id text, price ~ cost: id text = "0", left fax: <none: unit, some: text>, right stock: int}\n'
FORM = {"": {"key": "id"}, "/*/price": "number", "/*/fax": {"missing": "none"}}
SHOP = '# the shop\n- id: b-1\n  name: Bolt   # M6\n  price: 0.50\n# small\n- id: n-2\n  name: Nut\n  price: 2\n  fax: "11"\n'
STOCK = '# prices\n[b-1]\ntitle = "Bolt"\ncost = "0.50"  # net\nstock = 7\n\n[n-2]\ntitle = "Nut"\ncost = "2"\nstock = 40\n'
DOCUMENT = '{"b-1":{"fax":{"none":null},"name":"Bolt","price":"0.50"},"n-2":{"fax":{"some":"11"},"name":"Nut","price":"2"}}\n'
PATCH = '[{"op":"replace","path":"/1/price","value":2.10},{"op":"remove","path":"/0"}]\n'


def read(folder, name):
    with open(os.path.join(folder, name), encoding="utf-8") as file:
        return file.read()


def shop(folder):
    needed("ruamel.yaml", "python3-ruamel.yaml")
    needed("tomlkit", "python3-tomlkit")
    files(folder, lens=LENS, form=FORM)
    files(folder, **{"shop.yaml": SHOP, "stock.toml": STOCK})


def test_natural():
    with tempfile.TemporaryDirectory() as folder:
        shop(folder)
        words = ("lens", "left", "form")
        assert called(folder, "natural", "to", *words, "--as", "yaml", given=SHOP) == (0, DOCUMENT, "")
        assert called(folder, "natural", "from", *words, "--like", "shop.yaml", given=DOCUMENT) == (0, SHOP, "")
        changed = DOCUMENT.replace("0.50", "0.55")
        assert called(folder, "natural", "from", *words, "--like", "shop.yaml", given=changed) == (0, SHOP.replace("0.50", "0.55"), "")
        new = '- id: b-1\n  name: Bolt\n  price: 0.50\n- id: n-2\n  fax: "11"\n  name: Nut\n  price: 2\n'
        assert called(folder, "natural", "from", *words, "--as", "yaml", given=DOCUMENT) == (0, new, "")
        status, out, err = called(folder, "natural", "to", *words, "--as", "yaml", given=SHOP.replace("Bolt", "no"))
        assert (status, out) == (2, "") and err.startswith("/0/name (line 3): no is false to some programs"), err
        status, out, err = called(folder, "natural", "from", *words, "--as", "toml", given=DOCUMENT)
        assert (status, out) == (2, "") and err.startswith("a file of TOML is an object, and not ["), err


def test_a_store_of_such_files():
    """A store is made of a file of YAML and one of TOML. Both are brought up to date by patches, and keep their comments."""
    with tempfile.TemporaryDirectory() as folder:
        shop(folder)
        assert called(folder, "load", "--store", "kept", "--left-form", "form", "lens", "shop.yaml", "stock.toml") == (0, "", "")
        both = ("--left-form", "form", "--left-file", "shop.yaml", "--right-file", "stock.toml", "kept", "left")
        status, out, err = called(folder, "patch", *both, given=PATCH)
        assert (status, err) == (0, "") and json.loads(out.split(" ", 2)[2])[1] == {"op": "remove", "path": "/b-1"}, (out, err)
        assert read(folder, "shop.yaml") == '# the shop\n# small\n- id: n-2\n  name: Nut\n  price: 2.10\n  fax: "11"\n'
        assert read(folder, "stock.toml") == '# prices\n[n-2]\ntitle = "Nut"\ncost = "2.10"\nstock = 40\n'
        files(folder, **{"stock.toml": STOCK})
        status, out, err = called(folder, "patch", *both, given=PATCH)
        assert (status, out) == (2, "") and err.startswith("stock.toml is not what the right side of this store shows"), err


def test_tools_that_take_files():
    with tempfile.TemporaryDirectory() as folder:
        shop(folder)
        files(folder, patch=[{"op": "replace", "path": "/0/name", "value": "Screw"}], edit=[{"drop": "n-2"}])
        status, out, err = called(folder, "patch-to-edit", "--form", "form", "lens", "left", "shop.yaml", "patch")
        assert (status, err) == (0, "") and '{"set":"Screw"}' in out, (out, err)
        assert called(folder, "edit-to-patch", "--form", "form", "lens", "left", "shop.yaml", "edit")[1] == '[{"op":"remove","path":"/1"}]\n'
        status, out, err = called(folder, "infer", "--left", "shop.yaml", "--right", "stock.toml")
        assert status == 0 and "name ~ title: id text" in out, (out, err)
        called(folder, "load", "--store", "kept", "--left-form", "form", "lens", "shop.yaml", "stock.toml")
        files(folder, **{"stock.toml": STOCK.replace("stock = 7", "stock = 8")})
        status, out, err = called(folder, "store", "change-lens", "lens", "kept", "--right", "stock.toml", "--yes")
        assert status == 0, (out, err)
        status, _, err = called(folder, "load", "--left-form", "form", "lens", "shop.yaml", "missing.toml")
        assert status == 2 and "missing.toml" in err, err
