"""What `./build --library --unproved` puts together: the program that names each export, the code in which they can be seen, and the mark."""

import os
import sys

from editlens.program import TOP

from . import Skipped

sys.path.insert(0, os.path.join(TOP, "dev"))

from repository import kit, unproved  # noqa: E402
from repository.exports import read_exports, read_source  # noqa: E402
from repository.library import package_config  # noqa: E402

NEEDS_PROGRAM = False


def some_code(exports):
    """The code of a program in the language of LLVM, in which these exports do nothing."""
    lines = []
    for module, name, result in exports:
        given = "ptr noundef %a0, ptr noundef %a1" if result == "Answer" else ""
        kind = {"Answer": "void", "": "void", "usize": "noundef i64", "u32": "noundef i32"}[result]
        lines.append(f'define internal {kind} @"editlens_c::{module}::{name}"({given}) #0 {{\n}}\n')
    lines.append("define i32 @main() #0 {\n}\n\nattributes #0 = { nounwind sanitize_address }\n")
    return "".join(lines)


def test_the_program_names_each_export_and_each_module():
    text = unproved.program_text()
    for module, exports in unproved.exports_by_module().items():
        assert exports, module
        for it in exports:
            assert text.count(f" {module}::{it.name}(") == 1 + (it.name == "editlens_session_size"), it.name
    for line in read_source("lib.rt").splitlines():
        assert not line.startswith("mod ") or line in text.splitlines(), line
    sources = [name for name in os.listdir(os.path.join(TOP, "crates", "editlens_c", "src")) if read_exports(name)]
    assert sorted(sources) == sorted(f"{it}.rt" for it in unproved.exports_by_module()), sources


def test_exports_can_be_seen_and_main_cannot():
    exports = [(module, it.name, it.result) for module, each in unproved.exports_by_module().items() for it in each]
    for sanitizer in ("", *unproved.SANITIZERS):
        text = unproved.visible(some_code(exports), sanitizer)
        seen = [line.split("@")[1].split("(")[0] for line in text.splitlines() if line.startswith("define ") and " internal " not in line]
        assert sorted(seen) == sorted(name for _, name, _ in exports), seen
        assert text.count(" sret(") == sum(result == "Answer" for _, _, result in exports)
        assert f" sanitize_{sanitizer or 'address'} " in text, text


def test_code_that_lacks_an_export_is_refused():
    exports = [(module, it.name, it.result) for module, each in unproved.exports_by_module().items() for it in each]
    try:
        unproved.visible(some_code(exports[1:]))
    except unproved.NotBuilt as why:
        assert exports[0][1] in str(why)
    else:
        raise AssertionError("no one missed it")


def test_what_is_unproved_says_so():
    proved, other = package_config(is_proved=True), package_config(is_proved=False)
    assert "UNPROVED" not in proved and "+" not in proved
    assert "Description: UNPROVED" in other and "+unproved\n" in other


def test_each_library_below_is_passed_as_a_source():
    try:
        words = unproved.library_words()
    except (OSError, IndexError):
        raise Skipped("there is no rt") from None
    paths = [it.split("=")[1] for it in words if it != "--lib"]
    assert all(os.path.exists(it) for it in paths), [it for it in paths if not os.path.exists(it)]
    assert any(it.startswith(kit.kit()) for it in paths) and sum(it.startswith(TOP) for it in paths) > 30
