"""All packages of one build, in one folder, with their bill of materials and SHA256SUMS."""

import os

from .bill import bill, sums
from .deb import library_package, program_package
from .image import image
from .npm import NoNode, npm_package
from .package import archive
from .rust_crate import NoCargo, crate_package
from .wheel import wheel


def packages(built):
    """The packages, each as a name and bytes; and a line for each that this machine cannot make, with the reason."""
    deb = program_package(built)
    found, left_out = [archive(built), deb, wheel(built), image(built, deb[1])], []
    if "edithub" not in built.programs:
        left_out.append("edithub is in none of them: it was not built")
    if not built.library:
        left_out.append("libeditlens-dev, the packages for Node and Rust, and the library in the wheel: the library was not built")
        return found, left_out
    found.append(library_package(built))
    for make in (npm_package, crate_package):
        try:
            found.append(make(built))
        except (NoNode, NoCargo) as why:
            left_out.append(f"{make.__name__}: {why}")
    return found, left_out


def release(built, folder):
    """Writes all packages into a folder. Returns their paths, and a line for each that is left out."""
    found, left_out = packages(built)
    found.append(bill(found))
    found.append(sums(found))
    os.makedirs(folder, exist_ok=True)
    for name, data in found:
        with open(os.path.join(folder, name), "wb") as file:
            file.write(data)
    return [os.path.join(folder, name) for name, _ in found], left_out
