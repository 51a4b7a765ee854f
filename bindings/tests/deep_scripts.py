"""Writes scripts that are as deep as the program takes them, or deeper, into a folder: programs, types, journals, and JSON."""

import os
import sys

HEIGHT = 31


def inside(begin, middle, end, times):
    return begin * times + middle + end * times


def entry(edit):
    return '{"side":"left","edit":' + edit + "}"


def scripts():
    """The name of each script, its program and the lines of its journal."""
    yield "each", f"main {inside('each ', 'id int', '', HEIGHT)}", [
        entry(inside('[{"ins":1},{"mod":[0,', "[]", "]}]", depth)) for depth in range(1, HEIGHT + 1)
    ]
    yield "records", f"main {inside('{a ~ a: ', 'id int', '}', HEIGHT)}", [
        entry(inside('[{"at":["a",', '[{"set":1}]', "]}]", depth)) for depth in range(HEIGHT + 1)
    ]
    yield "alternatives", f"main {inside('<a ~ a: ', 'id int', '>', HEIGHT)}", [entry(inside('[{"stay":["a",', '[{"set":1}]', "]}]", HEIGHT))]
    yield "then", f"main {inside('then(', 'id int', ', id int)', HEIGHT)}", [entry(f'[{{"set":{number}}}]') for number in range(3)]
    yield "lists", f"main id {inside('list ', 'int', '', HEIGHT)}", []
    yield "trees", f"main {inside('tree ', 'id int', '', HEIGHT + 1)}", []
    for times in (HEIGHT + 1, 99, 10000):
        yield f"each-{times}", f"main {inside('each ', 'id int', '', times)}", []
        yield f"lists-{times}", f"main id {inside('list ', 'int', '', times)}", []
        yield f"braces-{times}", f"main {inside('{a: ', 'id int', '}', times)}", []
        yield f"brackets-{times}", f"main {inside('(', 'id int', ')', times)}", []
        yield f"opened-{times}", f"type t = {'[' * times}\nmain id t", []
    yield "json", "main id int", [entry(inside(begin, "", end, times)) for times in (100, 125, 127, 128, 50000) for begin, end in (("[", "]"), ('{"a":', "}"))]


def main():
    for name, program, lines in scripts():
        with open(os.path.join(sys.argv[1], f"{name}.script"), "w", encoding="utf-8") as file:
            file.write("".join(it + "\n" for it in (program, "---", *lines)))


if __name__ == "__main__":
    main()
