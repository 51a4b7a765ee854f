"""What `editlens gen N SEED` writes, from the rule of docs/FORMATS.md alone.

The rule makes the entries. What they leave in the two lists of the right document is followed here by hand, over a list of
tags and two lists of contents, so nothing here is taken from the program.
"""

MULTIPLIER, INCREMENT = 6364136223846793005, 1442695040888963407


def entries(count, seed):
    """Yields each entry as its kind and its numbers."""
    s, names, nums = seed, 0, 0
    for k in range(1, count + 1):
        s = (MULTIPLIER * s + INCREMENT) % 2**64
        d = s // 2**33
        r, q = d % 4, d // 4
        n = names + nums
        if n == 0:
            yield "left ins", 1
            names += 1
        elif r == 0:
            yield "right ins", 1
            nums += 1
        elif r == 1:
            yield "left ins", 1
            names += 1
        elif r == 2:
            yield "left move", (q % n, k % n)
        elif nums > 0:
            yield "right add", (q % nums, k)
        else:
            yield "left ins", 1
            names += 1


def summary(count, seed):
    """The five numbers that are shown. The left list is kept as its items, each a tag and a content."""
    left, accepted, refused = [], 0, 0
    for kind, numbers in entries(count, seed):
        places = [place for place, item in enumerate(left) if item[0] == "o"]
        if kind == "left ins":
            left.append(["p", ""])
        elif kind == "right ins":
            left.append(["o", 0])
        elif kind == "left move":
            start, end = numbers
            if not (start < len(left) and end < len(left)):
                refused += 1
                continue
            left.insert(end, left.pop(start))
        else:
            at, number = numbers
            if not (at < len(places) and -2**63 <= left[places[at]][1] + number < 2**63):
                refused += 1
                continue
            left[places[at]][1] += number
        accepted += 1
    nums = [item[1] for item in left if item[0] == "o"]
    return accepted, refused, len(left) - len(nums), len(nums), sum(nums)


def lines_of_summary(count, seed):
    """The text that the command writes."""
    labels = ("accepted", "refused", "names", "nums", "sum")
    return "".join(f"{label} {number}\n" for label, number in zip(labels, summary(count, seed)))
