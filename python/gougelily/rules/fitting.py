"""The L1 fit of document 01, "The plan", with the record's line, way and live lines for 64, 4,096 and 6."""

from math import prod


def products(axes, machine, met):
    """The axes that enter the product of each operand that counts.

    "An operand counts if its size is not 0 and its first axis with byte stride below 64 exists and is not axis 0; it contributes the product of
    blocks of axes before that one whose byte stride is a nonzero multiple of 4,096."
    """
    entering = []
    for size, row in zip(axes.sizes, axes.bytes):
        below = [axis for axis, stride in enumerate(row) if stride < machine.line]
        if size == 0:
            met.add("size 0 does not count")
        elif not below:
            met.add("no byte stride below the line")
        elif below[0] == 0:
            met.add("axis 0 is below the line")
        else:
            entering.append([axis for axis, stride in enumerate(row[: below[0]]) if stride != 0 and stride % machine.way == 0])
            met.add("an operand counts, with axes" if entering[-1] else "an operand counts, with none")
    if len(entering) == 2:
        met.add("both operands count")
    return entering


def load(blocks, entering):
    """The load of the operands that count. "Load is the sum." """
    return sum(prod(blocks[axis] for axis in product) for product in entering)


def fit(axes, blocks, chosen, machine, met):
    """The blocks after the fit.

    "If load is above 6, from the outermost axis: skip an axis where the chosen stride is 0, which enters no product, or whose block is 1; if block 1
    still leaves load above 6, set 1 and go on; else set the greatest block with load at most 6 and end."
    """
    entering = products(axes, machine, met)
    whole = load(blocks, entering)
    if whole <= machine.live:
        met.add("load just the live lines" if whole == machine.live else "load below the live lines")
        return blocks
    blocks = list(blocks)

    def load_with(axis, block):
        return load(blocks[:axis] + [block] + blocks[axis + 1 :], entering)

    for axis in reversed(range(len(blocks))):
        if not any(axis in product for product in entering):
            met.add("an axis enters no product")
        elif blocks[axis] == 1:
            met.add("a block is 1")
        elif axes.strides[chosen][axis] == 0:
            met.add("a chosen stride is 0")
        elif load_with(axis, 1) > machine.live:
            met.add("set 1 and go on")
            blocks[axis] = 1
        else:
            met.add("set the greatest and end")
            # a block that enters a product is no greater than the load
            blocks[axis] = max(block for block in range(1, machine.live + 1) if load_with(axis, block) <= machine.live)
            return blocks
    met.add("load stays above the live lines")
    return blocks
