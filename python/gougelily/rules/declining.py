"""Whether tiles are declined: document 01, "The plan", with the record's line for 64."""


def declined(axes, blocks, line, met):
    """Whether the blocks are given up for full ones.

    "Tiles are declined (blocks are full) if the first cut axis is not axis 0 and each operand of nonzero size passes: width = size + the sum of
    (extent - 1) x byte stride over axes before the cut, a multiple of 64; then, over the other axes by rising byte stride, each is a multiple of 64
    and no less than the span so far, which grows from width by (extent - 1) x stride."
    """
    shortened = [axis for axis, (extent, block) in enumerate(zip(axes.extents, blocks)) if block < extent]
    if not shortened:
        met.add("nothing shortened")
        return False
    first = shortened[0]
    if first == 0:
        met.add("axis 0 is cut")
        return False
    for size, row in zip(axes.sizes, axes.bytes):
        if size == 0:
            met.add("an operand of size 0 passes")
            continue
        span = size + sum((extent - 1) * stride for extent, stride in zip(axes.extents[:first], row))
        if span % line:
            met.add("width no multiple of the line")
            return False
        for stride, extent in sorted(zip(row[first:], axes.extents[first:])):
            if stride < span:
                met.add("a stride below the span")
                return False
            if stride % line:
                met.add("a stride no multiple of the line")
                return False
            span += (extent - 1) * stride
    met.add("declined")
    return True
