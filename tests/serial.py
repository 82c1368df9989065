"""Regions in a serial order, or the cycle to which a walk leads, judged plainly: by all pairs of accesses.

An access is its region, as a pair of its thread and its number, and its event, as a pair of its kind and its object.
"""


def found(accesses):
    """The regions that are taken, in order; and the hops of the cycle, or None where all regions are taken."""
    before = {
        (one, other)
        for place, (one, event) in enumerate(accesses)
        for other, later in accesses[place + 1 :]
        if one[0] != other[0] and event[1] == later[1] and not event[0] == later[0] == "read"
    }
    left, order = {region for region, _ in accesses}, []

    def next_of(thread):
        return min(region for region in left if region[0] == thread)

    def is_free(region):
        return not any((other, region) in before for other in left)

    while free := [next_of(thread) for thread in sorted({thread for thread, _ in left}) if is_free(next_of(thread))]:
        order.append(free[0])
        left.remove(free[0])
    if not left:
        return order, None
    hops, thread = [], min(thread for thread, _ in left)
    while thread not in [after[0] for _, after in hops]:
        after = next_of(thread)
        hops.append((min(other for other in left if (other, after) in before), after))
        thread = hops[-1][0][0]
    first = [after[0] for _, after in hops].index(thread)
    return order, hops[first:]


def lines(order, hops):
    """What is said of them, but for the outcome."""
    if hops is None:
        return ["serial", *[f"region {thread}:{number}" for thread, number in order]]
    return ["cycle", *["hop {}:{} {}:{}".format(*before, *after) for before, after in hops]]
