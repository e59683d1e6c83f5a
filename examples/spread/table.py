"""A plain model of the tables that `dswitch spread` and `drain` make (docs/DECISIONS.md, "selector_buckets")."""

MULTIPLIER = 2654435761
SKIP_MULTIPLIER = 2246822519


def quotas_of(weights, count):
    """How many buckets each member gets: by the largest remainders."""
    total = sum(weights)
    quotas = [count * weight // total for weight in weights]
    remainders = [count * weight % total for weight in weights]
    for _ in range(count - sum(quotas)):
        member = max(range(len(weights)), key=lambda it: (remainders[it], -it))
        quotas[member] += 1
        remainders[member] = 0
    return quotas


def permutation(identity, count):
    """The buckets in the order in which a member wants them."""
    offset = identity * MULTIPLIER % 2**32 >> 16
    skip = (identity * SKIP_MULTIPLIER % 2**32 >> 16) * 2 + 1
    return [(offset + skip * step) % count for step in range(count)]


def table_of(members, count):
    """The index of each bucket's member. `members` are pairs of an ID and a weight."""
    quotas = quotas_of([weight for _, weight in members], count)
    wanted = [permutation(identity, count) for identity, _ in members]
    table = [None] * count
    for turn in range(count):
        for index, quota in enumerate(quotas):
            if turn < quota:
                table[next(bucket for bucket in wanted[index] if table[bucket] is None)] = index
    return table


def drained(table, count, gone):
    """The table after the member at an index has left."""
    table = list(table)
    others = [index for index in range(count) if index != gone]
    for bucket, index in enumerate(table):
        if index == gone:
            table[bucket] = min(others, key=lambda it: (table.count(it), it))
    return [gone if index == count - 1 else index for index in table]
