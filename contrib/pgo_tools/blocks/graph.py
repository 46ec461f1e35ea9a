"""Graphs of blocks, each block with the numbers of those that may come next: what a way leads to, and loops without an
end."""
from typing import Dict, Iterable, Iterator, List, Sequence, Set

Graph = Sequence[Sequence[int]]


def reached(roots: Iterable[int], follow: Graph) -> Set[int]:
    """The blocks that a way from one of the roots comes to, these too."""
    seen = set(roots)
    work = list(seen)
    while work:
        for it in follow[work.pop()]:
            if it not in seen:
                seen.add(it)
                work.append(it)
    return seen


def turned(follow: Graph) -> List[List[int]]:
    """The graph with each edge the other way round."""
    before: List[List[int]] = [[] for _ in follow]
    for n, there in enumerate(follow):
        for it in there:
            before[it].append(n)
    return before


def endless(follow: Graph, exits: Sequence[bool]) -> List[int]:
    """Of each set of blocks that lead to each other and to nothing else, without an exit, the first block."""
    before = turned(follow)
    ending = reached((n for n, leaves in enumerate(exits) if leaves), before)
    found: List[int] = []
    seen: Set[int] = set()
    for n in reversed(finished([n for n in range(len(follow)) if n not in ending], before)):
        if n in seen:
            continue
        group, work, last = {n}, [n], True
        while work:
            for it in follow[work.pop()]:
                if it in seen:
                    last = False
                elif it not in group:
                    group.add(it)
                    work.append(it)
        seen |= group
        if last:
            found.append(min(group))
    return sorted(found)


def finished(blocks: Iterable[int], follow: Graph) -> List[int]:
    """The blocks in the order in which a search in depth leaves them."""
    among, seen = set(blocks), set()
    order: List[int] = []
    for root in blocks:
        stack = [root] if root not in seen else []
        seen.add(root)
        rest: Dict[int, Iterator[int]] = {root: iter(follow[root])}
        while stack:
            there = next((it for it in rest[stack[-1]] if it in among and it not in seen), None)
            if there is None:
                order.append(stack.pop())
            else:
                seen.add(there)
                rest[there] = iter(follow[there])
                stack.append(there)
    return order
