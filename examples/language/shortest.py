# The shortest way through a graph, breadth first.
roads = {'a': ['b', 'c'], 'b': ['d'], 'c': ['d', 'e'], 'd': ['f'], 'e': ['f', 'g'], 'f': ['g'], 'g': [], 'z': ['a']}
def way(start, end):
    came = {start: None}
    queue = [start]
    for here in queue:
        if here == end: break
        for there in roads[here]:
            if there not in came:
                came[there] = here
                queue.append(there)
    if end not in came: return None
    back = []
    while end is not None:
        back.insert(0, end)
        end = came[end]
    return back
print(way('a', 'g'), way('z', 'f'), way('g', 'a'), way('a', 'a'))
