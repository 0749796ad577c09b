# Linked lists and trees, of dicts.
def node(value, rest): return {'value': value, 'rest': rest}
def listed(it):
    out = []
    while it is not None:
        out.append(it['value'])
        it = it['rest']
    return out
def turned(it):
    out = None
    while it is not None:
        out = node(it['value'], out)
        it = it['rest']
    return out
chain = None
for i in range(5): chain = node(i, chain)
print(listed(chain), listed(turned(chain)), chain)
def put(tree, key):
    if tree is None: return {'key': key, 'left': None, 'right': None}
    side = 'left' if key < tree['key'] else 'right'
    tree[side] = put(tree[side], key)
    return tree
def walk(tree, out):
    if tree is not None:
        walk(tree['left'], out)
        out.append(tree['key'])
        walk(tree['right'], out)
    return out
tree = None
for w in 'it was the best of times'.split(' '): tree = put(tree, w)
print(walk(tree, []))
print(tree)
