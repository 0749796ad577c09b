# Lists and dicts within one another, gone through by a function.
data = {'name': 'box', 'size': [3, 4, 5], 'inside': [{'name': 'ball', 'size': [1]}, {'name': 'bag', 'inside': [{'name': 'coin'}, None]}], 'open': True, None: []}
def is_list(x): return repr(x)[0] == '['
def is_dict(x): return repr(x)[0] == '{'
def outline(x, depth):
    if is_dict(x):
        for k in x:
            print('  ' * depth + str(k) + ':')
            outline(x[k], depth + 1)
    elif is_list(x):
        for y in x: outline(y, depth + 1)
    else: print('  ' * depth + repr(x))
outline(data, 0)
data['inside'][1]['inside'][0]['name'] += 's'
data['size'][-1] *= 2
del data['open']
print(data)
print(data['inside'][1]['inside'] == [{'name': 'coins'}, None], len(data['inside']), data.get('inside')[0]['size'][0])
