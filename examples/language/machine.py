# A stack machine, whose program is a list of texts.
def run(program, trace):
    stack = []
    names = {}
    at = 0
    while at < len(program):
        words = program[at].split(' ')
        op = words[0]
        at += 1
        if op == 'push': stack.append(int(words[1]))
        elif op == 'set': names[words[1]] = stack.pop()
        elif op == 'get': stack.append(names[words[1]])
        elif op == 'jump': at = int(words[1])
        elif op == 'unless':
            if not stack.pop(): at = int(words[1])
        elif op == 'show': print(stack[-1])
        else:
            b = stack.pop()
            a = stack.pop()
            stack.append(a + b if op == 'add' else a * b if op == 'mul' else a - b)
        if trace: print(at, stack, names)
    return names
print(run(['push 5', 'set n', 'push 1', 'set r', 'get n', 'unless 15', 'get n', 'get r', 'mul', 'set r', 'get n', 'push 1', 'sub', 'set n', 'jump 4', 'get r', 'show'], False))
print(run(['push 2', 'push 3', 'add', 'set x'], True))
