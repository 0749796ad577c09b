# Run-length encoding, there and back.
def encoded(t):
    out = []
    at = 0
    while at < len(t):
        end = at
        while end < len(t) and t[end] == t[at]: end += 1
        out.append(str(end - at) + t[at])
        at = end
    return ''.join(out)
def decoded(t):
    out = ''
    n = 0
    for c in t:
        if c in '0123456789': n = n * 10 + int(c)
        else:
            out += c * n
            n = 0
    return out
for t in ['aaabccd', '', 'x', 'éé😀😀😀', 'a' * 12 + 'b']:
    e = encoded(t)
    print(repr(t), repr(e), decoded(e) == t)
