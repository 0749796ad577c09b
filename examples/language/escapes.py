# What texts show: quotes and escapes.
for t in ['a', "it's", '"', '\'"', '\\', '\n\r\t', '\x00\x01\x1f\x7f', '\x0b\x0c\x1b', 'é€😀', "a\\'b", '']:
    print(t == '' or t[0], repr(t), [t], {t: t}, len(repr(t)))
print(repr(repr("it's")), str('a\'b"c'), repr('a\'b"c'), repr("\"\""))
print('a\tb\\n', "tab\there", 'new\nline', '\x41\x62\xe9')
