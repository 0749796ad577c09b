# Counts words, and shows them by count.
text = 'it was the best of times it was the worst of times'
counts = {}
for word in text.split(' '):
    if word in counts: counts[word] += 1
    else: counts[word] = 1
print(counts)
by_count = {}
for word in counts:
    n = counts[word]
    if by_count.get(n) is None: by_count[n] = []
    by_count[n].append(word)
print(by_count)
most = 0
for n in by_count:
    if n > most: most = n
while most:
    if most in by_count: print(most, ', '.join(by_count.pop(most)))
    most -= 1
print(by_count)
