# Two ways to sort, over numbers, texts and lists.
def insertion(items):
    out = []
    for x in items:
        i = 0
        while i < len(out) and out[i] <= x: i += 1
        out.insert(i, x)
    return out
def merge(a, b):
    out = []
    i = 0
    j = 0
    while i < len(a) and j < len(b):
        if b[j] < a[i]:
            out.append(b[j])
            j += 1
        else:
            out.append(a[i])
            i += 1
    return out + a[i:] + b[j:]
def merge_sort(items):
    if len(items) < 2: return items[:]
    half = len(items) // 2
    return merge(merge_sort(items[:half]), merge_sort(items[half:]))
numbers = []
n = 7
for i in range(60):
    n = n * 31 % 101
    numbers.append(n - 50)
print(insertion(numbers) == merge_sort(numbers), merge_sort(numbers))
print(insertion('the quick brown fox jumps over the lazy dog'.split(' ')))
print(merge_sort([[2, 'b'], [1, 'z'], [2, 'a'], [1]]), merge_sort([True, 0, -1, False, 2]))
