# Primes below 200, by striking out multiples.
def primes_below(n):
    is_prime = [True] * n
    found = []
    for i in range(2, n):
        if is_prime[i]:
            found.append(i)
            for j in range(i * i, n, i): is_prime[j] = False
    return found
print(primes_below(200))
print(len(primes_below(1000)))
