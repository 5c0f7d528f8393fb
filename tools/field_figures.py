#!/usr/bin/env python3
# The figures that the program crates/field_figures must write, made without any of its code:
#
#     tools/field_figures.py > crates/field_figures/stdout
#
# A polynomial over two elements is a list of its coefficients, lowest first; its mask is the number with those digits.
# Products are convolutions with the remainder of a long division, the polynomial of a degree is searched for by the
# powers that decide whether it is primitive, inverses are looked for among all products, logarithms among all powers,
# and the order of 2 among the divisors of Euler's totient.
from math import gcd


def polynomial(mask):
    return [int(digit) for digit in reversed(bin(mask)[2:])] if mask else []


def mask_of(coefficients):
    return sum(c << i for i, c in enumerate(coefficients))


def multiply(a, b, modulus):
    p, q, m = polynomial(a), polynomial(b), polynomial(modulus)
    product = [0] * (len(p) + len(q))
    for i, x in enumerate(p):
        for j, y in enumerate(q):
            product[i + j] = (product[i + j] + x * y) % 2
    for top in range(len(product) - 1, len(m) - 2, -1):
        if product[top]:
            for i, x in enumerate(m):
                place = top - (len(m) - 1) + i
                product[place] = (product[place] + x) % 2
    return mask_of(product)


def power(a, k, modulus):
    result = 1
    for digit in bin(k)[2:]:
        result = multiply(result, result, modulus)
        if digit == '1':
            result = multiply(result, a, modulus)
    return result


def divisors(n):
    return [d for d in range(1, n + 1) if n % d == 0]


def primes_of(n):
    return [d for d in divisors(n) if len(divisors(d)) == 2]


# x has the order 2^s - 1 modulo the polynomial: its power 2^s - 1 is 1, and no power (2^s - 1) / q by a prime q is.
def is_primitive(s, modulus):
    order = 2**s - 1
    return power(2, order, modulus) == 1 and all(power(2, order // q, modulus) != 1 for q in primes_of(order))


def smallest_primitive(s):
    return next(m for m in range(2**s, 2 ** (s + 1)) if is_primitive(s, m))


# All products of a, by the products of a with the powers of x: the product is linear.
def row(s, a, modulus):
    products = [0]
    for i in range(s):
        shifted = multiply(a, 2**i, modulus)
        products += [y ^ shifted for y in products]
    return products


# The one x with a x = 1; 2^s, which is no element, where there is none.
def inverse(s, a, modulus):
    products = row(s, a, modulus)
    assert products.count(1) == (1 if a else 0)
    return products.index(1) if a else 2**s


def order_of_two(n):
    totient = sum(1 for k in range(1, n) if gcd(k, n) == 1)
    return next(d for d in divisors(totient) if pow(2, d, n) == 1)


def checksum(values):
    h = 0
    for x in values:
        h = (h * 1000003 + x) % 4294967291
    return h


# The sample of a degree above 8: 4,096 pairs. The state x starts at 1; a step makes it (x * 1664525 + 1013904223)
# modulo 2^32, and its element is x / 2^16 modulo 2^s. Each pair takes two steps, the first for a and the second for b.
def sample(s):
    x = 1
    for _ in range(4096):
        pair = []
        for _ in range(2):
            x = (x * 1664525 + 1013904223) % 2**32
            pair.append(x // 2**16 % 2**s)
        yield pair


def pairs(s):
    return ([a, b] for a in range(2**s) for b in range(2**s)) if s <= 8 else sample(s)


def powers_of(s, modulus):
    powers = [1]
    while len(powers) < 2**s - 1:
        powers.append(multiply(powers[-1], 2, modulus))
    return powers


def main():
    degrees = range(2, 13)
    modulus = {s: smallest_primitive(s) for s in degrees}
    for s in degrees:
        products = checksum(multiply(a, b, modulus[s]) for a, b in pairs(s))
        print('degree %d mask %d products %d tables %d' % (s, modulus[s], products, products))
    for s in degrees:
        powers = powers_of(s, modulus[s])
        logs = checksum(powers.index(a) for a in range(1, 2**s))
        inverses = checksum(inverse(s, a, modulus[s]) for a in range(2**s))
        order = order_of_two(2**s - 1)
        print('degree %d powers %d logs %d inverses %d order %d' % (s, checksum(powers), logs, inverses, order))
    for s in degrees:
        smaller = range(2**s, modulus[s])
        primitive = sum(is_primitive(s, m) for m in smaller)
        own = is_primitive(s, modulus[s])
        print('degree %d smaller %d primitive %d own %d' % (s, len(smaller), primitive, own))
    print('lengths %d' % checksum(order_of_two(n) for n in range(3, 128, 2)))


main()
