"""The counters and estimates of a small sketch, computed apart from the program.

Prints the values of the test of count_sketch: at level 2 of seed 1, the counters of two keys in three rows, and the
estimates of a key among sixty others, with 1, 3, 5 and 7 rows of 16 counters.
"""

from hash_values import KEY_V4, KEY_V6, bucket, sign

SEED, LEVEL, WIDTH = 1, 2, 16
PAIR = [(KEY_V4, 5), (KEY_V6, 2), (KEY_V4, 1), (KEY_V6, 70000)]
CROWD = [([4, host, 0, 0, 0, 7, 0, 0, 0, 0, 17], 10 * host + 1) for host in range(60)]


def counters(rows, items):
    found = [0] * (rows * WIDTH)
    for key, weight in items:
        for r in range(rows):
            found[r * WIDTH + bucket(SEED, LEVEL, r, WIDTH, key)] += sign(SEED, LEVEL, r, key) * weight
    return found


def said(values, rows, key):
    return [sign(SEED, LEVEL, r, key) * values[r * WIDTH + bucket(SEED, LEVEL, r, WIDTH, key)] for r in range(rows)]


def main():
    print(counters(3, PAIR))
    for rows in (1, 3, 5, 7):
        values = said(counters(rows, CROWD), rows, CROWD[30][0])
        print(rows, values, sorted(values)[rows // 2])


if __name__ == "__main__":
    main()
