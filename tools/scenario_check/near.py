"""Likely spellings: the nearest of the known words, where some are near."""


def distance(one, other, most):
    """The least number of insertions, deletions, changes and swaps of neighbours from one word to the other.

    Beyond a bound it is one more than that; so only places near the diagonal of the table are looked at.
    """
    far = most + 1
    before, row = None, {at: at for at in range(min(len(other), most) + 1)}
    for i, letter in enumerate(one, 1):
        last, row = row, {}
        for j in range(max(0, i - most), min(len(other), i + most) + 1):
            row[j] = min(last.get(j, far), row.get(j - 1, far)) + 1
            if j:
                row[j] = min(row[j], last.get(j - 1, far) + (letter != other[j - 1]))
            if i > 1 and j > 1 and letter == other[j - 2] and one[i - 2] == other[j - 1]:
                row[j] = min(row[j], before.get(j - 2, far) + 1)
        if min(row.values(), default=far) > most:
            return far
        before = last
    return min(row.get(len(other), far), far)


SHOWN_MAX = 4
# how many changes off a word is near, for up to four letters and for more
MOST = 1, 2


def near(word, known):
    """The nearest known words but itself, as one text, or None. Of many equals the first ones are named."""
    found = nearest(word, known)
    return " or ".join(found[:SHOWN_MAX]) or None


def only_near(word, known):
    """The nearest known word where no other is as near, or None."""
    found = nearest(word, known)
    return found[0] if len(found) == 1 else None


def nearest(word, known):
    """The nearest known words but itself: one change off for up to four letters, else two."""
    best, least = [], MOST[len(word) > 4]
    low, letters = word.lower(), set(word.lower())
    for other in known:
        is_far = abs(len(other) - len(word)) > least or len(letters.symmetric_difference(other)) > 2 * least
        if other != word and not is_far:
            changes = distance(low, other, least)
            if changes < least:
                best, least = [], changes
            if changes == least and other not in best:
                best.append(other)
    return best
